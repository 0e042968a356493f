//! Cases of the chain coder: decoding symbols from random words, and encoding them back.

use crate::{
    input::{weights, Random, COUNT},
    models::{large, small},
    Bench,
};
use constriction::stream::{chain::ChainCoder, Decode};
use std::hint::black_box;

/// Returns words for COUNT symbols of this precision.
fn random_words<Word>(bits: usize, precision: usize, word: impl Fn(u64) -> Word) -> Vec<Word> {
    let mut random = Random::new(0xfeed_beef_1234_5678);
    (0..COUNT * precision / bits + 16)
        .map(|_| word(random.next() >> 20))
        .collect()
}

/// Times a decoder under a model, and then an encoder under it, if requested.
macro_rules! chain_case {
    ($bench:expr, $word:ty, $state:ty, $precision:literal, $size:literal, $kind:literal, $model:expr
     $(, $encode:ident)?) => {{
        type Coder = ChainCoder<$word, $state, Vec<$word>, Vec<$word>, $precision>;
        let words = random_words(<$word>::BITS as usize, $precision, |number| number as $word);
        let mut symbols = vec![0; COUNT];
        let mut decoded = |words| {
            let mut coder = Coder::from_binary(words).ok().unwrap();
            for (place, symbol) in symbols.iter_mut().zip(coder.decode_iid_symbols(COUNT, $model)) {
                *place = symbol.ok().unwrap();
            }
            coder
        };
        let name = format!("chain_decode_{}_{}", $size, $kind);
        $bench.case(&name, || words.clone(), &mut decoded);
        $(
            let mut coder = decoded(words.clone());
            let $encode = |coder: &mut Coder| {
                coder.encode_iid_symbols_reverse(&symbols, $model).ok().unwrap();
            };
            let name = format!("chain_encode_{}_{}", $size, $kind);
            $bench.case(&name, || coder.clone(), |mut coder| {
                $encode(&mut coder);
                coder
            });
            $encode(&mut coder);
            assert!(coder.into_binary().ok().unwrap().1 == words);
        )?
    }};
}

/// Runs all cases of the chain coder.
pub fn cases(bench: &Bench) {
    let weights_24 = weights(24);
    let table = large::Table::new(&weights_24);
    let bucket = large::Bucket::new(&weights_24);
    let flat = black_box(large::Flat::new(8));
    chain_case!(bench, u32, u64, 24, "u32u64p24", "table", &table, encode);
    chain_case!(bench, u32, u64, 24, "u32u64p24", "bucket", &bucket);
    chain_case!(bench, u32, u64, 24, "u32u64p24", "flat", &flat, encode);

    let weights_12: Vec<u16> = weights(12).iter().map(|&weight| weight as u16).collect();
    let table = small::Table::new(&weights_12);
    let lookup = small::Lookup::new(&weights_12);
    let flat = black_box(small::Flat::new(8));
    chain_case!(bench, u16, u32, 12, "u16u32p12", "table", &table, encode);
    chain_case!(bench, u16, u32, 12, "u16u32p12", "lookup", &lookup);
    chain_case!(bench, u16, u32, 12, "u16u32p12", "flat", &flat, encode);
}
