//! Cases of the chain coder: decoding symbols from random words, and encoding them back.

use crate::{
    Bench, Word, all_words,
    input::{COUNT, Random, weights},
};

/// Calls the C function of a case over slices, which are a pointer and a length each.
macro_rules! library {
    ($name:literal, $word:ty, $symbols:ty, $slice:ty, $pointer:ident; $($model:ident: $type:ty = $value:expr),*) => {{
        unsafe extern "C" {
            #[link_name = concat!("constriction_bench_", $name)]
            fn call(
                $($model: $type,)*
                words: *const $word,
                words_len: usize,
                symbols: $symbols,
                symbols_len: usize,
                out: *mut $word,
                out_len: usize,
            ) -> usize;
        }
        move |words: &[$word], symbols: $slice, out: &mut [$word]| unsafe {
            call(
                $($value,)*
                words.as_ptr(),
                words.len(),
                symbols.$pointer(),
                symbols.len(),
                out.as_mut_ptr(),
                out.len(),
            )
        }
    }};
}

/// A decode: takes words, places for symbols and room for the remainders, and returns the number of remainders.
macro_rules! decoder {
    ($name:literal, $word:ty; $($model:tt)*) => {
        library!($name, $word, *mut usize, &mut [usize], as_mut_ptr; $($model)*)
    };
}

/// An encode: takes remainders, symbols and room for the words, and returns the number of words.
macro_rules! encoder {
    ($name:literal, $word:ty; $($model:tt)*) => {
        library!($name, $word, *const usize, &[usize], as_ptr; $($model)*)
    };
}

/// Returns words for COUNT symbols of this precision, and a few more.
fn random_words<W: Word>(precision: usize, word: impl Fn(u64) -> W) -> Vec<W> {
    let mut random = Random::new(0xfeed_beef_1234_5678);
    (0..COUNT * precision / W::BITS as usize + 16)
        .map(|_| word(random.next() >> 20))
        .collect()
}

/// Words, and their symbols and remainders under one model.
struct Split<'a, W> {
    words: &'a [W],
    symbols: Vec<usize>,
    remainders: Vec<W>,
}

impl<'a, W: Word> Split<'a, W> {
    fn new(words: &'a [W], decode: impl Fn(&[W], &mut [usize], &mut [W]) -> usize) -> Self {
        let mut symbols = vec![0; COUNT];
        let remainders = all_words(|out: &mut [W]| decode(words, &mut symbols, out));
        Split {
            words,
            symbols,
            remainders,
        }
    }

    /// Times a decode of the words.
    fn decoding(
        &self,
        bench: &Bench,
        name: &str,
        decode: impl Fn(&[W], &mut [usize], &mut [W]) -> usize,
    ) {
        bench.decode(name, self.words, &self.symbols, |words, symbols| {
            decode(words, symbols, &mut []) > 0
        });
    }

    /// Times an encode of the symbols, which restores the words.
    fn encoding(
        &self,
        bench: &Bench,
        name: &str,
        encode: impl Fn(&[W], &[usize], &mut [W]) -> usize,
    ) {
        if !bench.wants(name) {
            return;
        }
        let encoded = |out: &mut [W]| encode(&self.remainders, &self.symbols, out);
        let words = all_words(encoded);
        assert!(self.words.ends_with(&words) && self.words.len() < words.len() + 16);
        let all = bench.least(|| encoded(&mut []));
        println!("{name} {:.2}", all - bench.copying(&self.remainders));
        crate::allocations(name, || encoded(&mut []));
    }
}

/// Runs the cases with words of 32 bits, states of 64 bits and a precision of 24 bits.
fn large_cases(bench: &Bench) {
    let weights = weights(24);
    let (start, len) = (weights.as_ptr(), weights.len());
    let words = random_words(24, |number| number as u32);

    let table =
        decoder!("chain_decode_u32u64p24_table", u32; start: *const u32 = start, len: usize = len);
    let bucket =
        decoder!("chain_decode_u32u64p24_bucket", u32; start: *const u32 = start, len: usize = len);
    let back =
        encoder!("chain_encode_u32u64p24_table", u32; start: *const u32 = start, len: usize = len);
    let split = Split::new(&words, table);
    split.decoding(bench, "chain_decode_u32u64p24_table", table);
    split.encoding(bench, "chain_encode_u32u64p24_table", back);
    split.decoding(bench, "chain_decode_u32u64p24_bucket", bucket);

    let flat = decoder!("chain_decode_u32u64p24_flat", u32; bits: u32 = 8);
    let back = encoder!("chain_encode_u32u64p24_flat", u32; bits: u32 = 8);
    let split = Split::new(&words, flat);
    split.decoding(bench, "chain_decode_u32u64p24_flat", flat);
    split.encoding(bench, "chain_encode_u32u64p24_flat", back);
}

/// Runs the cases with words of 16 bits, states of 32 bits and a precision of 12 bits.
fn small_cases(bench: &Bench) {
    let weights: Vec<u16> = weights(12).iter().map(|&weight| weight as u16).collect();
    let (start, len) = (weights.as_ptr(), weights.len());
    let words = random_words(12, |number| number as u16);

    let table =
        decoder!("chain_decode_u16u32p12_table", u16; start: *const u16 = start, len: usize = len);
    let lookup =
        decoder!("chain_decode_u16u32p12_lookup", u16; start: *const u16 = start, len: usize = len);
    let back =
        encoder!("chain_encode_u16u32p12_table", u16; start: *const u16 = start, len: usize = len);
    let split = Split::new(&words, table);
    split.decoding(bench, "chain_decode_u16u32p12_table", table);
    split.encoding(bench, "chain_encode_u16u32p12_table", back);
    split.decoding(bench, "chain_decode_u16u32p12_lookup", lookup);

    let flat = decoder!("chain_decode_u16u32p12_flat", u16; bits: u32 = 8);
    let back = encoder!("chain_encode_u16u32p12_flat", u16; bits: u32 = 8);
    let split = Split::new(&words, flat);
    split.decoding(bench, "chain_decode_u16u32p12_flat", flat);
    split.encoding(bench, "chain_encode_u16u32p12_flat", back);
}

/// Runs all cases of the chain coder.
pub fn cases(bench: &Bench) {
    large_cases(bench);
    small_cases(bench);
}
