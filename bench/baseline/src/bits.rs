//! Cases of bit coders over words of 32 bits: bits alone, Exp-Golomb codewords of numbers, and codewords of a Huffman tree.

use crate::{
    input::{weights, Random, COUNT},
    Bench,
};
use constriction::symbol::{
    exp_golomb::ExpGolomb,
    huffman::{DecoderHuffmanTree, EncoderHuffmanTree},
    DecoderCodebook, DefaultQueueEncoder, DefaultStackCoder, EncoderCodebook, ReadBitStream,
    WriteBitStream,
};
use std::hint::black_box;

/// Returns a million bits, each set with a probability of 1/2.
fn equal_bits() -> Vec<bool> {
    let mut random = Random::new(5);
    (0..COUNT).map(|_| random.next() >> 40 & 1 == 1).collect()
}

/// Runs the cases of single bits: to and from a queue, to and from a stack.
pub fn bits_alone(bench: &Bench) {
    let bits = equal_bits();
    let queue = || {
        let mut coder = DefaultQueueEncoder::new();
        for &bit in &bits {
            coder.write_bit(bit).unwrap();
        }
        coder
    };
    let stack = || {
        let mut coder = DefaultStackCoder::new();
        for &bit in &bits {
            coder.write_bit(bit).unwrap();
        }
        coder
    };
    let mut read = vec![false; COUNT];
    bench.case("bits_write_queue", || (), |()| queue().into_compressed());
    let written = queue();
    bench.case(
        "bits_read_queue",
        || written.clone().into_decoder().unwrap(),
        |mut decoder| {
            for place in &mut read {
                *place = decoder.read_bit().unwrap().unwrap();
            }
        },
    );
    assert!(!bench.wants("bits_read_queue") || read == bits);
    bench.case("bits_write_stack", || (), |()| stack().into_compressed());
    let written = stack();
    bench.case(
        "bits_read_stack",
        || written.clone(),
        |mut coder| {
            for place in &mut read {
                *place = coder.read_bit().unwrap().unwrap();
            }
        },
    );
    assert!(!bench.wants("bits_read_stack") || read.iter().eq(bits.iter().rev()));
}

/// Runs the cases of numbers as Exp-Golomb codewords.
pub fn exp_golomb(bench: &Bench, drawn: &[usize]) {
    let numbers: Vec<u32> = drawn.iter().map(|&symbol| symbol as u32).collect();
    let golomb = ExpGolomb::<u32>::new();
    codewords(bench, "golomb", &numbers, &golomb, &golomb);
}

/// Runs the cases of symbols as codewords of the Huffman tree of their weights.
pub fn huffman(bench: &Bench, drawn: &[usize]) {
    let weights = black_box(weights(24));
    let encoder = EncoderHuffmanTree::from_probabilities::<u32, _>(&weights);
    let decoder = DecoderHuffmanTree::from_probabilities::<u32, _>(&weights);
    codewords(bench, "huffman", drawn, &encoder, &decoder);
}

/// Runs the cases of Huffman trees of weights below 2^16.
pub fn trees(bench: &Bench) {
    for count in [256, 4096, 65536] {
        let mut random = Random::new(3);
        let weights: Vec<u32> = (0..count).map(|_| (random.next() >> 48) as u32).collect();
        bench.making(&format!("huffman_make_encoder_{count}"), count, || {
            EncoderHuffmanTree::from_probabilities::<u32, _>(&weights)
        });
        bench.making(&format!("huffman_make_decoder_{count}"), count, || {
            DecoderHuffmanTree::from_probabilities::<u32, _>(&weights)
        });
    }
}

/// Runs the cases of codewords: to and from a queue, to and from a stack.
fn codewords<E, D>(bench: &Bench, name: &str, symbols: &[E::Symbol], encoder: &E, decoder: &D)
where
    E: EncoderCodebook,
    E::Symbol: Copy + Default + PartialEq,
    D: DecoderCodebook<Symbol = E::Symbol>,
{
    let queue = || {
        let mut coder = DefaultQueueEncoder::new();
        coder
            .encode_iid_symbols(symbols.iter().copied(), encoder)
            .ok()
            .unwrap();
        coder
    };
    let stack = || {
        let mut coder = DefaultStackCoder::new();
        coder
            .encode_iid_symbols_reverse(symbols.iter().copied(), encoder)
            .ok()
            .unwrap();
        coder
    };
    let mut read = vec![E::Symbol::default(); COUNT];
    bench.case(
        &format!("{name}_encode_queue"),
        || (),
        |()| queue().into_compressed(),
    );
    let written = queue();
    let case = format!("{name}_decode_queue");
    bench.case(
        &case,
        || written.clone().into_decoder().unwrap(),
        |mut coder| {
            for (place, symbol) in read
                .iter_mut()
                .zip(coder.decode_iid_symbols(COUNT, decoder))
            {
                *place = symbol.ok().unwrap();
            }
        },
    );
    assert!(!bench.wants(&case) || read == symbols);
    bench.case(
        &format!("{name}_encode_stack"),
        || (),
        |()| stack().into_compressed(),
    );
    let written = stack();
    let case = format!("{name}_decode_stack");
    bench.case(
        &case,
        || written.clone(),
        |mut coder| {
            for (place, symbol) in read
                .iter_mut()
                .zip(coder.decode_iid_symbols(COUNT, decoder))
            {
                *place = symbol.ok().unwrap();
            }
        },
    );
    assert!(!bench.wants(&case) || read == symbols);
}
