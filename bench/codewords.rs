//! Cases of bit coders over words of 32 bits: Exp-Golomb codewords of numbers, codewords of a Huffman tree, and the
//! building such a tree.

use crate::{
    Bench,
    input::{Random, weights},
};

unsafe extern "C" {
    fn constriction_bench_golomb_encode_queue(
        numbers: *const u32,
        numbers_len: usize,
        out: *mut u32,
        out_len: usize,
    ) -> usize;

    fn constriction_bench_golomb_encode_stack(
        numbers: *const u32,
        numbers_len: usize,
        out: *mut u32,
        out_len: usize,
    ) -> usize;

    fn constriction_bench_golomb_decode_queue(
        words: *const u32,
        words_len: usize,
        numbers: *mut u32,
        numbers_len: usize,
    ) -> bool;

    fn constriction_bench_golomb_decode_stack(
        words: *const u32,
        words_len: usize,
        numbers: *mut u32,
        numbers_len: usize,
    ) -> bool;

    fn constriction_bench_huffman_encode_queue(
        weights: *const u32,
        weights_len: usize,
        symbols: *const usize,
        symbols_len: usize,
        out: *mut u32,
        out_len: usize,
    ) -> usize;

    fn constriction_bench_huffman_encode_stack(
        weights: *const u32,
        weights_len: usize,
        symbols: *const usize,
        symbols_len: usize,
        out: *mut u32,
        out_len: usize,
    ) -> usize;

    fn constriction_bench_huffman_decode_queue(
        weights: *const u32,
        weights_len: usize,
        words: *const u32,
        words_len: usize,
        symbols: *mut usize,
        symbols_len: usize,
    ) -> bool;

    fn constriction_bench_huffman_decode_stack(
        weights: *const u32,
        weights_len: usize,
        words: *const u32,
        words_len: usize,
        symbols: *mut usize,
        symbols_len: usize,
    ) -> bool;

    fn constriction_bench_huffman_make_encoder(weights: *const u32, weights_len: usize) -> usize;

    fn constriction_bench_huffman_make_decoder(weights: *const u32, weights_len: usize) -> usize;
}

/// Encodes numbers, and returns the number of words.
type EncodeNumbers = unsafe extern "C" fn(*const u32, usize, *mut u32, usize) -> usize;

/// Decodes numbers, and returns whether there were enough.
type DecodeNumbers = unsafe extern "C" fn(*const u32, usize, *mut u32, usize) -> bool;

/// Takes weights, symbols and room for words, and returns the number of words.
type EncodeSymbols =
    unsafe extern "C" fn(*const u32, usize, *const usize, usize, *mut u32, usize) -> usize;

/// Takes weights, words and places for symbols, and returns whether there were enough symbols.
type DecodeSymbols =
    unsafe extern "C" fn(*const u32, usize, *const u32, usize, *mut usize, usize) -> bool;

/// Builds a tree, and returns its number of symbols.
type Make = unsafe extern "C" fn(*const u32, usize) -> usize;

/// Runs the cases of numbers as Exp-Golomb codewords.
fn golomb(
    bench: &Bench,
    order: &str,
    encode: EncodeNumbers,
    decode: DecodeNumbers,
    numbers: &[u32],
) {
    bench.there_and_back(
        (&format!("golomb_encode_{order}"), &|out| unsafe {
            encode(numbers.as_ptr(), numbers.len(), out.as_mut_ptr(), out.len())
        }),
        (&format!("golomb_decode_{order}"), &|words, out| unsafe {
            decode(words.as_ptr(), words.len(), out.as_mut_ptr(), out.len())
        }),
        numbers,
    );
}

/// Runs the cases of symbols as codewords of the Huffman tree of their weights.
fn huffman(
    bench: &Bench,
    order: &str,
    encode: EncodeSymbols,
    decode: DecodeSymbols,
    symbols: &[usize],
) {
    let weights = weights(24);
    bench.there_and_back(
        (&format!("huffman_encode_{order}"), &|out| unsafe {
            encode(
                weights.as_ptr(),
                weights.len(),
                symbols.as_ptr(),
                symbols.len(),
                out.as_mut_ptr(),
                out.len(),
            )
        }),
        (&format!("huffman_decode_{order}"), &|words, out| unsafe {
            decode(
                weights.as_ptr(),
                weights.len(),
                words.as_ptr(),
                words.len(),
                out.as_mut_ptr(),
                out.len(),
            )
        }),
        symbols,
    );
}

/// Runs the cases of trees of weights below 2^16.
fn trees(bench: &Bench, name: &str, make: Make) {
    for count in [256, 4096, 65536] {
        let mut random = Random::new(3);
        let weights: Vec<u32> = (0..count).map(|_| (random.next() >> 48) as u32).collect();
        bench.making(&format!("huffman_make_{name}_{count}"), count, || unsafe {
            assert_eq!(make(weights.as_ptr(), weights.len()), count)
        });
    }
}

/// Runs all cases of codewords.
pub fn cases(bench: &Bench, drawn: &[usize]) {
    let numbers: Vec<u32> = drawn.iter().map(|&symbol| symbol as u32).collect();
    golomb(
        bench,
        "queue",
        constriction_bench_golomb_encode_queue,
        constriction_bench_golomb_decode_queue,
        &numbers,
    );
    golomb(
        bench,
        "stack",
        constriction_bench_golomb_encode_stack,
        constriction_bench_golomb_decode_stack,
        &numbers,
    );
    huffman(
        bench,
        "queue",
        constriction_bench_huffman_encode_queue,
        constriction_bench_huffman_decode_queue,
        drawn,
    );
    huffman(
        bench,
        "stack",
        constriction_bench_huffman_encode_stack,
        constriction_bench_huffman_decode_stack,
        drawn,
    );
    trees(bench, "encoder", constriction_bench_huffman_make_encoder);
    trees(bench, "decoder", constriction_bench_huffman_make_decoder);
}
