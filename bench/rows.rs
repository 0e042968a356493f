//! The stack coder's decode by the library's model with a row for each quantile.

use crate::{Bench, all_words, input::weights};

unsafe extern "C" {
    fn constriction_bench_ans_encode_u16u32p12_table(
        weights: *const u16,
        weights_len: usize,
        symbols: *const usize,
        symbols_len: usize,
        out: *mut u16,
        out_len: usize,
    ) -> usize;

    fn constriction_bench_ans_decode_u16u32p12_rows(
        weights: *const u16,
        weights_len: usize,
        words: *const u16,
        words_len: usize,
        symbols: *mut usize,
        symbols_len: usize,
    ) -> bool;
}

/// Runs the case with words of 16 bits, states of 32 bits and a precision of 12 bits.
pub fn cases(bench: &Bench, drawn: &[usize]) {
    let weights: Vec<u16> = weights(12).iter().map(|&weight| weight as u16).collect();
    let words = all_words(|out: &mut [u16]| unsafe {
        constriction_bench_ans_encode_u16u32p12_table(
            weights.as_ptr(),
            weights.len(),
            drawn.as_ptr(),
            drawn.len(),
            out.as_mut_ptr(),
            out.len(),
        )
    });
    let decode = |words: &[u16], out: &mut [usize]| unsafe {
        constriction_bench_ans_decode_u16u32p12_rows(
            weights.as_ptr(),
            weights.len(),
            words.as_ptr(),
            words.len(),
            out.as_mut_ptr(),
            out.len(),
        )
    };
    bench.decode("ans_decode_u16u32p12_rows", &words, drawn, decode);
}
