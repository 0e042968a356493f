//! Cases of bit coders over words of 32 bits: bits alone.

use crate::{
    Bench,
    input::{COUNT, Random},
};

unsafe extern "C" {
    fn constriction_bench_bits_write_queue(
        bits: *const bool,
        bits_len: usize,
        out: *mut u32,
        out_len: usize,
    ) -> usize;

    fn constriction_bench_bits_write_stack(
        bits: *const bool,
        bits_len: usize,
        out: *mut u32,
        out_len: usize,
    ) -> usize;

    fn constriction_bench_bits_read_queue(
        words: *const u32,
        words_len: usize,
        bits: *mut bool,
        bits_len: usize,
    ) -> bool;

    fn constriction_bench_bits_read_stack(
        words: *const u32,
        words_len: usize,
        bits: *mut bool,
        bits_len: usize,
    ) -> bool;
}

/// Writes bits, and returns the number of words.
type Write = unsafe extern "C" fn(*const bool, usize, *mut u32, usize) -> usize;

/// Reads bits, and returns whether there were enough.
type Read = unsafe extern "C" fn(*const u32, usize, *mut bool, usize) -> bool;

/// Returns a million bits, each set with a probability of 1/2.
fn equal_bits() -> Vec<bool> {
    let mut random = Random::new(5);
    (0..COUNT).map(|_| random.next() >> 40 & 1 == 1).collect()
}

/// Times writing the bits, and reading `expected` back.
fn case(bench: &Bench, order: &str, write: Write, read: Read, bits: &[bool], expected: &[bool]) {
    bench.there_and_back(
        (&format!("bits_write_{order}"), &|out| unsafe {
            write(bits.as_ptr(), bits.len(), out.as_mut_ptr(), out.len())
        }),
        (&format!("bits_read_{order}"), &|words, out| unsafe {
            read(words.as_ptr(), words.len(), out.as_mut_ptr(), out.len())
        }),
        expected,
    );
}

/// Runs all cases of bits.
pub fn cases(bench: &Bench) {
    let bits = equal_bits();
    let turned: Vec<bool> = bits.iter().rev().copied().collect();
    case(
        bench,
        "queue",
        constriction_bench_bits_write_queue,
        constriction_bench_bits_read_queue,
        &bits,
        &bits,
    );
    case(
        bench,
        "stack",
        constriction_bench_bits_write_stack,
        constriction_bench_bits_read_stack,
        &bits,
        &turned,
    );
}
