//! Measures the nanoseconds per symbol of the coders, by the library `constriction_bench`.
//!
//! Prints a line `name ns_per_symbol` for each case, the least of RUNS runs over a million symbols.
//! Standard error gets the bits per symbol and the allocations. An argument selects the cases
//! whose name contains it.
//!
//! Names: coder, operation, sizes of words and states with the precision, model. Models: `table`
//! (a table of weights), `bucket` (4096 start symbols and a short search upward), `lookup` (the
//! symbol of each quantile listed), `rows` (the symbol and the interval of each quantile), `flat` (equal
//! weights, no table at all).

mod bits;
mod chain;
mod codewords;
mod input;
mod rows;

use input::{COUNT, Random, drawn_symbols, weights};
use std::{
    ffi::c_void,
    fmt::Debug,
    hint::black_box,
    sync::atomic::{AtomicUsize, Ordering::Relaxed},
    time::Instant,
};

const RUNS: usize = 11;

// THE LIBRARY ================================================================

/// Takes weights, symbols and room for words, and returns the number of words.
type EncodeTable<Word> =
    unsafe extern "C" fn(*const Word, usize, *const usize, usize, *mut Word, usize) -> usize;

/// Takes weights, words and places for symbols, and returns whether a coder can have the words.
type DecodeTable<Word> =
    unsafe extern "C" fn(*const Word, usize, *const Word, usize, *mut usize, usize) -> bool;

/// The same for symbols of equal weights. Their number is two to the power of the first argument.
type EncodeFlat<Word> = unsafe extern "C" fn(u32, *const usize, usize, *mut Word, usize) -> usize;
type DecodeFlat<Word> = unsafe extern "C" fn(u32, *const Word, usize, *mut usize, usize) -> bool;

/// Takes words and room for words, and returns the number of words.
type CopyWords<Word> = unsafe extern "C" fn(*const Word, usize, *mut Word, usize) -> usize;

/// The library's functions of one coder, at one size of words, states and precision.
struct Library<Word> {
    coder: &'static str,
    size: &'static str,
    precision: u32,
    encode_table: EncodeTable<Word>,
    decode_table: DecodeTable<Word>,
    cheap: &'static str,
    decode_cheap: DecodeTable<Word>,
    encode_flat: EncodeFlat<Word>,
    decode_flat: DecodeFlat<Word>,
}

/// Copies at one size: into a coder and out of it, and without a coder.
struct Copies<Word> {
    size: &'static str,
    reload: CopyWords<Word>,
    copy: CopyWords<Word>,
}

/// Declares the C functions of one coder and size. A slice is a pointer and a length.
macro_rules! library {
    ($word:ty, $coder:literal, $size:literal, $precision:literal, $cheap:literal) => {{
        unsafe extern "C" {
            #[link_name = concat!("constriction_bench_", $coder, "_encode_", $size, "_table")]
            fn encode_table(
                weights: *const $word,
                weights_len: usize,
                symbols: *const usize,
                symbols_len: usize,
                out: *mut $word,
                out_len: usize,
            ) -> usize;

            #[link_name = concat!("constriction_bench_", $coder, "_decode_", $size, "_table")]
            fn decode_table(
                weights: *const $word,
                weights_len: usize,
                words: *const $word,
                words_len: usize,
                symbols: *mut usize,
                symbols_len: usize,
            ) -> bool;

            #[link_name = concat!("constriction_bench_", $coder, "_decode_", $size, "_", $cheap)]
            fn decode_cheap(
                weights: *const $word,
                weights_len: usize,
                words: *const $word,
                words_len: usize,
                symbols: *mut usize,
                symbols_len: usize,
            ) -> bool;

            #[link_name = concat!("constriction_bench_", $coder, "_encode_", $size, "_flat")]
            fn encode_flat(
                bits: u32,
                symbols: *const usize,
                symbols_len: usize,
                out: *mut $word,
                out_len: usize,
            ) -> usize;

            #[link_name = concat!("constriction_bench_", $coder, "_decode_", $size, "_flat")]
            fn decode_flat(
                bits: u32,
                words: *const $word,
                words_len: usize,
                symbols: *mut usize,
                symbols_len: usize,
            ) -> bool;
        }
        Library::<$word> {
            coder: $coder,
            size: $size,
            precision: $precision,
            encode_table,
            decode_table,
            cheap: $cheap,
            decode_cheap,
            encode_flat,
            decode_flat,
        }
    }};
}

/// Declares the copies of one size.
macro_rules! copies {
    ($word:ty, $size:literal) => {{
        unsafe extern "C" {
            #[link_name = concat!("constriction_bench_ans_reload_", $size)]
            fn reload(
                words: *const $word,
                words_len: usize,
                out: *mut $word,
                out_len: usize,
            ) -> usize;

            #[link_name = concat!("constriction_bench_copy_", $size)]
            fn copy(
                words: *const $word,
                words_len: usize,
                out: *mut $word,
                out_len: usize,
            ) -> usize;
        }
        Copies::<$word> {
            size: $size,
            reload,
            copy,
        }
    }};
}

trait Word: Copy + Default + PartialEq + Debug + TryFrom<u32> + 'static {
    const BITS: u32;

    /// The library's copies of words of this type.
    fn copies() -> Copies<Self>
    where
        Self: Sized;
}

impl Word for u16 {
    const BITS: u32 = u16::BITS;

    fn copies() -> Copies<u16> {
        copies!(u16, "u16u32p12")
    }
}

impl Word for u32 {
    const BITS: u32 = u32::BITS;

    fn copies() -> Copies<u32> {
        copies!(u32, "u32u64p24")
    }
}

// INPUT ======================================================================

/// Returns a million symbols below 256, all equally probable.
fn equal_symbols() -> Vec<usize> {
    let mut random = Random::new(99);
    (0..COUNT)
        .map(|_| (random.next() >> 40) as usize & 255)
        .collect()
}

/// Returns the information content of the symbols under a model with these weights, in bits.
fn information(weights: &[u32], precision: u32, symbols: &[usize]) -> f64 {
    let bits: Vec<f64> = weights
        .iter()
        .map(|&weight| precision as f64 - (weight as f64).log2())
        .collect();
    symbols.iter().map(|&symbol| bits[symbol]).sum()
}

// ALLOCATIONS ================================================================

/// The numbers of allocated, moved and freed blocks, and the bytes of the last request.
static ALLOCATED: AtomicUsize = AtomicUsize::new(0);
static MOVED: AtomicUsize = AtomicUsize::new(0);
static FREED: AtomicUsize = AtomicUsize::new(0);
static LAST: AtomicUsize = AtomicUsize::new(0);

unsafe extern "C" {
    fn __real_malloc(size: usize) -> *mut c_void;
    fn __real_realloc(block: *mut c_void, size: usize) -> *mut c_void;
    fn __real_free(block: *mut c_void);
}

#[unsafe(no_mangle)]
unsafe extern "C" fn __wrap_malloc(size: usize) -> *mut c_void {
    ALLOCATED.fetch_add(1, Relaxed);
    LAST.store(size, Relaxed);
    unsafe { __real_malloc(size) }
}

#[unsafe(no_mangle)]
unsafe extern "C" fn __wrap_realloc(block: *mut c_void, size: usize) -> *mut c_void {
    MOVED.fetch_add(1, Relaxed);
    LAST.store(size, Relaxed);
    unsafe { __real_realloc(block, size) }
}

#[unsafe(no_mangle)]
unsafe extern "C" fn __wrap_free(block: *mut c_void) {
    FREED.fetch_add(1, Relaxed);
    unsafe { __real_free(block) }
}

/// Runs `work`, and prints its allocations.
fn allocations<T>(name: &str, work: impl FnOnce() -> T) -> T {
    let (allocated, moved, freed) = (
        ALLOCATED.load(Relaxed),
        MOVED.load(Relaxed),
        FREED.load(Relaxed),
    );
    let answer = work();
    eprintln!(
        "# {name}: malloc {}, realloc {}, free {}; the last block had {} bytes",
        ALLOCATED.load(Relaxed) - allocated,
        MOVED.load(Relaxed) - moved,
        FREED.load(Relaxed) - freed,
        LAST.load(Relaxed),
    );
    answer
}

// CASES ======================================================================

struct Bench {
    part: String,
}

impl Bench {
    /// Returns the least time of `work` over the runs, in nanoseconds divided by COUNT.
    fn least<T>(&self, mut work: impl FnMut() -> T) -> f64 {
        let mut least = f64::INFINITY;
        for _ in 0..RUNS {
            let start = Instant::now();
            let answer = black_box(work());
            least = least.min(start.elapsed().as_nanos() as f64);
            drop(answer);
        }
        least / COUNT as f64
    }

    fn wants(&self, name: &str) -> bool {
        name.contains(&self.part)
    }

    fn encode<W: Word>(&self, name: &str, encode: impl Fn(&mut [W]) -> usize) {
        if self.wants(name) {
            println!("{name} {:.2}", self.least(|| encode(&mut [])));
        }
    }

    /// Times a decoder that owns its words: it begins with a copy, and frees it. The time for this is subtracted.
    fn decode<W: Word, T: Copy + Default + PartialEq + Debug>(
        &self,
        name: &str,
        words: &[W],
        symbols: &[T],
        decode: impl Fn(&[W], &mut [T]) -> bool,
    ) {
        if self.wants(name) {
            let all = self.decoding(words, symbols, decode);
            println!("{name} {:.2}", all - self.copying(words));
        }
    }

    /// Returns the least time in which `decode` decodes `symbols` from the words.
    fn decoding<W: Word, T: Copy + Default + PartialEq + Debug>(
        &self,
        words: &[W],
        symbols: &[T],
        decode: impl Fn(&[W], &mut [T]) -> bool,
    ) -> f64 {
        let mut out = vec![T::default(); COUNT];
        let time = self.least(|| assert!(decode(words, &mut out)));
        assert_eq!(out, symbols);
        time
    }

    /// Times encoding to a queue or stack of bits, and decoding `expected` from its words. A queue's decoder borrows
    /// them.
    fn there_and_back<T: Copy + Default + PartialEq + Debug>(
        &self,
        (encode_name, encode): (&str, &dyn Fn(&mut [u32]) -> usize),
        (decode_name, decode): (&str, &dyn Fn(&[u32], &mut [T]) -> bool),
        expected: &[T],
    ) {
        self.encode(encode_name, encode);
        let words = all_words(encode);
        if !decode_name.ends_with("_queue") {
            self.decode(decode_name, &words, expected, decode);
        } else if self.wants(decode_name) {
            let time = self.decoding(&words, expected, decode);
            println!("{decode_name} {time:.2}");
        }
    }

    /// Returns the nanoseconds per part of building an object with `count` parts. A run builds COUNT parts.
    fn making(&self, name: &str, count: usize, make: impl Fn()) {
        if self.wants(name) {
            let times = COUNT / count;
            let time = self.least(|| (0..times).for_each(|_| make()));
            println!("{name} {:.2}", time * COUNT as f64 / (times * count) as f64);
        }
    }

    /// Returns the least time in which the library copies the words to a new vector and frees it.
    fn copying<W: Word>(&self, words: &[W]) -> f64 {
        let copy = W::copies().copy;
        let out = std::ptr::NonNull::dangling().as_ptr();
        self.least(|| unsafe { copy(words.as_ptr(), words.len(), out, 0) })
    }
}

/// Prints the bits that a coder wrote, and the information content of the symbols.
fn report<W: Word>(name: &str, words: &[W], information: f64) {
    let written = words.len() as f64 * W::BITS as f64;
    eprintln!(
        "# {name}: {:.6} bits per symbol, {:.6} under the model, overhead {:.4} %",
        written / COUNT as f64,
        information / COUNT as f64,
        (written / information - 1.0) * 100.0,
    );
}

/// Returns all words that `encode` writes.
fn all_words<W: Word>(mut encode: impl FnMut(&mut [W]) -> usize) -> Vec<W> {
    let mut words = vec![W::default(); encode(&mut [])];
    encode(&mut words);
    words
}

fn cases<W: Word>(bench: &Bench, library: &Library<W>, drawn: &[usize], equal: &[usize])
where
    <W as TryFrom<u32>>::Error: Debug,
{
    let (coder, size) = (library.coder, library.size);
    let numbers = weights(library.precision);
    let weights: Vec<W> = numbers.iter().map(|&n| n.try_into().unwrap()).collect();

    let encode_table = |out: &mut [W]| unsafe {
        (library.encode_table)(
            weights.as_ptr(),
            weights.len(),
            drawn.as_ptr(),
            drawn.len(),
            out.as_mut_ptr(),
            out.len(),
        )
    };
    let decode_by = |decode: DecodeTable<W>| {
        let weights = &weights;
        move |words: &[W], out: &mut [usize]| unsafe {
            decode(
                weights.as_ptr(),
                weights.len(),
                words.as_ptr(),
                words.len(),
                out.as_mut_ptr(),
                out.len(),
            )
        }
    };
    let encode_flat = |out: &mut [W]| unsafe {
        (library.encode_flat)(8, equal.as_ptr(), equal.len(), out.as_mut_ptr(), out.len())
    };
    let decode_flat = |words: &[W], out: &mut [usize]| unsafe {
        (library.decode_flat)(8, words.as_ptr(), words.len(), out.as_mut_ptr(), out.len())
    };

    let name = format!("{coder}_encode_{size}_table");
    bench.encode(&name, encode_table);
    let words = all_words(encode_table);
    if bench.wants(&name) {
        report(
            &name,
            &words,
            information(&numbers, library.precision, drawn),
        );
        allocations(&name, || encode_table(&mut []));
    }
    for (kind, decode) in [
        ("table", library.decode_table),
        (library.cheap, library.decode_cheap),
    ] {
        let name = format!("{coder}_decode_{size}_{kind}");
        bench.decode(&name, &words, drawn, decode_by(decode));
    }

    let name = format!("{coder}_encode_{size}_flat");
    bench.encode(&name, encode_flat);
    let words = all_words(encode_flat);
    if bench.wants(&name) {
        report(&name, &words, 8.0 * COUNT as f64);
        allocations(&name, || encode_flat(&mut []));
    }
    bench.decode(
        &format!("{coder}_decode_{size}_flat"),
        &words,
        equal,
        decode_flat,
    );
}

/// Times importing and exporting a million words, and the same copies without a coder.
fn reloading<W: Word>(bench: &Bench, copies: &Copies<W>)
where
    <W as TryFrom<u32>>::Error: Debug,
{
    let mut random = Random::new(7);
    let words: Vec<W> = (0..COUNT)
        .map(|_| {
            ((random.next() >> 40) as u32 & 0xffff | 1)
                .try_into()
                .unwrap()
        })
        .collect();
    let mut out = vec![W::default(); COUNT];
    for (name, call) in [("ans_reload", copies.reload), ("copy", copies.copy)] {
        let name = format!("{name}_{}", copies.size);
        if bench.wants(&name) {
            let time = bench.least(|| unsafe {
                call(words.as_ptr(), words.len(), out.as_mut_ptr(), out.len())
            });
            assert_eq!(out, words);
            println!("{name} {time:.2}");
        }
    }
}

fn main() {
    let bench = Bench {
        part: std::env::args().nth(1).unwrap_or_default(),
    };
    let drawn = drawn_symbols();
    let equal = equal_symbols();
    let entropy = information(&weights(24), 24, &drawn) / COUNT as f64;
    eprintln!("# {COUNT} symbols, {entropy:.3} bits each, least of {RUNS} runs");

    let large = library!(u32, "ans", "u32u64p24", 24, "bucket");
    let small = library!(u16, "ans", "u16u32p12", 12, "lookup");
    cases(&bench, &large, &drawn, &equal);
    cases(&bench, &small, &drawn, &equal);
    rows::cases(&bench, &drawn);
    reloading(&bench, &u32::copies());
    reloading(&bench, &u16::copies());
    let large = library!(u32, "range", "u32u64p24", 24, "bucket");
    let small = library!(u16, "range", "u16u32p12", 12, "lookup");
    cases(&bench, &large, &drawn, &equal);
    cases(&bench, &small, &drawn, &equal);
    chain::cases(&bench);
    bits::cases(&bench);
    codewords::cases(&bench, &drawn);
}
