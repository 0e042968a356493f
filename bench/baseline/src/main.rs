//! Measures the nanoseconds per symbol of the Rust crate's coders, with the input of `bench/driver.rs`.
//!
//! Prints a line `name ns_per_symbol` for each case, the least of RUNS runs over a million symbols. An argument selects
//! the cases whose name contains it. `bench/driver.rs` explains the names.

mod bits;
mod chain;
#[path = "../../input.rs"]
mod input;
mod models;

use constriction::{
    backends::Cursor,
    stream::{
        queue::{RangeDecoder, RangeEncoder},
        stack::AnsCoder,
        Decode, Encode,
    },
};
use input::{drawn_symbols, weights, Random, COUNT};
use models::{large, small};
use std::{hint::black_box, time::Instant};

const RUNS: usize = 11;

struct Bench {
    part: String,
}

impl Bench {
    fn wants(&self, name: &str) -> bool {
        name.contains(&self.part)
    }

    /// Prints the least time of `work` over the runs, without making its input and dropping its result.
    fn case<T, R>(&self, name: &str, mut input: impl FnMut() -> T, mut work: impl FnMut(T) -> R) {
        if !self.wants(name) {
            return;
        }
        let mut least = f64::INFINITY;
        for _ in 0..RUNS {
            let input = black_box(input());
            let start = Instant::now();
            let answer = black_box(work(input));
            least = least.min(start.elapsed().as_nanos() as f64);
            drop(answer);
        }
        println!("{name} {:.2}", least / COUNT as f64);
    }

    /// Prints the least nanoseconds per part of building an object with `count` parts. A run builds COUNT
    /// parts, and drops each object.
    fn making<R>(&self, name: &str, count: usize, make: impl Fn() -> R) {
        if !self.wants(name) {
            return;
        }
        let times = COUNT / count;
        let mut least = f64::INFINITY;
        for _ in 0..RUNS {
            let start = Instant::now();
            for _ in 0..times {
                drop(black_box(make()));
            }
            least = least.min(start.elapsed().as_nanos() as f64);
        }
        println!("{name} {:.2}", least / (times * count) as f64);
    }
}

/// Runs the cases of one coder and size: an encoder under `encoding`, and decoders under the other models.
macro_rules! cases {
    ($bench:expr, $coder:literal, $encoder:ty, $encode_all:ident, $decoder:ty, $size:literal, $symbols:expr,
     encode $encode:literal: $encoding:expr, $(decode $decode:literal: $decoding:expr),*) => {{
        let symbols: &[usize] = $symbols;
        let encoded = || {
            let mut coder = <$encoder>::new();
            coder.$encode_all(symbols, $encoding).ok().unwrap();
            coder.into_compressed().ok().unwrap()
        };
        $bench.case(&format!("{}_encode_{}_{}", $coder, $size, $encode), || (), |()| encoded());
        let words = encoded();
        $(
            let name = format!("{}_decode_{}_{}", $coder, $size, $decode);
            let mut decoded = vec![0; COUNT];
            $bench.case(&name, || words.clone(), |words| {
                let mut coder = <$decoder>::from_compressed(words).ok().unwrap();
                for (place, symbol) in decoded.iter_mut().zip(coder.decode_iid_symbols(COUNT, $decoding)) {
                    *place = symbol.ok().unwrap();
                }
            });
            assert!(!name.contains(&$bench.part) || decoded == symbols);
        )*
    }};
}

macro_rules! ans_cases {
    ($bench:expr, $word:ty, $state:ty, $($rest:tt)*) => {
        cases!($bench, "ans", AnsCoder<$word, $state>, encode_iid_symbols_reverse, AnsCoder<$word, $state>, $($rest)*)
    };
}

macro_rules! range_cases {
    ($bench:expr, $word:ty, $state:ty, $($rest:tt)*) => {
        cases!($bench, "range", RangeEncoder<$word, $state>, encode_iid_symbols,
            RangeDecoder<$word, $state, Cursor<$word, Vec<$word>>>, $($rest)*)
    };
}

/// Returns a million symbols below 256, all equally probable.
fn equal_symbols() -> Vec<usize> {
    let mut random = Random::new(99);
    (0..COUNT)
        .map(|_| (random.next() >> 40) as usize & 255)
        .collect()
}

fn main() {
    let bench = Bench {
        part: std::env::args().nth(1).unwrap_or_default(),
    };
    let (drawn, equal) = (drawn_symbols(), equal_symbols());

    let weights_24 = weights(24);
    let table = large::Table::new(&weights_24);
    let bucket = large::Bucket::new(&weights_24);
    let flat = black_box(large::Flat::new(8));
    ans_cases!(bench, u32, u64, "u32u64p24", &drawn, encode "table": &table, decode "table": &table, decode "bucket": &bucket);
    ans_cases!(bench, u32, u64, "u32u64p24", &equal, encode "flat": &flat, decode "flat": &flat);
    range_cases!(bench, u32, u64, "u32u64p24", &drawn, encode "table": &table, decode "table": &table, decode "bucket": &bucket);
    range_cases!(bench, u32, u64, "u32u64p24", &equal, encode "flat": &flat, decode "flat": &flat);

    let weights_12: Vec<u16> = weights(12).iter().map(|&weight| weight as u16).collect();
    let table = small::Table::new(&weights_12);
    let lookup = small::Lookup::new(&weights_12);
    let flat = black_box(small::Flat::new(8));
    ans_cases!(bench, u16, u32, "u16u32p12", &drawn, encode "table": &table, decode "table": &table, decode "lookup": &lookup, decode "rows": &lookup);
    ans_cases!(bench, u16, u32, "u16u32p12", &equal, encode "flat": &flat, decode "flat": &flat);
    range_cases!(bench, u16, u32, "u16u32p12", &drawn, encode "table": &table, decode "table": &table, decode "lookup": &lookup);
    range_cases!(bench, u16, u32, "u16u32p12", &equal, encode "flat": &flat, decode "flat": &flat);

    chain::cases(&bench);
    bits::bits_alone(&bench);
    bits::exp_golomb(&bench, &drawn);
    bits::huffman(&bench, &drawn);
    bits::trees(&bench);
}
