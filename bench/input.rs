//! The input: a million symbols, and the weights of their model.

pub const COUNT: usize = 1_000_000;

/// Xorshift with 64 bits of state.
pub struct Random(u64);

impl Random {
    pub fn new(seed: u64) -> Self {
        Random(seed)
    }

    pub fn next(&mut self) -> u64 {
        let mut x = self.0;
        x ^= x << 13;
        x ^= x >> 7;
        x ^= x << 17;
        self.0 = x;
        x
    }
}

/// Returns weights of 256 symbols with the sum `2^precision`, nearly in proportion to `1 / ((i + 4) * (i + 16))`. Each
/// is at least 1, and the first also gets the rest after rounding.
pub fn weights(precision: u32) -> Vec<u32> {
    let shares: Vec<u64> = (0..256)
        .map(|i| 1_000_000_000 / ((i + 4) * (i + 16)))
        .collect();
    let total: u64 = shares.iter().sum();
    let to_share = (1 << precision) - 256;
    let mut weights: Vec<u32> = shares
        .iter()
        .map(|share| 1 + (share * to_share / total) as u32)
        .collect();
    weights[0] += (1 << precision) - weights.iter().sum::<u32>();
    weights
}

/// Returns a million symbols, drawn by the weights of precision 24.
pub fn drawn_symbols() -> Vec<usize> {
    let mut ends = weights(24);
    for i in 1..ends.len() {
        ends[i] += ends[i - 1];
    }
    let mut random = Random::new(0x1234_5678_9abc_def1);
    (0..COUNT)
        .map(|_| {
            let quantile = (random.next() >> 40) as u32;
            ends.partition_point(|&end| end <= quantile)
        })
        .collect()
}
