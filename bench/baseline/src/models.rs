//! The models of the bench over the Rust crate's traits: a table of weights with a binary search, the same table with a
//! list of symbols, and equal weights. None tests a bound that its constructor ensures.

/// The models at one type of probabilities and one precision.
macro_rules! models {
    ($name:ident, $probability:ty, $nonzero:ty, $precision:literal) => {
        pub mod $name {
            use constriction::stream::model::{DecoderModel, EncoderModel, EntropyModel};
            use std::borrow::Borrow;

            const PRECISION: usize = $precision;

            type Probability = $probability;
            type NonZero = $nonzero;

            /// The starts of the intervals of the symbols 0, 1, .., and the end of the last one. None is empty.
            pub struct Table {
                starts: Vec<Probability>,
            }

            impl Table {
                pub fn new(weights: &[Probability]) -> Self {
                    let mut starts = vec![0];
                    for &weight in weights {
                        assert!(weight > 0);
                        starts.push(starts[starts.len() - 1] + weight);
                    }
                    assert!(weights.len() <= 256 && starts[weights.len()] as u64 == 1 << PRECISION);
                    Table { starts }
                }

                /// Returns a symbol of the table with its interval.
                #[inline(always)]
                fn entry(&self, symbol: usize) -> (usize, Probability, NonZero) {
                    // SAFETY: a symbol of the table has a start and an end, which lies above it.
                    unsafe {
                        let left = *self.starts.get_unchecked(symbol);
                        let right = *self.starts.get_unchecked(symbol + 1);
                        (symbol, left, NonZero::new_unchecked(right - left))
                    }
                }
            }

            impl EntropyModel<PRECISION> for Table {
                type Symbol = usize;
                type Probability = Probability;
            }

            impl EncoderModel<PRECISION> for Table {
                #[inline(always)]
                fn left_cumulative_and_probability(
                    &self,
                    symbol: impl Borrow<usize>,
                ) -> Option<(Probability, NonZero)> {
                    let symbol = *symbol.borrow();
                    if symbol >= self.starts.len() - 1 {
                        return None;
                    }
                    let (_, left, p) = self.entry(symbol);
                    Some((left, p))
                }
            }

            impl DecoderModel<PRECISION> for Table {
                #[inline(always)]
                fn quantile_function(
                    &self,
                    quantile: Probability,
                ) -> (usize, Probability, NonZero) {
                    // The first start is 0, so at least one is found.
                    let starts = &self.starts[..self.starts.len() - 1];
                    self.entry(starts.partition_point(|&start| start <= quantile) - 1)
                }
            }

            /// The table with the symbol of each quantile.
            #[allow(dead_code)]
            pub struct Lookup {
                table: Table,
                symbols: Vec<u8>,
            }

            #[allow(dead_code)]
            impl Lookup {
                pub fn new(weights: &[Probability]) -> Self {
                    let mut symbols = Vec::with_capacity(1 << PRECISION);
                    for (symbol, &weight) in weights.iter().enumerate() {
                        symbols.resize(symbols.len() + weight as usize, symbol as u8);
                    }
                    Lookup {
                        table: Table::new(weights),
                        symbols,
                    }
                }
            }

            impl EntropyModel<PRECISION> for Lookup {
                type Symbol = usize;
                type Probability = Probability;
            }

            impl DecoderModel<PRECISION> for Lookup {
                #[inline(always)]
                fn quantile_function(
                    &self,
                    quantile: Probability,
                ) -> (usize, Probability, NonZero) {
                    // SAFETY: a coder's quantile has PRECISION bits.
                    let symbol = unsafe { *self.symbols.get_unchecked(quantile as usize) };
                    self.table.entry(symbol as usize)
                }
            }

            /// The table with the first symbol of each of 4096 equal parts, and a search upward from there.
            #[allow(dead_code)]
            pub struct Bucket {
                table: Table,
                firsts: Vec<u8>,
            }

            #[allow(dead_code)]
            impl Bucket {
                pub fn new(weights: &[Probability]) -> Self {
                    let table = Table::new(weights);
                    let firsts = (0..4096u64)
                        .map(|part| (part << (PRECISION - 12)) as Probability)
                        .map(|quantile| {
                            (table.starts.partition_point(|&start| start <= quantile) - 1) as u8
                        })
                        .collect();
                    Bucket { table, firsts }
                }
            }

            impl EntropyModel<PRECISION> for Bucket {
                type Symbol = usize;
                type Probability = Probability;
            }

            impl DecoderModel<PRECISION> for Bucket {
                #[inline(always)]
                fn quantile_function(
                    &self,
                    quantile: Probability,
                ) -> (usize, Probability, NonZero) {
                    // SAFETY: a coder's quantile has PRECISION bits, and the last start lies above it.
                    unsafe {
                        let mut symbol = *self
                            .firsts
                            .get_unchecked((quantile >> (PRECISION - 12)) as usize)
                            as usize;
                        while *self.table.starts.get_unchecked(symbol + 1) <= quantile {
                            symbol += 1;
                        }
                        self.table.entry(symbol)
                    }
                }
            }

            /// Symbols of equal weights, without a table. The weight is a field, so that a compiler which doesn't know
            /// it can't turn the coder's division into a shift.
            pub struct Flat {
                weight: NonZero,
                shift: usize,
                bits: usize,
            }

            impl Flat {
                /// The model of `2^bits` symbols.
                pub fn new(bits: usize) -> Self {
                    let shift = PRECISION - bits;
                    Flat {
                        weight: NonZero::new(1 << shift).unwrap(),
                        shift,
                        bits,
                    }
                }
            }

            impl EntropyModel<PRECISION> for Flat {
                type Symbol = usize;
                type Probability = Probability;
            }

            impl EncoderModel<PRECISION> for Flat {
                #[inline(always)]
                fn left_cumulative_and_probability(
                    &self,
                    symbol: impl Borrow<usize>,
                ) -> Option<(Probability, NonZero)> {
                    let symbol = *symbol.borrow();
                    if symbol >> self.bits != 0 {
                        return None;
                    }
                    Some(((symbol as Probability) << self.shift, self.weight))
                }
            }

            impl DecoderModel<PRECISION> for Flat {
                #[inline(always)]
                fn quantile_function(
                    &self,
                    quantile: Probability,
                ) -> (usize, Probability, NonZero) {
                    let symbol = quantile >> self.shift;
                    (symbol as usize, symbol << self.shift, self.weight)
                }
            }
        }
    };
}

models!(large, u32, std::num::NonZeroU32, 24);
models!(small, u16, std::num::NonZeroU16, 12);
