//! Returns the results of the Rust crate's coders, for `bench/words`.
//!
//! Each line of standard input is a request, and gets one line as its answer. A field is a word or a list: numbers
//! with commas between them, or `-` for none. TABLES are lists of weights with semicolons between them, one for each
//! symbol, or one for all. BITS are those of a word: 16 with states of 32 and a precision of 12, or 32 with 64 and 24.
//! KIND is how a coder takes its words: `compressed`, `binary`, or of the chain coder `remainders`. ORDER is that of a
//! bit coder: `queue`, `stack`, or in decodes `pushed`, a stack onto which the bits of the words below the highest bit
//! of the last one are pushed one by one.
//!
//! | Request | Answer |
//! |---|---|
//! | `ans_encode BITS KIND WORDS TABLES SYMBOLS` | words by `into_compressed`, `into_binary`, `get_binary` |
//! | `ans_decode BITS KIND WORDS TABLES COUNT` | the symbols, and the three as above |
//! | `range_encode BITS THEN FIRST TABLES SYMBOLS` | words after FIRST symbols, and after all |
//! | `range_decode BITS WORDS TABLES COUNT` | the symbols, and how it ended |
//! | `chain_encode BITS KIND WORDS TABLES SYMBOLS` | both sides by `into_compressed`, `.._binary`, `.._remainders` |
//! | `chain_decode BITS KIND WORDS TABLES COUNT` | the symbols, how it ended, and both sides by `into_remainders` |
//! | `golomb_encode BITS ORDER NUMBERS` | the words |
//! | `golomb_decode BITS ORDER WORDS COUNT` | the numbers, and how it ended |
//! | `huffman_encode BITS ORDER WEIGHTS SYMBOLS` | the words |
//! | `huffman_decode BITS ORDER WEIGHTS WORDS COUNT` | the symbols, and how it ended |
//!
//! THEN is `on`, or `clear` where the encoder is cleared behind the first symbols. An end is `done`, `out` (of data),
//! or `invalid`; a refused request is answered by `impossible`, `invalid` or `out` alone, and words that there are none
//! of by `no`.

use constriction::{
    stream::{
        chain::{ChainCoder, EncoderFrontendError},
        model::{DecoderModel, EncoderModel, EntropyModel},
        queue::{RangeDecoder, RangeEncoder},
        stack::AnsCoder,
        Decode, Encode,
    },
    symbol::{
        exp_golomb::ExpGolomb,
        huffman::{DecoderHuffmanTree, EncoderHuffmanTree},
        DecoderCodebook, EncoderCodebook, QueueEncoder, ReadBitStream, StackCoder, SymbolCodeError,
        WriteBitStream,
    },
    BitArray, CoderError,
};
use std::{
    borrow::Borrow,
    fmt::{Debug, Display},
    io::{stdin, stdout, BufWriter, Write},
    str::FromStr,
};

/// The fields of a request after its name and its bits.
struct Fields<'a>(std::str::Split<'a, char>);

impl<'a> Fields<'a> {
    fn word(&mut self) -> &'a str {
        self.0.next().expect("a field more")
    }

    fn number(&mut self) -> usize {
        self.word().parse().expect("a number")
    }

    fn list<T: FromStr<Err: Debug>>(&mut self) -> Vec<T> {
        list(self.word())
    }
}

fn list<T: FromStr<Err: Debug>>(text: &str) -> Vec<T> {
    match text {
        "-" => Vec::new(),
        _ => text.split(',').map(|it| it.parse().unwrap()).collect(),
    }
}

fn shown<T: Display>(list: &[T]) -> String {
    match list {
        [] => "-".to_string(),
        _ => list.iter().map(T::to_string).collect::<Vec<_>>().join(","),
    }
}

/// Returns words as text, or `no` if there are none.
fn shown_or_no<T: Display>(words: Option<Vec<T>>) -> String {
    words.map_or("no".to_string(), |it| shown(&it))
}

/// Returns both sides of a chain coder as text, or `no` for each.
fn both_or_no<T: Display>(sides: Option<(Vec<T>, Vec<T>)>) -> String {
    sides.map_or("no no".to_string(), |(below, above)| {
        format!("{} {}", shown(&below), shown(&above))
    })
}

/// Decodes this many symbols, or up to an error. Returns the symbols, and how the decoding ended.
fn taken<T: Display>(
    count: usize,
    mut next: impl FnMut(usize) -> Result<T, &'static str>,
) -> (Vec<T>, &'static str) {
    let mut symbols = Vec::new();
    for i in 0..count {
        match next(i) {
            Ok(symbol) => symbols.push(symbol),
            Err(end) => return (symbols, end),
        }
    }
    (symbols, "done")
}

/// The error of reading a codeword.
fn ended<I, B>(error: CoderError<SymbolCodeError<I>, B>) -> &'static str {
    match error {
        CoderError::Frontend(SymbolCodeError::OutOfCompressedData) => "out",
        CoderError::Frontend(SymbolCodeError::InvalidCodeword(_)) => "invalid",
        CoderError::Backend(_) => "backend",
    }
}

/// Coders at one size.
macro_rules! coders {
    ($name:ident, $word:ty, $nonzero:ty, $state:ty, $precision:literal) => {
        mod $name {
            use super::*;

            type Word = $word;
            type Ans = AnsCoder<Word, $state>;
            type Chain = ChainCoder<Word, $state, Vec<Word>, Vec<Word>, $precision>;

            /// The starts of the intervals of the symbols 0, 1, .., and the end of the last one. Some may be empty.
            struct Table(Vec<Word>);

            impl Table {
                fn new(weights: &[Word]) -> Self {
                    let mut starts = vec![0];
                    for weight in weights {
                        starts.push(starts[starts.len() - 1] + weight);
                    }
                    assert!(starts[weights.len()] == 1 << $precision);
                    Table(starts)
                }
            }

            impl EntropyModel<$precision> for Table {
                type Symbol = usize;
                type Probability = Word;
            }

            impl EncoderModel<$precision> for Table {
                fn left_cumulative_and_probability(
                    &self,
                    symbol: impl Borrow<usize>,
                ) -> Option<(Word, $nonzero)> {
                    let symbol = *symbol.borrow();
                    let (left, right) = (self.0.get(symbol)?, self.0.get(symbol + 1)?);
                    Some((*left, <$nonzero>::new(right - left)?))
                }
            }

            impl DecoderModel<$precision> for Table {
                fn quantile_function(&self, quantile: Word) -> (usize, Word, $nonzero) {
                    let symbol = self.0.partition_point(|&start| start <= quantile) - 1;
                    let (left, right) = (self.0[symbol], self.0[symbol + 1]);
                    (symbol, left, <$nonzero>::new(right - left).unwrap())
                }
            }

            /// Returns a table for each symbol.
            struct Tables(Vec<Table>);

            impl Tables {
                fn read(fields: &mut Fields) -> Self {
                    let lists = fields.word().split(';').map(list);
                    Tables(
                        lists
                            .map(|weights: Vec<Word>| Table::new(&weights))
                            .collect(),
                    )
                }

                fn of(&self, place: usize) -> &Table {
                    &self.0[place % self.0.len()]
                }

                /// Returns the symbols, each with its table.
                fn with<'a>(&'a self, symbols: &'a [usize]) -> Vec<(&'a usize, &'a Table)> {
                    let places = symbols.iter().enumerate();
                    places.map(|(i, symbol)| (symbol, self.of(i))).collect()
                }
            }

            fn ans(fields: &mut Fields) -> Option<Ans> {
                let kind = fields.word();
                let words = fields.list();
                match kind {
                    "binary" => Some(Ans::from_binary(words).unwrap()),
                    _ => Ans::from_compressed(words).ok(),
                }
            }

            fn ans_words(mut coder: Ans) -> String {
                let lent = coder.get_binary().ok().map(|it| it.to_vec());
                let binary = coder.clone().into_binary().ok();
                let words = coder.into_compressed().unwrap();
                format!(
                    "{} {} {}",
                    shown(&words),
                    shown_or_no(binary),
                    shown_or_no(lent)
                )
            }

            fn ans_encode(fields: &mut Fields) -> String {
                let coder = ans(fields);
                let (tables, symbols) = (Tables::read(fields), fields.list());
                let Some(mut coder) = coder else {
                    return "invalid".to_string();
                };
                match coder.encode_symbols_reverse(tables.with(&symbols)) {
                    Ok(()) => ans_words(coder),
                    Err(_) => "impossible".to_string(),
                }
            }

            fn ans_decode(fields: &mut Fields) -> String {
                let coder = ans(fields);
                let (tables, count) = (Tables::read(fields), fields.number());
                let Some(mut coder) = coder else {
                    return "invalid".to_string();
                };
                let next = |i| coder.decode_symbol(tables.of(i)).map_err(|_| "backend");
                let (symbols, _) = taken(count, next);
                format!("{} {}", shown(&symbols), ans_words(coder))
            }

            fn range_encode(fields: &mut Fields) -> String {
                let (then, first) = (fields.word(), fields.number());
                let (tables, symbols) = (Tables::read(fields), fields.list());
                let (before, behind) = (tables.with(&symbols[..first]), tables.with(&symbols));
                let mut coder = RangeEncoder::<Word, $state>::new();
                if coder.encode_symbols(before).is_err() {
                    return "impossible".to_string();
                }
                let so_far = coder.get_compressed().to_vec();
                if then == "clear" {
                    coder.clear();
                }
                if coder
                    .encode_symbols(behind.into_iter().skip(first))
                    .is_err()
                {
                    return "impossible".to_string();
                }
                format!(
                    "{} {}",
                    shown(&so_far),
                    shown(&coder.into_compressed().unwrap())
                )
            }

            fn range_decode(fields: &mut Fields) -> String {
                let words: Vec<Word> = fields.list();
                let (tables, count) = (Tables::read(fields), fields.number());
                let mut coder = RangeDecoder::<Word, $state, _>::from_compressed(words).unwrap();
                let next = |i| coder.decode_symbol(tables.of(i)).map_err(|_| "invalid");
                let (symbols, end) = taken(count, next);
                format!("{} {end}", shown(&symbols))
            }

            fn chain(fields: &mut Fields) -> Option<Chain> {
                let kind = fields.word();
                let words = fields.list();
                match kind {
                    "binary" => Chain::from_binary(words).ok(),
                    "remainders" => Chain::from_remainders(words).ok(),
                    _ => Chain::from_compressed(words).ok(),
                }
            }

            fn chain_encode(fields: &mut Fields) -> String {
                let coder = chain(fields);
                let (tables, symbols) = (Tables::read(fields), fields.list());
                let Some(mut coder) = coder else {
                    return "invalid".to_string();
                };
                match coder.encode_symbols_reverse(tables.with(&symbols)) {
                    Ok(()) => (),
                    Err(CoderError::Frontend(EncoderFrontendError::OutOfRemainders)) => {
                        return "out".to_string()
                    }
                    Err(_) => return "impossible".to_string(),
                }
                let words = both_or_no(coder.clone().into_compressed().ok());
                let binary = both_or_no(coder.clone().into_binary().ok());
                format!(
                    "{words} {binary} {}",
                    both_or_no(coder.into_remainders().ok())
                )
            }

            fn chain_decode(fields: &mut Fields) -> String {
                let coder = chain(fields);
                let (tables, count) = (Tables::read(fields), fields.number());
                let Some(mut coder) = coder else {
                    return "invalid".to_string();
                };
                let next = |i| coder.decode_symbol(tables.of(i)).map_err(|_| "out");
                let (symbols, end) = taken(count, next);
                let sides = both_or_no(coder.into_remainders().ok());
                format!("{} {end} {sides}", shown(&symbols))
            }

            pub fn answer(request: &str, fields: &mut Fields) -> String {
                match request {
                    "ans_encode" => ans_encode(fields),
                    "ans_decode" => ans_decode(fields),
                    "range_encode" => range_encode(fields),
                    "range_decode" => range_decode(fields),
                    "chain_encode" => chain_encode(fields),
                    "chain_decode" => chain_decode(fields),
                    "golomb_encode" => {
                        let order = fields.word();
                        let numbers: Vec<Word> = fields.list();
                        encoded::<Word, _>(order, &numbers, &ExpGolomb::<Word>::new())
                    }
                    "golomb_decode" => {
                        let order = fields.word();
                        let words: Vec<Word> = fields.list();
                        let count = fields.number();
                        decoded(order, words, count, &ExpGolomb::<Word>::new())
                    }
                    "huffman_encode" => {
                        let (order, weights) = (fields.word(), fields.list());
                        let tree = EncoderHuffmanTree::from_probabilities::<u32, _>(&weights);
                        encoded::<Word, _>(order, &fields.list(), &tree)
                    }
                    "huffman_decode" => {
                        let (order, weights) = (fields.word(), fields.list());
                        let tree = DecoderHuffmanTree::from_probabilities::<u32, _>(&weights);
                        let words: Vec<Word> = fields.list();
                        let count = fields.number();
                        decoded(order, words, count, &tree)
                    }
                    _ => panic!("{request} is no request"),
                }
            }
        }
    };
}

coders!(large, u32, std::num::NonZeroU32, u64, 24);
coders!(small, u16, std::num::NonZeroU16, u32, 12);

/// Returns the words of the symbols' codewords. A stack gets the last one first.
fn encoded<Word: BitArray, C>(order: &str, symbols: &[C::Symbol], codebook: &C) -> String
where
    C: EncoderCodebook,
    C::Symbol: Copy,
{
    let symbols = symbols.iter().copied();
    let words = if order == "queue" {
        let mut coder = QueueEncoder::<Word>::new();
        let done = coder.encode_iid_symbols(symbols, codebook);
        done.ok().and_then(|()| coder.into_compressed().ok())
    } else {
        let mut coder = StackCoder::<Word>::new();
        let done = coder.encode_iid_symbols_reverse(symbols, codebook);
        done.ok().and_then(|()| coder.into_compressed().ok())
    };
    words.map_or("impossible".to_string(), |it: Vec<Word>| shown(&it))
}

/// Returns the symbols whose codewords the words hold, and how the decoding ended.
fn decoded<Word: BitArray, C>(order: &str, words: Vec<Word>, count: usize, codebook: &C) -> String
where
    C: DecoderCodebook,
    C::Symbol: Display,
{
    let (symbols, end) = match order {
        "queue" => {
            let coder = QueueEncoder::<Word>::from_compressed(words);
            let mut coder = coder.into_decoder().ok().unwrap();
            taken(count, |_| coder.decode_symbol(codebook).map_err(ended))
        }
        _ => {
            let coder = match order {
                "pushed" => Ok(pushed(&words)),
                _ => StackCoder::from_compressed(words),
            };
            let Ok(mut coder) = coder else {
                return "invalid".to_string();
            };
            taken(count, |_| coder.decode_symbol(codebook).map_err(ended))
        }
    };
    format!("{} {end}", shown(&symbols))
}

/// Returns a stack of the bits of these words below the highest set bit of the last word.
fn pushed<Word: BitArray>(words: &[Word]) -> StackCoder<Word> {
    let bit = |place: usize| {
        words[place / Word::BITS] >> (place % Word::BITS) & Word::one() != Word::zero()
    };
    let mut count = Word::BITS * words.len();
    while count > 0 && !bit(count - 1) {
        count -= 1;
    }
    let mut coder = StackCoder::<Word>::new();
    for place in 0..count.saturating_sub(1) {
        coder.write_bit(bit(place)).unwrap();
    }
    coder
}

fn main() {
    let mut answers = BufWriter::new(stdout().lock());
    for line in stdin().lines() {
        let line = line.unwrap();
        let mut fields = Fields(line.split(' '));
        let (request, bits) = (fields.word(), fields.number());
        let answer = match bits {
            16 => small::answer(request, &mut fields),
            32 => large::answer(request, &mut fields),
            _ => panic!("there are no words of {bits} bits"),
        };
        writeln!(answers, "{answer}").unwrap();
    }
}
