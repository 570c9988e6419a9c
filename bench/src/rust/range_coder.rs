//! The range coder, written out over the Rust crate's models.
use super::mix;
use constriction::stream::model::{DecoderModel, DefaultContiguousCategoricalEntropyModel, EncoderModel};

type Contiguous = DefaultContiguousCategoricalEntropyModel;

/// A span of numbers. The least one is the words with `lower` after them.
struct RangeEncoder {
    words: Vec<u32>,
    lower: u64,
    range: u64,
}

impl RangeEncoder {
    /// Adds to the least number. A carry goes into the words.
    #[inline(always)]
    fn raise(&mut self, by: u64) {
        let (sum, carries) = self.lower.overflowing_add(by);
        if carries {
            for word in self.words.iter_mut().rev() {
                *word = word.wrapping_add(1);
                if *word != 0 {
                    break;
                }
            }
        }
        self.lower = sum;
    }

    /// Narrows the span to the part of a symbol. A small part gets a word more.
    #[inline(always)]
    fn encode_symbol<M: EncoderModel<24, Symbol = usize, Probability = u32>>(&mut self, symbol: usize, model: &M) -> Result<(), ()> {
        let (left, weight) = model.left_cumulative_and_probability(symbol).ok_or(())?;
        let unit = self.range >> 24;
        self.raise(unit * u64::from(left));
        self.range = unit * u64::from(weight.get());
        if self.range < 1 << 32 {
            self.words.push((self.lower >> 32) as u32);
            self.lower <<= 32;
            self.range <<= 32;
        }
        Ok(())
    }

    /// The words and then the words of a number, such that all numbers that begin with them are in the span.
    fn into_compressed(mut self) -> Vec<u32> {
        if self.range == u64::MAX {
            return self.words;
        }
        let end = self.lower.wrapping_add(self.range) >> 32;
        self.raise(u64::from(u32::MAX));
        self.words.push((self.lower >> 32) as u32);
        if self.lower >> 32 == end {
            self.words.push(0);
        }
        self.words
    }
}

/// How many numbers the interval has, and how far the point lies above the least one.
struct RangeDecoder<'w> {
    range: u64,
    offset: u64,
    words: std::slice::Iter<'w, u32>,
}

impl<'w> RangeDecoder<'w> {
    fn from_compressed(words: &'w [u32]) -> Self {
        let mut words = words.iter();
        let mut next = || u64::from(words.next().copied().unwrap_or(0));
        let offset = next() << 32 | next();
        RangeDecoder { range: u64::MAX, offset, words }
    }

    /// The symbol in whose part the point lies, unless it lies above all.
    #[inline(always)]
    fn decode_symbol<M: DecoderModel<24, Symbol = usize, Probability = u32>>(&mut self, model: &M) -> Option<usize> {
        let unit = self.range >> 24;
        let quantile = self.offset / unit;
        if quantile >= 1 << 24 {
            return None;
        }
        let (symbol, left, weight) = model.quantile_function(quantile as u32);
        self.offset -= unit * u64::from(left);
        self.range = unit * u64::from(weight.get());
        if self.range < 1 << 32 {
            self.range <<= 32;
            self.offset = self.offset << 32 | u64::from(self.words.next().copied().unwrap_or(0));
        }
        Some(symbol)
    }
}

#[inline(always)]
fn words_of(model: &Contiguous, symbols: &[u32]) -> Option<Vec<u32>> {
    let mut coder = RangeEncoder { words: Vec::new(), lower: 0, range: u64::MAX };
    for symbol in symbols {
        coder.encode_symbol(*symbol as usize, model).ok()?;
    }
    Some(coder.into_compressed())
}

#[inline(never)]
pub fn range_encode(weights: &[u32], symbols: &[u32], repeats: u32) -> u64 {
    let Ok(model) = Contiguous::from_nonzero_fixed_point_probabilities(weights.iter().copied(), false) else { return 1 };
    let mut sum = 0;
    for _ in 0..repeats {
        let Some(words) = words_of(&model, symbols) else { return 1 };
        for word in words {
            sum = mix(sum, u64::from(word));
        }
    }
    sum
}

#[inline(never)]
pub fn range_decode(weights: &[u32], symbols: &[u32], repeats: u32) -> u64 {
    let Ok(model) = Contiguous::from_nonzero_fixed_point_probabilities(weights.iter().copied(), false) else { return 1 };
    let Some(words) = words_of(&model, symbols) else { return 1 };
    let mut sum = 0;
    for _ in 0..repeats {
        let mut coder = RangeDecoder::from_compressed(&words);
        for _ in 0..symbols.len() {
            let Some(symbol) = coder.decode_symbol(&model) else { return 1 };
            sum = mix(sum, symbol as u64);
        }
    }
    sum
}
