//! The worked stack coder, written out over the Rust crate's models.
use super::mix;
use constriction::NonZeroBitArray;
use constriction::stream::model::{DecoderModel, DefaultContiguousCategoricalEntropyModel, EncoderModel};

type Contiguous = DefaultContiguousCategoricalEntropyModel;

/// A state over a stack of words.
pub(super) struct StackCoder {
    state: u64,
    words: Vec<u32>,
}

impl StackCoder {
    pub(super) fn new() -> Self {
        Self::over(Vec::new())
    }

    /// A coder that holds nothing, with the memory of these words.
    pub(super) fn over(mut words: Vec<u32>) -> Self {
        words.clear();
        StackCoder { state: 0, words }
    }

    pub(super) fn is_empty(&self) -> bool {
        self.state == 0 && self.words.is_empty()
    }

    /// Puts a symbol on the state, which loses a word first where it has no room.
    #[inline(always)]
    pub(super) fn encode_symbol<const PRECISION: usize, M>(&mut self, symbol: usize, model: &M) -> Result<(), ()>
    where
        M: EncoderModel<PRECISION, Symbol = usize, Probability = u32>,
    {
        let (left, weight) = model.left_cumulative_and_probability(symbol).ok_or(())?;
        let weight = u64::from(weight.get());
        if self.state >> (64 - PRECISION) >= weight {
            self.words.push(self.state as u32);
            self.state >>= 32;
        }
        self.state = ((self.state / weight) << PRECISION) | (u64::from(left) + self.state % weight);
        Ok(())
    }

    /// Takes the symbol on top of the state, which takes a word where it has become small.
    #[inline(always)]
    pub(super) fn decode_symbol<const PRECISION: usize, M>(&mut self, model: &M) -> usize
    where
        M: DecoderModel<PRECISION, Symbol = usize>,
        M::Probability: TryFrom<u64> + Into<u64>,
    {
        let quantile = self.state % (1 << PRECISION);
        let Ok(word) = M::Probability::try_from(quantile) else { unreachable!() };
        let (symbol, left, weight) = model.quantile_function(word);
        let (left, weight): (u64, u64) = (left.into(), weight.get().into());
        self.state = (self.state >> PRECISION) * weight + (quantile - left);
        if self.state < 1 << 32 {
            if let Some(word) = self.words.pop() {
                self.state = (self.state << 32) | u64::from(word);
            }
        }
        symbol
    }

    /// The words with those of the state on top.
    pub(super) fn into_compressed(mut self) -> Vec<u32> {
        while self.state != 0 {
            self.words.push(self.state as u32);
            self.state >>= 32;
        }
        self.words
    }

    /// The coder of such words, unless they end in 0.
    pub(super) fn from_compressed(mut words: Vec<u32>) -> Option<Self> {
        let state = match words.pop() {
            None => 0,
            Some(0) => return None,
            Some(high) => match words.pop() {
                None => u64::from(high),
                Some(low) => u64::from(high) << 32 | u64::from(low),
            },
        };
        Some(StackCoder { state, words })
    }
}

#[inline(never)]
pub fn coder_encode(weights: &[u32], symbols: &[u32], repeats: u32) -> u64 {
    let Ok(model) = Contiguous::from_nonzero_fixed_point_probabilities(weights.iter().copied(), false) else { return 1 };
    let mut sum = 0;
    for _ in 0..repeats {
        let mut coder = StackCoder::new();
        for symbol in symbols {
            if coder.encode_symbol(*symbol as usize, &model).is_err() {
                return 1;
            }
        }
        for word in coder.into_compressed() {
            sum = mix(sum, u64::from(word));
        }
    }
    sum
}

#[inline(never)]
pub fn coder_decode(weights: &[u32], words: &[u32], repeats: u32) -> u64 {
    let Ok(model) = Contiguous::from_nonzero_fixed_point_probabilities(weights.iter().copied(), false) else { return 1 };
    let half = &words[..words.len() / 2];
    let mut sum = 0;
    for _ in 0..repeats {
        let Some(mut coder) = StackCoder::from_compressed(half.to_vec()) else { return 1 };
        for _ in 0..words.len() {
            sum = mix(sum, coder.decode_symbol(&model) as u64);
        }
    }
    sum
}

// The Rust crate has no lookup model over these words: its search stands beside it.
pub use coder_decode as coder_lookup_decode;
