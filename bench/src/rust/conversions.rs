//! Conversions of contiguous models.
use super::{mix, row};
use constriction::stream::model::{
    ContiguousCategoricalEntropyModel, DecoderModel, DefaultContiguousCategoricalEntropyModel, IterableEntropyModel, SmallContiguousCategoricalEntropyModel,
};

type Contiguous = DefaultContiguousCategoricalEntropyModel;
type Small = SmallContiguousCategoricalEntropyModel;
type Wide = ContiguousCategoricalEntropyModel<u64, Vec<u64>, 24>;

#[inline(never)]
pub fn to_decoder(weights: &[u32], repeats: u32) -> u64 {
    let Ok(source) = Contiguous::from_nonzero_fixed_point_probabilities(weights.iter().copied(), false) else { return 1 };
    let mut sum = 0;
    for _ in 0..repeats {
        sum = mix(sum, source.to_generic_decoder_model().support_size() as u64);
    }
    sum
}

/// The Rust crate has one conversion, which looks for no repeats.
pub use to_decoder as to_decoder_of_distinct;

#[inline(never)]
pub fn wide_to_decoder_of_distinct(weights: &[u64], repeats: u32) -> u64 {
    let Ok(source) = Wide::from_nonzero_fixed_point_probabilities(weights.iter().copied(), false) else { return 1 };
    let mut sum = 0;
    for _ in 0..repeats {
        sum = mix(sum, source.to_generic_decoder_model().support_size() as u64);
    }
    sum
}

#[inline(never)]
pub fn to_encoder(weights: &[u32], repeats: u32) -> u64 {
    let Ok(source) = Contiguous::from_nonzero_fixed_point_probabilities(weights.iter().copied(), false) else { return 1 };
    let mut sum = 0;
    for _ in 0..repeats {
        sum = mix(sum, source.to_generic_encoder_model().support_size() as u64);
    }
    sum
}

#[inline(never)]
pub fn to_direct_lookup(weights: &[u16], repeats: u32) -> u64 {
    let Ok(source) = Small::from_nonzero_fixed_point_probabilities(weights.iter().copied(), false) else { return 1 };
    let mut sum = 0;
    for _ in 0..repeats {
        let model = source.to_lookup_decoder_model();
        let (symbol, left, weight) = model.quantile_function(0);
        sum = mix(sum, row(symbol, left as u64, weight.get() as u64));
    }
    sum
}
