//! Models over any symbols: decoders, which search, and encoders, which are hashed.
use super::{mix, row};
use constriction::stream::model::{
    DecoderModel, DefaultNonContiguousCategoricalDecoderModel, DefaultNonContiguousCategoricalEncoderModel, EncoderModel, IterableEntropyModel,
};

type Decoder = DefaultNonContiguousCategoricalDecoderModel<u32>;
type Encoder = DefaultNonContiguousCategoricalEncoderModel<u32>;

fn decoder(weights: &[u32], symbols: &[u32]) -> Result<Decoder, ()> {
    Decoder::from_symbols_and_nonzero_fixed_point_probabilities(symbols.iter().copied(), weights.iter().copied(), false)
}

fn encoder(weights: &[u32], symbols: &[u32]) -> Result<Encoder, ()> {
    Encoder::from_symbols_and_nonzero_fixed_point_probabilities(symbols.iter().copied(), weights.iter().copied(), false)
}

/// The Rust crate has one constructor, which looks for no repeats.
#[inline(never)]
pub fn decoder_build(weights: &[u32], symbols: &[u32], repeats: u32) -> u64 {
    let mut sum = 0;
    for _ in 0..repeats {
        let Ok(model) = decoder(weights, symbols) else { return 1 };
        sum = mix(sum, model.support_size() as u64);
    }
    sum
}

pub use decoder_build as decoder_build_distinct;
pub use decoder_build as decoder_build_hashable;
pub use decoder_build as decoder_build_sorted;

#[inline(never)]
pub fn decoder_quantile(weights: &[u32], symbols: &[u32], quantiles: &[u32], repeats: u32) -> u64 {
    let Ok(model) = decoder(weights, symbols) else { return 1 };
    let mut sum = 0;
    for _ in 0..repeats {
        for quantile in quantiles {
            let (symbol, left, weight) = model.quantile_function(*quantile);
            sum = mix(sum, row(symbol as usize, left as u64, weight.get() as u64));
        }
    }
    sum
}

#[inline(never)]
pub fn decoder_table(weights: &[u32], symbols: &[u32], repeats: u32) -> u64 {
    let Ok(model) = decoder(weights, symbols) else { return 1 };
    let mut sum = 0;
    for _ in 0..repeats {
        for (symbol, left, weight) in model.symbol_table() {
            sum = mix(sum, row(symbol as usize, left as u64, weight.get() as u64));
        }
    }
    sum
}

#[inline(never)]
pub fn encoder_build(weights: &[u32], symbols: &[u32], repeats: u32) -> u64 {
    let mut sum = 0;
    for _ in 0..repeats {
        let Ok(model) = encoder(weights, symbols) else { return 1 };
        sum = mix(sum, model.support_size() as u64);
    }
    sum
}

#[inline(never)]
pub fn encoder_symbol(weights: &[u32], symbols: &[u32], asked: &[u32], repeats: u32) -> u64 {
    let Ok(model) = encoder(weights, symbols) else { return 1 };
    let mut sum = 0;
    for _ in 0..repeats {
        for symbol in asked {
            sum = match model.left_cumulative_and_probability(symbol) {
                Some((left, weight)) => mix(sum, row(0, left as u64, weight.get() as u64)),
                None => mix(sum, 1),
            };
        }
    }
    sum
}
