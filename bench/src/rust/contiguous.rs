//! Contiguous models, which search.
use super::{mix, row};
use constriction::stream::model::{DecoderModel, DefaultContiguousCategoricalEntropyModel, EncoderModel, IterableEntropyModel};

type Contiguous = DefaultContiguousCategoricalEntropyModel;

#[inline(never)]
pub fn contiguous_build(weights: &[u32], repeats: u32) -> u64 {
    let mut sum = 0;
    for _ in 0..repeats {
        let Ok(model) = Contiguous::from_nonzero_fixed_point_probabilities(weights.iter().copied(), false) else { return 1 };
        sum = mix(sum, model.support_size() as u64);
    }
    sum
}

#[inline(never)]
pub fn contiguous_quantile(weights: &[u32], quantiles: &[u32], repeats: u32) -> u64 {
    let Ok(model) = Contiguous::from_nonzero_fixed_point_probabilities(weights.iter().copied(), false) else { return 1 };
    let mut sum = 0;
    for _ in 0..repeats {
        for quantile in quantiles {
            let (symbol, left, weight) = model.quantile_function(*quantile);
            sum = mix(sum, row(symbol, left as u64, weight.get() as u64));
        }
    }
    sum
}

#[inline(never)]
pub fn contiguous_symbol(weights: &[u32], symbols: &[u32], repeats: u32) -> u64 {
    let Ok(model) = Contiguous::from_nonzero_fixed_point_probabilities(weights.iter().copied(), false) else { return 1 };
    let mut sum = 0;
    for _ in 0..repeats {
        for symbol in symbols {
            sum = match model.left_cumulative_and_probability(*symbol as usize) {
                Some((left, weight)) => mix(sum, row(0, left as u64, weight.get() as u64)),
                None => mix(sum, 1),
            };
        }
    }
    sum
}

#[inline(never)]
pub fn contiguous_table(weights: &[u32], repeats: u32) -> u64 {
    let Ok(model) = Contiguous::from_nonzero_fixed_point_probabilities(weights.iter().copied(), false) else { return 1 };
    let mut sum = 0;
    for _ in 0..repeats {
        for (symbol, left, weight) in model.symbol_table() {
            sum = mix(sum, row(symbol, left as u64, weight.get() as u64));
        }
    }
    sum
}
