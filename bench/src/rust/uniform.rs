//! Uniform models, which divide.
use super::{mix, row};
use constriction::stream::model::{DecoderModel, DefaultUniformModel, EncoderModel, IterableEntropyModel};

#[inline(never)]
pub fn uniform_quantile(range: usize, quantiles: &[u32], repeats: u32) -> u64 {
    let model = DefaultUniformModel::new(range);
    let mut sum = 0;
    for _ in 0..repeats {
        for quantile in quantiles {
            let (symbol, left, weight) = model.quantile_function(*quantile);
            sum = mix(sum, row(symbol, left as u64, weight.get() as u64));
        }
    }
    sum
}

#[inline(never)]
pub fn uniform_symbol(range: usize, symbols: &[u32], repeats: u32) -> u64 {
    let model = DefaultUniformModel::new(range);
    let mut sum = 0;
    for _ in 0..repeats {
        for symbol in symbols {
            sum = match model.left_cumulative_and_probability(*symbol as usize) {
                Some((left, weight)) => mix(sum, row(0, left as u64, weight.get() as u64)),
                None => mix(sum, 1),
            };
        }
    }
    sum
}

#[inline(never)]
pub fn uniform_table(range: usize, repeats: u32) -> u64 {
    let model = DefaultUniformModel::new(range);
    let mut sum = 0;
    for _ in 0..repeats {
        for (symbol, left, weight) in model.symbol_table() {
            sum = mix(sum, row(symbol, left as u64, weight.get() as u64));
        }
    }
    sum
}
