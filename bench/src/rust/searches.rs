//! Models that search, over the words and the precision of the small lookup models.
use super::{mix, row};
use constriction::stream::model::{DecoderModel, SmallContiguousCategoricalEntropyModel, SmallNonContiguousCategoricalDecoderModel};

type Contiguous = SmallContiguousCategoricalEntropyModel;
type Decoder = SmallNonContiguousCategoricalDecoderModel<u32>;

#[inline(never)]
pub fn small_contiguous_quantile(weights: &[u16], quantiles: &[u16], repeats: u32) -> u64 {
    let Ok(model) = Contiguous::from_nonzero_fixed_point_probabilities(weights.iter().copied(), false) else { return 1 };
    let mut sum = 0;
    for _ in 0..repeats {
        for quantile in quantiles {
            let (symbol, left, weight) = model.quantile_function(*quantile);
            sum = mix(sum, row(symbol, left as u64, weight.get() as u64));
        }
    }
    sum
}

#[inline(never)]
pub fn small_decoder_quantile(weights: &[u16], symbols: &[u32], quantiles: &[u16], repeats: u32) -> u64 {
    let Ok(model) = Decoder::from_symbols_and_nonzero_fixed_point_probabilities(symbols.iter().copied(), weights.iter().copied(), false) else { return 1 };
    let mut sum = 0;
    for _ in 0..repeats {
        for quantile in quantiles {
            let (symbol, left, weight) = model.quantile_function(*quantile);
            sum = mix(sum, row(symbol as usize, left as u64, weight.get() as u64));
        }
    }
    sum
}
