//! Lookup models. The Rust crate's have a slot for each quantile, and are compared with models of 256 slots here too.
use super::{mix, row};
use constriction::stream::model::{DecoderModel, SmallContiguousLookupDecoderModel, SmallNonContiguousLookupDecoderModel};

type Lookup = SmallContiguousLookupDecoderModel;
type LookupOfSymbols = SmallNonContiguousLookupDecoderModel<u32>;

fn of_symbols(weights: &[u16], symbols: &[u32]) -> Result<LookupOfSymbols, ()> {
    LookupOfSymbols::from_symbols_and_nonzero_fixed_point_probabilities(symbols.iter().copied(), weights.iter().copied(), false)
}

#[inline(never)]
pub fn direct_lookup_build(weights: &[u16], repeats: u32) -> u64 {
    let mut sum = 0;
    for _ in 0..repeats {
        let Ok(model) = Lookup::from_nonzero_fixed_point_probabilities(weights.iter().copied(), false) else { return 1 };
        let (symbol, left, weight) = model.quantile_function(0);
        sum = mix(sum, row(symbol, left as u64, weight.get() as u64));
    }
    sum
}

#[inline(never)]
pub fn direct_lookup_quantile(weights: &[u16], quantiles: &[u16], repeats: u32) -> u64 {
    let Ok(model) = Lookup::from_nonzero_fixed_point_probabilities(weights.iter().copied(), false) else { return 1 };
    let mut sum = 0;
    for _ in 0..repeats {
        for quantile in quantiles {
            let (symbol, left, weight) = model.quantile_function(*quantile);
            sum = mix(sum, row(symbol, left as u64, weight.get() as u64));
        }
    }
    sum
}

#[inline(never)]
pub fn direct_symbol_lookup_build(weights: &[u16], symbols: &[u32], repeats: u32) -> u64 {
    let mut sum = 0;
    for _ in 0..repeats {
        let Ok(model) = of_symbols(weights, symbols) else { return 1 };
        let (symbol, left, weight) = model.quantile_function(0);
        sum = mix(sum, row(symbol as usize, left as u64, weight.get() as u64));
    }
    sum
}

#[inline(never)]
pub fn direct_symbol_lookup_quantile(weights: &[u16], symbols: &[u32], quantiles: &[u16], repeats: u32) -> u64 {
    let Ok(model) = of_symbols(weights, symbols) else { return 1 };
    let mut sum = 0;
    for _ in 0..repeats {
        for quantile in quantiles {
            let (symbol, left, weight) = model.quantile_function(*quantile);
            sum = mix(sum, row(symbol as usize, left as u64, weight.get() as u64));
        }
    }
    sum
}

pub use direct_lookup_build as slotted_lookup_build;
pub use direct_lookup_quantile as slotted_lookup_quantile;
pub use direct_symbol_lookup_quantile as slotted_symbol_lookup_quantile;
// The Rust crate has no lookup model over these words: its search stands beside them.
pub use super::contiguous::contiguous_quantile as wide_lookup_8_quantile;
pub use super::contiguous::contiguous_build as wide_lookup_8_build;
pub use super::contiguous::contiguous_quantile as wide_lookup_12_quantile;
pub use super::contiguous::contiguous_build as wide_lookup_12_build;
pub use super::contiguous::contiguous_quantile as wide_lookup_16_quantile;
pub use super::contiguous::contiguous_build as wide_lookup_16_build;
