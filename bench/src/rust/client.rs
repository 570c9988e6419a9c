//! What the generic client does, which the Rust crate has no function for, written out over its models and backends.
use super::mix;
use constriction::backends::{Cursor, ReadWords, WriteWords};
use constriction::stream::model::{DecoderModel, DefaultContiguousCategoricalEntropyModel, EncoderModel};
use constriction::Queue;

type Contiguous = DefaultContiguousCategoricalEntropyModel;

#[inline(never)]
pub fn write_quantiles(weights: &[u32], symbols: &[u32], repeats: u32) -> u64 {
    let Ok(model) = Contiguous::from_nonzero_fixed_point_probabilities(weights.iter().copied(), false) else { return 1 };
    let items: Vec<(usize, u32)> = symbols.iter().map(|symbol| (*symbol as usize, 0)).collect();
    let mut sum = 0;
    for _ in 0..repeats {
        let mut words: Vec<u32> = Vec::new();
        for (symbol, offset) in &items {
            match model.left_cumulative_and_probability(*symbol) {
                Some((left, weight)) if *offset < weight.get() => {
                    if words.write(left + *offset).is_err() {
                        return 1;
                    }
                }
                _ => return 1,
            }
        }
        sum = mix(sum, words.len() as u64 + words.get(words.len() / 2).map_or(0, |word| *word as u64));
    }
    sum
}

#[inline(never)]
pub fn read_symbols(weights: &[u32], words: &[u32], repeats: u32) -> u64 {
    let Ok(model) = Contiguous::from_nonzero_fixed_point_probabilities(weights.iter().copied(), false) else { return 1 };
    let mut sum = 0;
    for _ in 0..repeats {
        let mut source = Cursor::<u32, &[u32]>::new_at_write_beginning(words);
        let mut pairs: Vec<(usize, u32)> = Vec::new();
        for _ in 0..words.len() {
            match ReadWords::<u32, Queue>::read(&mut source) {
                Ok(Some(word)) if word < 1 << 24 => {
                    let (symbol, left, _) = model.quantile_function(word);
                    pairs.push((symbol, word - left));
                }
                _ => return 1,
            }
        }
        sum = mix(sum, pairs.len() as u64 + pairs.get(pairs.len() / 2).map_or(0, |pair| pair.0 as u64 + pair.1 as u64));
    }
    sum
}
