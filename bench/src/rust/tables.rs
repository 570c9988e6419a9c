//! Stack coders over the Rust crate's models of 12 bits: a slot for each quantile, or a division.
use super::coder::StackCoder;
use super::mix;
use constriction::stream::model::{ContiguousCategoricalEntropyModel, SmallContiguousLookupDecoderModel};

type Model = ContiguousCategoricalEntropyModel<u32, Vec<u32>, 12>;

type Lookup = SmallContiguousLookupDecoderModel;

/// The checksum with some of the bytes, so few that they take no time.
#[inline(always)]
fn mix_some(sum: u64, bytes: &[u8]) -> u64 {
    bytes.iter().step_by(64).fold(sum, |sum, byte| mix(sum, u64::from(*byte)))
}

fn model_of(weights: &[u32]) -> Option<Model> {
    Model::from_nonzero_fixed_point_probabilities(weights.iter().copied(), false).ok()
}

fn lookup_of(weights: &[u32]) -> Option<Lookup> {
    Lookup::from_nonzero_fixed_point_probabilities(weights.iter().map(|weight| *weight as u16), false).ok()
}

/// The words of a message. They are written over those of the buffer.
#[inline(always)]
fn words_of(model: &Model, bytes: &[u8], buffer: Vec<u32>) -> Option<Vec<u32>> {
    let mut coder = StackCoder::over(buffer);
    for byte in bytes.iter().rev() {
        coder.encode_symbol(usize::from(*byte), model).ok()?;
    }
    Some(coder.into_compressed())
}

#[inline(never)]
pub fn table_encode(weights: &[u32], bytes: &[u8], repeats: u32) -> u64 {
    let Some(model) = model_of(weights) else { return 1 };
    let (mut words, mut sum) = (Vec::new(), 0);
    for _ in 0..repeats {
        let Some(written) = words_of(&model, bytes, words) else { return 1 };
        sum = written.iter().fold(sum, |sum, word| mix(sum, u64::from(*word)));
        words = written;
    }
    sum
}

#[inline(never)]
pub fn table_decode(weights: &[u32], bytes: &[u8], repeats: u32) -> u64 {
    let (Some(model), Some(lookup)) = (model_of(weights), lookup_of(weights)) else { return 1 };
    let Some(words) = words_of(&model, bytes, Vec::new()) else { return 1 };
    let (mut decoded, mut sum) = (vec![0; bytes.len()], 0);
    for _ in 0..repeats {
        let Some(mut coder) = StackCoder::from_compressed(words.clone()) else { return 1 };
        for symbol in &mut decoded {
            *symbol = coder.decode_symbol(&lookup) as u8;
        }
        sum = mix_some(sum, &decoded);
    }
    sum
}

#[inline(never)]
pub fn table_decode_two(weights: &[u32], bytes: &[u8], repeats: u32) -> u64 {
    let (Some(model), Some(lookup)) = (model_of(weights), lookup_of(weights)) else { return 1 };
    let halves = bytes.split_at(bytes.len() / 2);
    let Some(first) = words_of(&model, halves.0, Vec::new()) else { return 1 };
    let Some(second) = words_of(&model, halves.1, Vec::new()) else { return 1 };
    let (mut decoded, mut sum) = (vec![0; bytes.len()], 0);
    for _ in 0..repeats {
        let Some(mut first) = StackCoder::from_compressed(first.clone()) else { return 1 };
        let Some(mut second) = StackCoder::from_compressed(second.clone()) else { return 1 };
        let (left, right) = decoded.split_at_mut(bytes.len() / 2);
        for (one, other) in left.iter_mut().zip(&mut *right) {
            *one = first.decode_symbol(&lookup) as u8;
            *other = second.decode_symbol(&lookup) as u8;
        }
        for other in &mut right[left.len()..] {
            *other = second.decode_symbol(&lookup) as u8;
        }
        sum = mix_some(mix_some(sum, left), right);
    }
    sum
}
