//! Symbols as words, and words as symbols. The crate does this only inside its coders, so its models are asked instead.
use crate::fields::{below, commas, said, Fields, Said, Word};
use crate::models::searching;
use constriction::stream::model::{DecoderModel, EncoderModel};
use constriction::NonZeroBitArray;

/// Items as words, up to the first that has none.
pub fn write<P: Word, const N: usize>(mut fields: Fields) -> Result<Said, String> {
    let count = fields.index()?;
    let items = (0..count).map(|_| Ok((fields.index()?, fields.number()?))).collect::<Result<Vec<_>, String>>()?;
    let (Some(model), _) = searching::<P, N>(&fields.words()?, false)? else { return said("invalid") };
    let mut written: Vec<P> = vec![];
    let mut end = "ok";
    for (symbol, offset) in items {
        match model.left_cumulative_and_probability(symbol) {
            None => end = "impossible",
            Some((_, weight)) if offset >= weight.get().number() => end = "offset",
            Some((left, _)) => written.push(P::of(left.number() + offset).ok_or("no word")?),
        }
        if end != "ok" {
            break;
        }
    }
    said(format!("{end} | {}", commas(&written)))
}

/// Words as items, up to the count or the first that is no quantile.
pub fn read<P: Word, const N: usize>(mut fields: Fields) -> Result<Said, String> {
    let count = fields.index()?;
    let asked = fields.counted::<P>()?;
    let (Some(model), _) = searching::<P, N>(&fields.words()?, false)? else { return said("invalid") };
    let mut pairs = vec![];
    let mut position = 0;
    let mut end = None;
    for word in asked.into_iter().take(count) {
        position += 1;
        if !below(word.number(), N) {
            end = Some("large");
            break;
        }
        let (symbol, left, _) = model.quantile_function(word);
        pairs.push(format!("{symbol}:{}", word.number() - left.number()));
    }
    let end = end.map_or(pairs.len().to_string(), str::to_string);
    said(format!("{end} @{position} | {}", commas(&pairs)))
}
