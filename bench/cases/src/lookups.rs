//! Lookup models over the words that the crate has them over.
use crate::fields::{by, Fields, Said, Word};
use crate::models::{asked, judged, judged_numbers, searching};
use constriction::stream::model::{ContiguousLookupDecoderModel, NonContiguousLookupDecoderModel};
use num_traits::AsPrimitive;

/// The slot bits of the lookup models that have the crate's names.
pub const BITS: usize = 8;

type Numbers<P, const N: usize> = ContiguousLookupDecoderModel<P, Vec<P>, Box<[P]>, N>;
type Symbols<P, const N: usize> = NonContiguousLookupDecoderModel<u64, P, Vec<(P, u64)>, Box<[P]>, N>;

/// Whether the crate's lookup table would take more than 2^24 words before the weights are refused.
fn grows<P: Word>(weights: &[P]) -> bool {
    weights.iter().map(|it| it.number()).sum::<u128>() > 1 << 24
}

const GROWS: &str = "a table that grows before it is refused";

/// What a line asks of a lookup model of the symbols 0, 1, ..
pub fn numbers<P: Word + Into<usize>, const N: usize>(kind: &str, mut fields: Fields) -> Result<Said, String>
where
    usize: AsPrimitive<P>,
{
    let argument = fields.argument(kind)?;
    let weights = fields.words::<P>()?;
    let (model, rule) = match kind {
        "tolook" => {
            let (model, rule) = searching::<P, N>(&weights, false)?;
            (model.map(|it| it.to_lookup_decoder_model()), rule)
        }
        _ if grows(&weights) => return by(GROWS, "invalid"),
        _ => judged_numbers(&weights, kind.ends_with('i'), N, |given, infer| Numbers::<P, N>::from_nonzero_fixed_point_probabilities(given, infer))?,
    };
    let Some(model) = model else { return by(rule, "invalid") };
    let answer = match kind {
        "intotable" => asked(kind, argument, BITS, &model.into_contiguous_categorical()),
        _ => asked(kind, argument, BITS, &model),
    };
    Ok(answer?.ruled(rule))
}

/// What a line asks of a lookup model of any symbols.
pub fn symbols<P: Word + Into<usize>, const N: usize>(kind: &str, mut fields: Fields) -> Result<Said, String>
where
    usize: AsPrimitive<P>,
{
    let argument = fields.argument(kind)?;
    let symbols = fields.symbols()?;
    let weights = fields.words::<P>()?;
    if grows(&weights) {
        return by(GROWS, "invalid");
    }
    let make = |given: &[P], infer| Symbols::<P, N>::from_symbols_and_nonzero_fixed_point_probabilities(symbols.iter().copied(), given, infer);
    let (model, rule) = judged(&symbols, &weights, kind.ends_with('i'), N, make)?;
    let Some(model) = model else { return by(rule, "invalid") };
    Ok(asked(kind, argument, BITS, &model)?.ruled(rule))
}
