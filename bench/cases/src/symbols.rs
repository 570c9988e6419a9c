//! Models of any symbols: decoders that search, and encoders that are hashed.
use crate::fields::{by, index, said, Fields, Said, Word};
use crate::models::{asked, entry, judged, lines, of_quantile, rows_of, Made};
use constriction::stream::model::{
    EncoderModel, IterableEntropyModel, NonContiguousCategoricalDecoderModel, NonContiguousCategoricalEncoderModel,
};
use std::hash::{Hash, Hasher};

type Decoder<P, const N: usize> = NonContiguousCategoricalDecoderModel<u64, P, Vec<(P, u64)>, N>;
type Encoder<S, P, const N: usize> = NonContiguousCategoricalEncoderModel<S, P, N>;

/// Equal where the numbers agree modulo 10.
#[derive(Clone, Copy)]
struct Tag(u64);

impl PartialEq for Tag {
    fn eq(&self, other: &Tag) -> bool {
        self.0 % 10 == other.0 % 10
    }
}

impl Eq for Tag {}

impl Hash for Tag {
    fn hash<H: Hasher>(&self, state: &mut H) {
        (self.0 % 10).hash(state)
    }
}

/// What a line asks of a hashed encoder: the entry of a symbol, or how many there are where none is given.
fn encoder<S: Hash + Eq + Copy, P: Word, const N: usize>(symbols: &[S], weights: &[P], infer: bool, symbol: Option<S>) -> Result<Said, String> {
    let make = |given: &[P], infer| Encoder::<S, P, N>::from_symbols_and_nonzero_fixed_point_probabilities(symbols.iter().copied(), given, infer);
    let (model, rule) = judged(symbols, weights, infer, N, make)?;
    let Some(model) = model else { return by(rule, "invalid") };
    by(rule, symbol.map_or_else(|| model.support_size().to_string(), |it| entry(model.left_cumulative_and_probability(it))))
}

fn decoder<P: Word, const N: usize>(symbols: &[u64], weights: &[P], infer: bool) -> Made<Decoder<P, N>> {
    let make = |given: &[P], infer| Decoder::from_symbols_and_nonzero_fixed_point_probabilities(symbols.iter().copied(), given, infer);
    judged(symbols, weights, infer, N, make)
}

/// What a line asks of a decoder that searches, of an encoder, or of the crate's searching decoder in place of a lookup model with `2^bits`
/// slots and of what a chain of conversions leads to.
pub fn symbols<P: Word, const N: usize>(kind: &str, bits: usize, mut fields: Fields) -> Result<Said, String> {
    let infer = kind.ends_with('i');
    let steps = if kind == "chain" || kind == "ask" { fields.word()? } else { "" };
    let argument = fields.argument(kind)?;
    let symbols = fields.symbols()?;
    let weights = fields.words::<P>()?;
    match kind {
        "enc" | "enci" => return encoder::<_, P, N>(&symbols, &weights, infer, Some(index(argument)? as u64)),
        "encsize" | "encsizei" => return encoder::<_, P, N>(&symbols, &weights, infer, None),
        "tagenc" => {
            let tags: Vec<Tag> = symbols.into_iter().map(Tag).collect();
            return encoder::<_, P, N>(&tags, &weights, infer, Some(Tag(index(argument)? as u64)));
        }
        _ => {}
    }
    let (model, rule) = decoder::<P, N>(&symbols, &weights, infer)?;
    let Some(model) = model else { return by(rule, "invalid") };
    let answer = match kind {
        "decsize" | "decsizei" => said(model.support_size()),
        "encof" => said(entry(Encoder::from_iterable_entropy_model(&model).left_cumulative_and_probability(index(argument)? as u64))),
        "encofsize" => said(model.to_generic_encoder_model().support_size()),
        "sorted" | "sortedi" if !symbols.windows(2).all(|it| it[0] < it[1]) => said("invalid"),
        "chain" => {
            let form = if steps.trim_end_matches('R').ends_with('L') { "Lookup" } else { "Search" };
            said(format!("{form}\n{}", lines(rows_of(model.symbol_table()))))
        }
        "ask" => replies::<P, N>(argument, &model),
        _ => asked(kind, argument, bits, &model),
    };
    Ok(answer?.ruled(rule))
}

/// The replies to queries of quantiles and symbols.
fn replies<P: Word, const N: usize>(queries: &str, model: &Decoder<P, N>) -> Result<Said, String> {
    let encoder = model.to_generic_encoder_model();
    let reply = |query: &str| match query.split_at(1) {
        ("q", asked) => Ok(of_quantile(model, asked)?.text),
        ("s", symbol) => Ok(entry(encoder.left_cumulative_and_probability(index(symbol)? as u64))),
        _ => Err(format!("{query} is no query")),
    };
    said(queries.split(',').map(reply).collect::<Result<Vec<_>, _>>()?.join("\n"))
}
