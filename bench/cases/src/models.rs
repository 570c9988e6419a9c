//! What is asked of models and of rows; models of the symbols 0, 1, ..: searching and uniform ones.
use crate::fields::{below, by, index, number, said, word, Fields, Said, Word};
use constriction::stream::model::{ContiguousCategoricalEntropyModel, DecoderModel, EncoderModel, IterableEntropyModel, UniformModel};
use constriction::NonZeroBitArray;
use num_traits::AsPrimitive;
use std::collections::HashSet;
use std::hash::Hash;

/// A row: symbol, left cumulative and weight.
pub type Row = (u64, u128, u128);

type Contiguous<P, const N: usize> = ContiguousCategoricalEntropyModel<P, Vec<P>, N>;

/// A model, or `None` if it is refused, and the rule by which this is not the crate's own answer, or "".
pub type Made<M> = Result<(Option<M>, &'static str), String>;

/// All weights, the last one too, if they tile `0..2^precision`.
fn tiling<P: Word>(weights: &[P], infer: bool, precision: usize) -> Option<Vec<P>> {
    // what is left of the total, less one, or nothing
    let mut left = Some(u128::MAX >> (128 - precision));
    for weight in weights {
        left = left?.checked_sub(weight.number().checked_sub(1)?)?.checked_sub(1);
    }
    match (left, infer) {
        (None, false) => Some(weights.to_vec()),
        (Some(less_one), true) => Some([weights, &[P::of(less_one.checked_add(1)?)?]].concat()),
        _ => None,
    }
}

/// Asks a constructor of the crate. Returns the rule if one answers otherwise, and fails if the answer differs by no rule.
pub fn judged<P: Word, S: Hash + Eq, M, F>(symbols: &[S], weights: &[P], infer: bool, precision: usize, make: F) -> Made<M>
where
    F: Fn(&[P], bool) -> Result<M, ()>,
{
    let mut seen = HashSet::new();
    let repeats = !symbols.iter().all(|it| seen.insert(it));
    let full = precision == P::BITS;
    let all = tiling(weights, infer, precision).filter(|all| all.len() == symbols.len() && !repeats);
    match (make(weights, infer), all) {
        (Ok(model), Some(_)) => Ok((Some(model), "")),
        (Err(()), None) => Ok((None, "")),
        (Ok(_), None) if repeats => Ok((None, "equal symbols")),
        (Ok(_), None) if full && weights == [P::zero()] => Ok((None, "zero at full width")),
        (Ok(_), None) => Err("the crate accepts it".into()),
        (Err(()), Some(all)) if full && infer => match make(&all, false) {
            Ok(model) => Ok((Some(model), "last weight at full width")),
            Err(()) => Err("the crate refuses the completed weights".into()),
        },
        (Err(()), Some(_)) => Err("the crate refuses it".into()),
    }
}

/// The same of models of the symbols 0, 1, ..
pub fn judged_numbers<P: Word, M>(weights: &[P], infer: bool, precision: usize, make: impl Fn(&[P], bool) -> Result<M, ()>) -> Made<M> {
    let symbols: Vec<usize> = (0..weights.len() + infer as usize).collect();
    judged(&symbols, weights, infer, precision, make)
}

pub fn searching<P: Word, const N: usize>(weights: &[P], infer: bool) -> Made<Contiguous<P, N>> {
    judged_numbers(weights, infer, N, |given, infer| Contiguous::from_nonzero_fixed_point_probabilities(given, infer))
}

fn row<S: AsPrimitive<u64>, P: Word>((symbol, left, weight): (S, P, P::NonZero)) -> Row {
    (symbol.as_(), left.number(), weight.get().number())
}

pub fn rows_of<S: AsPrimitive<u64>, P: Word>(walk: impl Iterator<Item = (S, P, P::NonZero)>) -> Vec<Row> {
    walk.map(row).collect()
}

pub fn line((symbol, left, weight): Row) -> String {
    format!("{symbol} {left} {weight}")
}

pub fn lines(rows: Vec<Row>) -> String {
    rows.into_iter().map(line).collect::<Vec<_>>().join("\n")
}

pub fn entry<P: Word>(found: Option<(P, P::NonZero)>) -> String {
    found.map_or("none".into(), |(left, weight)| format!("{left} {}", weight.get()))
}

/// The row of a quantile, or `range` where no call may be asked for it.
pub fn of_quantile<M, const N: usize>(model: &M, asked: &str) -> Result<Said, String>
where
    M: DecoderModel<N, Symbol: AsPrimitive<u64>, Probability: Word>,
{
    if !below(number(asked)?, N) {
        return by("quantile out of range", "range");
    }
    said(line(row(model.quantile_function(word(asked)?))))
}

/// Rows from the front (`f`) or the back (`b`), and how many are left before each.
fn walked(count: usize, row: impl Fn(usize) -> Row, letters: &str) -> Result<String, String> {
    let mut left = 0..count;
    let mut out = String::new();
    for letter in letters.chars() {
        out += &format!("#{} ", left.len());
        let found = match letter {
            'f' => left.next(),
            'b' => left.next_back(),
            _ => return Err("a row is taken from the front, f, or the back, b".into()),
        };
        out += &found.map(&row).map_or("- ".into(), |(symbol, left, weight)| format!("{symbol}:{left}:{weight} "));
    }
    Ok(out + &format!("#{}", left.len()))
}

/// The first of the rows that share a quantile with the slot of the asked quantile, and how many rows do. `2^bits` slots of equal
/// width divide all quantiles.
fn in_question(rows: &[Row], asked: u128, precision: usize, bits: usize) -> String {
    let within = u128::MAX.checked_shr((128 - precision + bits.min(precision)) as u32).unwrap_or(0);
    let meets = |it: &&Row| it.1 <= asked | within && asked & !within <= it.1 + (it.2 - 1);
    let first = rows.iter().position(|it| meets(&it)).unwrap_or(0);
    format!("{first} {}", rows.iter().filter(meets).count())
}

/// What a line asks of a model: a walk from both ends, the rows in question, the row of a quantile, or all rows.
pub fn asked<'m, M, const N: usize>(kind: &str, argument: &str, bits: usize, model: &'m M) -> Result<Said, String>
where
    M: DecoderModel<N, Symbol: AsPrimitive<u64>, Probability: Word> + IterableEntropyModel<'m, N>,
{
    let rows = rows_of(model.symbol_table());
    match kind.trim_end_matches('i') {
        "ends" | "lends" | "dends" | "nends" => said(walked(rows.len(), |it| rows[it], argument)?),
        "probe" | "lprobe" | "sprobe" | "dprobe" | "nprobe" => {
            let found = of_quantile(model, argument)?;
            if found.text == "range" { Ok(found) } else { said(in_question(&rows, number(argument)?, N, bits)) }
        }
        "quantile" | "look" | "tolook" | "slot" | "dec" | "nlook" | "nslot" => of_quantile(model, argument),
        _ => said(lines(rows)),
    }
}

/// What a line asks of the searching model, or of the crate's searching model in place of a lookup model with `2^bits` slots.
pub fn contiguous<P: Word, const N: usize>(kind: &str, bits: usize, mut fields: Fields) -> Result<Said, String> {
    let argument = fields.argument(kind)?;
    let (model, rule) = searching::<P, N>(&fields.words()?, kind == "infer" || kind.ends_with('i'))?;
    let Some(model) = model else { return by(rule, "invalid") };
    let answer = match kind {
        "size" | "sizei" => said(model.support_size()),
        "symbol" => {
            let symbol = index(argument)?;
            said(model.left_cumulative_and_probability(symbol).map_or("none".into(), |(left, weight)| line(row((symbol, left, weight)))))
        }
        "gendec" | "gendist" => {
            let decoder = model.to_generic_decoder_model();
            said(format!("{}\n{}", decoder.support_size(), lines(rows_of(decoder.symbol_table()))))
        }
        "genenc" => said(entry(model.to_generic_encoder_model().left_cumulative_and_probability(index(argument)?))),
        _ => asked(kind, argument, bits, &model),
    };
    Ok(answer?.ruled(rule))
}

pub fn uniform<P: Word + AsPrimitive<usize>, const N: usize>(kind: &str, mut fields: Fields) -> Result<Said, String>
where
    usize: AsPrimitive<P>,
{
    let letters = if kind == "uends" { fields.word()? } else { "" };
    let count = fields.index()?;
    let model = UniformModel::<P, N>::new(count);
    match kind {
        "uquant" => of_quantile(&model, fields.word()?),
        "usym" => {
            let symbol = fields.index()?;
            let found = entry(model.left_cumulative_and_probability(symbol));
            if symbol >= count && found != "none" { by("truncated symbol", "none") } else { said(found) }
        }
        "uends" => {
            let row_of = |symbol: usize| model.left_cumulative_and_probability(symbol).map(|(left, weight)| row((symbol, left, weight)));
            said(walked(count, |symbol| row_of(symbol).expect("it has an entry"), letters)?)
        }
        _ => said(lines(rows_of(model.symbol_table()))),
    }
}
