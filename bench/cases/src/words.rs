//! Words, and the texts of errors.
use crate::fields::{said, word, Fields, Said, Word};
use constriction::backends::BoundedWriteError;
use constriction::{CoderError, DefaultEncoderFrontendError, NanError};
use num_traits::{WrappingAdd, WrappingMul, WrappingSub};

fn of<W: Word + WrappingAdd + WrappingSub + WrappingMul>(mut fields: Fields) -> Result<Said, String> {
    let (x, y) = (word::<W>(fields.word()?)?, word::<W>(fields.word()?)?);
    let weight = x.into_nonzero().map_or("none".into(), |it| it.to_string());
    said(format!("{} {weight} {} {} {}", W::BITS, x.wrapping_add(&y), x.wrapping_sub(&y), x.wrapping_mul(&y)))
}

pub fn arithmetic(mut fields: Fields) -> Result<Said, String> {
    match fields.word()? {
        "u8" => of::<u8>(fields),
        "u16" => of::<u16>(fields),
        "u32" => of::<u32>(fields),
        "u64" => of::<u64>(fields),
        "usize" => of::<usize>(fields),
        "u128" => of::<u128>(fields),
        name => Err(format!("{name} is no word type")),
    }
}

pub fn texts(mut fields: Fields) -> Result<Said, String> {
    if !fields.rest().is_empty() {
        return Err("a field too many".into());
    }
    type Both = CoderError<DefaultEncoderFrontendError, BoundedWriteError>;
    let lines = [
        Both::Frontend(DefaultEncoderFrontendError::ImpossibleSymbol).to_string(),
        Both::Backend(BoundedWriteError::OutOfSpace).to_string(),
        CoderError::<DefaultEncoderFrontendError, NanError>::Backend(NanError).to_string(),
        DefaultEncoderFrontendError::ImpossibleSymbol.to_string(),
        NanError.to_string(),
        BoundedWriteError::OutOfSpace.to_string(),
    ];
    said(lines.join("\n"))
}
