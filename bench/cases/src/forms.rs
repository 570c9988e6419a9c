//! At which word type and PRECISION a line's call is made.
use crate::fields::{Fields, Said};
use crate::{items, lookups, models, symbols};

macro_rules! at_form {
    ($form:expr, $module:ident::$call:ident, $arguments:tt, $else:expr, $($name:literal: $word:ty, $precision:literal;)*) => {
        match $form {
            $($name => $module::$call::<$word, $precision> $arguments,)*
            _ => $else,
        }
    };
}

macro_rules! searching {
    ($form:expr, $module:ident::$call:ident, $arguments:tt) => {
        at_form!($form, $module::$call, $arguments, Err(format!("{} is no form", $form)),
            "u8/1": u8, 1; "u8/3": u8, 3; "u8/6": u8, 6; "u8/7": u8, 7; "u8/8": u8, 8;
            "u16/12": u16, 12; "u16/16": u16, 16; "u32/24": u32, 24; "u32/32": u32, 32;
            "u64/40": u64, 40; "u64/63": u64, 63; "u64/64": u64, 64;
            "usize/6": usize, 6; "usize/12": usize, 12; "usize/40": usize, 40; "usize/63": usize, 63; "usize/64": usize, 64;
            "u32/12": u32, 12; "u128/40": u128, 40; "u128/63": u128, 63;
            "u128/64": u128, 64; "u128/100": u128, 100; "u128/128": u128, 128;)
    };
}

/// The crate's lookup model where it has one of at most `2^16` words over the words of the form, else its searching model.
macro_rules! looking_up {
    ($kind:expr, $fields:expr, $call:ident, $module:ident::$searching:ident) => {{
        let form = $fields.word()?;
        at_form!(form, lookups::$call, ($kind, $fields),
            searching!(form, $module::$searching, ($kind, lookups::BITS, $fields)).map(|it| it.ruled("a lookup table that the crate cannot have")),
            "u8/1": u8, 1; "u8/3": u8, 3; "u8/6": u8, 6; "u8/7": u8, 7; "u8/8": u8, 8;
            "u16/12": u16, 12; "u16/16": u16, 16; "usize/6": usize, 6; "usize/12": usize, 12;)
    }};
}

/// How many bits of slots the line asks for, or 0 where its kind has none.
fn slot_bits(kind: &str, fields: &mut Fields) -> Result<usize, String> {
    match kind {
        "slot" | "slottable" | "sprobe" | "nslot" | "nslottable" => fields.index(),
        _ => Ok(0),
    }
}

pub fn contiguous(kind: &str, mut fields: Fields) -> Result<Said, String> {
    let form = fields.word()?;
    let bits = slot_bits(kind, &mut fields)?;
    searching!(form, models::contiguous, (kind, bits, fields))
}

pub fn uniform(kind: &str, mut fields: Fields) -> Result<Said, String> {
    let form = fields.word()?;
    at_form!(form, models::uniform, (kind, fields), Err(format!("{form} is no form")),
        "u8/1": u8, 1; "u8/3": u8, 3; "u8/6": u8, 6; "u8/7": u8, 7; "u8/8": u8, 8;
        "u16/12": u16, 12; "u16/16": u16, 16; "u32/24": u32, 24; "u32/32": u32, 32;
        "u64/63": u64, 63; "u64/64": u64, 64; "usize/64": usize, 64; "u128/64": u128, 64;)
}

pub fn symbols(kind: &str, mut fields: Fields) -> Result<Said, String> {
    let form = fields.word()?;
    let bits = slot_bits(kind, &mut fields)?;
    searching!(form, symbols::symbols, (kind, bits, fields))
}

pub fn lookup(kind: &str, mut fields: Fields) -> Result<Said, String> {
    looking_up!(kind, fields, numbers, models::contiguous)
}

pub fn symbol_lookup(kind: &str, mut fields: Fields) -> Result<Said, String> {
    looking_up!(kind, fields, symbols, symbols::symbols)
}

pub fn items(kind: &str, mut fields: Fields) -> Result<Said, String> {
    let form = fields.word()?;
    match kind {
        "wq" => searching!(form, items::write, (fields)),
        _ => searching!(form, items::read, (fields)),
    }
}
