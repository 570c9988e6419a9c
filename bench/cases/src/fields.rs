//! The fields of a line, and an answer with the rule that it is by.
use constriction::BitArray;
use std::fmt::{Debug, Display};
use std::hash::Hash;

/// An answer: its lines, and the rule that it is by, or "" if the crate gave it to this very call.
pub struct Said {
    pub text: String,
    pub rule: &'static str,
}

impl Said {
    /// The same answer by a rule of its kind or its form, if there is one. If a quantile is out of range, that rule stays for any kind.
    pub fn ruled(self, rule: &'static str) -> Self {
        if rule.is_empty() || self.text == "range" { self } else { Self { rule, ..self } }
    }
}

pub fn said(text: impl Display) -> Result<Said, String> {
    by("", text)
}

pub fn by(rule: &'static str, text: impl Display) -> Result<Said, String> {
    Ok(Said { text: text.to_string(), rule })
}

/// The fields of a line that were not read yet.
pub struct Fields<'l> {
    left: std::vec::IntoIter<&'l str>,
}

impl<'l> Fields<'l> {
    pub fn new(line: &'l str) -> Self {
        Self { left: line.split(' ').collect::<Vec<_>>().into_iter() }
    }

    pub fn word(&mut self) -> Result<&'l str, String> {
        self.left.next().ok_or_else(|| "a field is missing".into())
    }

    /// The field of a quantile, a symbol or letters before the others, where the kind has one.
    pub fn argument(&mut self, kind: &str) -> Result<&'l str, String> {
        match kind.trim_end_matches('i') {
            "quantile" | "symbol" | "genenc" | "probe" | "ends" | "look" | "tolook" | "lprobe" | "lends" | "slot" | "sprobe" | "dec" | "enc" | "encof"
            | "tagenc" | "dprobe" | "dends" | "nlook" | "nprobe" | "nends" | "nslot" | "ask" => self.word(),
            _ => Ok(""),
        }
    }

    pub fn number(&mut self) -> Result<u128, String> {
        number(self.word()?)
    }

    pub fn index(&mut self) -> Result<usize, String> {
        index(self.word()?)
    }

    pub fn rest(&mut self) -> Vec<&'l str> {
        self.left.by_ref().collect()
    }

    pub fn counted<W: Word>(&mut self) -> Result<Vec<W>, String> {
        (0..self.index()?).map(|_| word(self.word()?)).collect()
    }

    pub fn symbols(&mut self) -> Result<Vec<u64>, String> {
        (0..self.index()?).map(|_| Ok(self.index()? as u64)).collect()
    }

    pub fn words<W: Word>(&mut self) -> Result<Vec<W>, String> {
        self.rest().into_iter().map(word).collect()
    }

    pub fn list<W: Word>(&mut self) -> Result<Vec<W>, String> {
        match self.word()? {
            "-" => Ok(vec![]),
            field => field.split(',').map(word).collect(),
        }
    }
}

pub fn number(field: &str) -> Result<u128, String> {
    if field.starts_with('+') {
        return Err(format!("{field} is no number"));
    }
    field.parse().map_err(|_| format!("{field} is no number"))
}

pub fn index(field: &str) -> Result<usize, String> {
    number(field)?.try_into().map_err(|_| format!("{field} is no index"))
}

pub fn word<W: Word>(field: &str) -> Result<W, String> {
    W::of(number(field)?).ok_or_else(|| format!("{field} is no word"))
}

/// A word type of the crate, with its numbers.
pub trait Word: BitArray + Display + Debug + Hash {
    fn of(number: u128) -> Option<Self>;
    fn number(self) -> u128;
}

macro_rules! words {
    ($($word:ty)*) => { $(
        impl Word for $word {
            fn of(number: u128) -> Option<Self> {
                number.try_into().ok()
            }

            fn number(self) -> u128 {
                self as u128
            }
        }
    )* };
}

words!(u8 u16 u32 u64 usize u128);

/// Whether a number is below `2^precision`.
pub fn below(number: u128, precision: usize) -> bool {
    precision >= 128 || number >> precision == 0
}

/// Words with a comma between each two, or `-`.
pub fn commas<W: Display>(words: &[W]) -> String {
    if words.is_empty() {
        return "-".into();
    }
    words.iter().map(|it| it.to_string()).collect::<Vec<_>>().join(",")
}
