//! `Vec` and `SmallVec` as stacks.
use crate::cursors::{flag, moved, reply_word};
use crate::fields::{commas, index, said, word, Fields, Said, Word};
use constriction::backends::{BoundedReadWords, WriteWords};
use constriction::{Pos, PosSeek, Seek, Stack, UnwrapInfallible};
use smallvec::SmallVec;
use std::convert::Infallible;

fn reply<W: Word, B>(backend: &mut B, call: &str) -> Result<String, String>
where
    B: BoundedReadWords<W, Stack, ReadError = Infallible> + WriteWords<W, WriteError = Infallible> + PosSeek<Position = usize> + Pos + Seek,
{
    Ok(match call {
        "sr" => reply_word(backend.read().unwrap_infallible()),
        "sn" => format!("#{}", backend.remaining()),
        "sx" => flag(backend.is_exhausted()),
        "me" => flag(backend.maybe_exhausted()),
        "mf" => flag(backend.maybe_full()),
        "po" => format!("#{}", backend.pos()),
        _ => match call.split_once(':') {
            Some(("w", given)) => {
                backend.write(word(given)?).unwrap_infallible();
                "ok".into()
            }
            Some(("x", given)) => {
                let more = Fields::new(given).list::<W>()?;
                backend.extend_from_iter(more.into_iter()).unwrap_infallible();
                "ok".into()
            }
            Some(("k", to)) => moved(backend.seek(index(to)?)),
            _ => return Err(format!("{call} is no call")),
        },
    })
}

pub fn answer<W: Word>(kind: &str, mut fields: Fields) -> Result<Said, String> {
    let mut stack = fields.list::<W>()?;
    let calls = fields.rest();
    if calls.is_empty() {
        return Err("a call is missing, so that the crate is not asked".into());
    }
    let mut replies: Vec<String>;
    if kind == "vec" {
        replies = calls.iter().map(|it| reply(&mut stack, it)).collect::<Result<_, _>>()?;
    } else {
        let mut small: SmallVec<[W; 2]> = SmallVec::from_vec(stack);
        replies = calls.iter().map(|it| reply(&mut small, it)).collect::<Result<_, _>>()?;
        stack = small.into_vec();
    }
    replies.push(format!("| {}", commas(&stack)));
    said(replies.join(" "))
}
