//! Cursors and their reversals.
use crate::fields::{by, commas, index, said, word, Fields, Said, Word};
use constriction::backends::{BoundedReadWords, BoundedWriteError, BoundedWriteWords, Cursor, ReadWords, Reverse, WriteWords};
use constriction::{Pos, PosSeek, Queue, Seek, Stack, UnwrapInfallible};
use std::convert::Infallible;

pub fn reply_word<W: Word>(found: Option<W>) -> String {
    found.map_or("-".into(), |it| format!("w{it}"))
}

pub fn flag(is: bool) -> String {
    if is { "t".into() } else { "f".into() }
}

pub fn moved(answer: Result<(), ()>) -> String {
    if answer.is_ok() { "mv".into() } else { "no".into() }
}

/// One call of a backend. If a length is given, positions count from the other end. If free places are given, they are the answer.
fn reply<W: Word, B>(backend: &mut B, call: &str, len: Option<usize>, free: Option<usize>) -> Result<String, String>
where
    B: BoundedReadWords<W, Stack, ReadError = Infallible>
        + BoundedReadWords<W, Queue, ReadError = Infallible>
        + BoundedWriteWords<W, WriteError = BoundedWriteError>
        + PosSeek<Position = usize>
        + Pos
        + Seek,
{
    Ok(match call {
        "sr" => reply_word(ReadWords::<W, Stack>::read(backend).unwrap_infallible()),
        "qr" => reply_word(ReadWords::<W, Queue>::read(backend).unwrap_infallible()),
        "sn" => format!("#{}", BoundedReadWords::<W, Stack>::remaining(backend)),
        "qn" => format!("#{}", BoundedReadWords::<W, Queue>::remaining(backend)),
        "sl" => format!("#{}", free.unwrap_or_else(|| backend.space_left())),
        "sx" => flag(BoundedReadWords::<W, Stack>::is_exhausted(backend)),
        "qx" => flag(BoundedReadWords::<W, Queue>::is_exhausted(backend)),
        "fu" => flag(free.map_or_else(|| backend.is_full(), |free| free == 0)),
        "po" => format!("#{}", len.map_or(backend.pos(), |len| len - backend.pos())),
        _ => match (call.split_once(':'), len) {
            (Some(("w", given)), _) => match backend.write(word(given)?) {
                Ok(()) => "ok".into(),
                Err(BoundedWriteError::OutOfSpace) => "oos".into(),
            },
            (Some(("k", to)), None) => moved(backend.seek(index(to)?)),
            // the inner cursor has no position past the words either
            (Some(("k", to)), Some(len)) => moved(backend.seek(len.wrapping_sub(index(to)?))),
            _ => return Err(format!("{call} is no call")),
        },
    })
}

fn end<W: Word>(cursor: Cursor<W, Vec<W>>) -> String {
    let (buf, pos) = cursor.into_buf_and_pos();
    format!("| {} @{pos}", commas(&buf))
}

/// The replies of a cursor or of a reversal of it, and then the cursor. The crate answers the length for the free places of a reversal; where
/// they are `mended`, the answer is the inner position.
fn replies<W: Word>(kind: &str, mut cursor: Cursor<W, Vec<W>>, calls: &[&str], mended: bool) -> Result<String, String> {
    let len = (kind != "inner").then_some(cursor.buf().len());
    let mut replies: Vec<String>;
    if kind == "cursor" {
        replies = calls.iter().map(|call| reply::<W, _>(&mut cursor, call, None, None)).collect::<Result<_, _>>()?;
    } else {
        let mut reversed = if kind == "turned" { cursor.into_reversed() } else { Reverse(cursor) };
        let of_reversal = |call: &&str| {
            let free = mended.then_some(reversed.0.pos());
            reply::<W, _>(&mut reversed, call, len, free)
        };
        replies = calls.iter().map(of_reversal).collect::<Result<_, _>>()?;
        cursor = if kind == "turned" { reversed.into_reversed() } else { reversed.0 };
    }
    replies.push(end(cursor));
    Ok(replies.join(" "))
}

pub fn answer<W: Word>(kind: &str, mut fields: Fields) -> Result<Said, String> {
    let pos = fields.index()?;
    let buf = fields.list::<W>()?;
    let Ok(mut cursor) = Cursor::<W, Vec<W>>::new_at_pos(buf, pos) else { return said("notpos") };
    if kind == "extend" || kind == "rextend" {
        let more = fields.words::<W>()?;
        let (answer, cursor) = if kind == "extend" {
            (cursor.extend_from_iter(more.into_iter()), cursor)
        } else {
            let mut reversed = Reverse(cursor);
            (reversed.extend_from_iter(more.into_iter()), reversed.0)
        };
        return said(format!("{} {}", if answer.is_ok() { "ok" } else { "oos" }, end(cursor)));
    }
    let calls = fields.rest();
    let own = replies(kind, cursor.clone(), &calls, false)?;
    let answer = replies(kind, cursor, &calls, true)?;
    let rule = if own == answer { "" } else { "free places of a reversal" };
    by(rule, answer)
}
