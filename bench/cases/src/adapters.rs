//! Sources over iterators, sinks over callbacks, and buffers as sources.
use crate::cursors::{moved, reply_word};
use crate::fields::{by, commas, index, said, word, Fields, Said, Word};
use constriction::backends::{
    AsReadWords, AsSeekReadWords, BoundedReadWords, FallibleCallbackWriteWords, FallibleIteratorReadWords, InfallibleCallbackWriteWords,
    InfallibleIteratorReadWords, IntoReadWords, IntoSeekReadWords, ReadWords, WriteWords,
};
use constriction::{Queue, Seek, Semantics, Stack, UnwrapInfallible};
use std::convert::Infallible;

pub fn answer<W: Word>(kind: &str, mut fields: Fields) -> Result<Said, String> {
    match kind {
        "iter" => items::<W>(fields),
        "words" => words::<W>(fields),
        "sink" => {
            let refused = fields.index()?;
            let more = fields.words::<W>()?;
            let mut seen = vec![];
            let mut sink = FallibleCallbackWriteWords::new(|word: W| {
                seen.push(word);
                if seen.len() == refused { Err(()) } else { Ok(()) }
            });
            let end = if sink.extend_from_iter(more.into_iter()).is_ok() { "ok" } else { "refused" };
            said(format!("{end} | {}", commas(&seen)))
        }
        "calls" => {
            let more = fields.words::<W>()?;
            let mut seen = vec![];
            let mut sink = InfallibleCallbackWriteWords::new(|word: W| seen.push(word));
            for word in &more {
                sink.write(*word).unwrap_infallible();
            }
            sink.extend_from_iter(more.into_iter()).unwrap_infallible();
            said(format!("| {}", commas(&seen)))
        }
        "asread" | "intoread" => buffers::<W>(kind, fields),
        _ => Err("no kind of line".into()),
    }
}

fn items<W: Word>(mut fields: Fields) -> Result<Said, String> {
    let count = fields.index()?;
    let items: Vec<Result<W, u32>> = fields
        .rest()
        .into_iter()
        .map(|it| match it.strip_prefix('e') {
            Some(error) => Ok(Err(word(error)?)),
            None => Ok(Ok(word(it)?)),
        })
        .collect::<Result<_, String>>()?;
    let mut source = FallibleIteratorReadWords::new(items);
    let mut replies = vec![];
    for _ in 0..count {
        replies.push(format!("#{}", BoundedReadWords::<W, Queue>::remaining(&source)));
        replies.push(match ReadWords::<W, Queue>::read(&mut source) {
            Ok(word) => reply_word(word),
            Err(error) => format!("e{error}"),
        });
    }
    let left = source.into_iter().map(|it| it.map_or_else(|error| format!("e{error}"), |word| format!("w{word}"))).collect::<Vec<_>>();
    replies.push(format!("| {}", commas(&left)));
    said(replies.join(" "))
}

/// The crate's constructor takes only items that are `Result`s, so the words here are `Result`s. Its source could read any words.
fn words<W: Word>(mut fields: Fields) -> Result<Said, String> {
    let count = fields.index()?;
    let given: Vec<Result<W, Infallible>> = fields.words::<W>()?.into_iter().map(Ok).collect();
    let mut source = InfallibleIteratorReadWords::new(given);
    let mut replies = vec![];
    for turn in 0..count {
        replies.push(format!("#{}", BoundedReadWords::<_, Stack>::remaining(&source)));
        let read = if turn % 2 == 0 { ReadWords::<_, Stack>::read(&mut source) } else { ReadWords::<_, Queue>::read(&mut source) };
        replies.push(reply_word(read.unwrap_infallible().map(UnwrapInfallible::unwrap_infallible)));
    }
    let left: Vec<W> = source.into_iter().map(UnwrapInfallible::unwrap_infallible).collect();
    replies.push(format!("| {}", commas(&left)));
    by("items that are words", replies.join(" "))
}

fn reads<W: Word, S: Semantics>(source: &mut impl ReadWords<W, S, ReadError = Infallible>, count: usize) -> Vec<String> {
    (0..count).map(|_| reply_word(source.read().unwrap_infallible())).collect()
}

/// `asread` and `intoread`.
fn buffers<W: Word>(kind: &str, mut fields: Fields) -> Result<Said, String> {
    let order = fields.word()?;
    let buf = fields.list::<W>()?;
    let count = fields.index()?;
    let to = fields.rest().first().map(|it| index(it)).transpose()?;
    let mut replies = vec![];
    let lends = kind == "asread";
    macro_rules! read {
        ($order:ty) => {
            match (lends, to) {
                (true, None) => replies.extend(reads::<W, $order>(&mut AsReadWords::<W, $order>::as_read_words(&buf), count)),
                (false, None) => replies.extend(reads::<W, $order>(&mut IntoReadWords::<W, $order>::into_read_words(buf.clone()), count)),
                (true, Some(to)) => {
                    let mut source = AsSeekReadWords::<W, $order>::as_seek_read_words(&buf);
                    replies.push(moved(source.seek(to)));
                    replies.extend(reads::<W, $order>(&mut source, count));
                }
                (false, Some(to)) => {
                    let mut source = IntoSeekReadWords::<W, $order>::into_seek_read_words(buf.clone());
                    replies.push(moved(source.seek(to)));
                    replies.extend(reads::<W, $order>(&mut source, count));
                }
            }
        };
    }
    match order {
        "s" => read!(Stack),
        "q" => read!(Queue),
        _ => return Err("an order is s or q".into()),
    }
    replies.push(if lends { format!("| {}", commas(&buf)) } else { "|".into() });
    said(replies.join(" "))
}
