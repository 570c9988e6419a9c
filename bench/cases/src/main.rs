//! Answers lines of cases, from standard input, by the Rust crate constriction 0.5.0; `cases/README.md` says which
//! lines there are.
//!
//! An answer is what the crate says to the very call of the line. If it has no such call, or if this repository's
//! library differs from it by a rule, a line `! RULE` stands before the answer. A line `;` stands after each answer.
//! A line of no kind ends the program with status 1, and so does an answer of the crate that differs from what is expected
//! by no rule.
mod adapters;
mod cursors;
mod fields;
mod forms;
mod items;
mod lookups;
mod models;
mod stacks;
mod symbols;
mod words;

use fields::{Fields, Said};
use std::io::{stdin, stdout, BufRead, BufWriter, Write};
use std::process::ExitCode;

macro_rules! over {
    ($words:expr, $module:ident, $kind:expr, $fields:expr) => {
        match $words {
            "u8" => $module::answer::<u8>($kind, $fields),
            "u32" => $module::answer::<u32>($kind, $fields),
            "u64" => $module::answer::<u64>($kind, $fields),
            _ => Err(format!("{} is no word type", $words)),
        }
    };
}

/// The rule of a kind of line whose call the crate lacks, or "".
fn lacking(kind: &str) -> &'static str {
    match kind.trim_end_matches('i') {
        "ends" | "uends" | "lends" | "dends" | "nends" => "tables from both ends",
        "gendist" | "probe" | "lprobe" | "sprobe" | "dprobe" | "nprobe" | "hashed" | "sorted" | "distinct" | "slot" | "slottable" | "nslot"
        | "nslottable" | "chain" | "ask" | "wq" | "rs" => "a call that the crate lacks",
        _ => "",
    }
}

fn answer(line: &str) -> Result<Said, String> {
    let mut fields = Fields::new(line);
    let kind = fields.word()?;
    let said = match kind.trim_end_matches('i') {
        "table" | "infer" | "quantile" | "symbol" | "size" | "gendec" | "gendist" | "genenc" | "probe" | "ends" | "slot" | "slottable" | "sprobe" => {
            forms::contiguous(kind, fields)
        }
        "uniform" | "uquant" | "usym" | "uends" => forms::uniform(kind, fields),
        "look" | "looktable" | "tolook" | "intotable" | "lprobe" | "lends" => forms::lookup(kind, fields),
        "dec" | "dectable" | "decsize" | "enc" | "encsize" | "encof" | "encofsize" | "tagenc" | "hashed" | "sorted" | "distinct" | "dprobe"
        | "dends" | "nslot" | "nslottable" | "chain" | "ask" => forms::symbols(kind, fields),
        "nlook" | "nlooktable" | "nprobe" | "nends" => forms::symbol_lookup(kind, fields),
        "wq" | "rs" => forms::items(kind, fields),
        "word" => words::arithmetic(fields),
        "texts" => words::texts(fields),
        _ => {
            let (kind, words) = kind.split_once('/').unwrap_or((kind, "u32"));
            match kind {
                "cursor" | "reversed" | "inner" | "turned" | "extend" | "rextend" => over!(words, cursors, kind, fields),
                "vec" | "smallvec" => over!(words, stacks, kind, fields),
                "iter" | "words" | "sink" | "calls" | "asread" | "intoread" => over!(words, adapters, kind, fields),
                _ => Err("no kind of line".into()),
            }
        }
    };
    Ok(said?.ruled(lacking(kind)))
}

fn main() -> ExitCode {
    let mut out = BufWriter::new(stdout().lock());
    for line in stdin().lock().lines() {
        let Ok(line) = line else { return ExitCode::FAILURE };
        match answer(&line) {
            Ok(said) => {
                if !said.rule.is_empty() {
                    let _ = writeln!(out, "! {}", said.rule);
                }
                let _ = writeln!(out, "{}\n;", said.text.trim_end_matches('\n'));
            }
            Err(why) => {
                eprintln!("{line}: {why}");
                return ExitCode::FAILURE;
            }
        }
    }
    ExitCode::SUCCESS
}
