//! Prints a line for each kernel: its name, what its sides do, its words, its rows, and the nanoseconds of an item by
//! the Rust crate and by this library, with a tab between each two.
//!
//! usage: bench [--growth] [--quick] [--list] [WORD..]
//!
//! A word picks the kernels that have it in their names. Exit status: 1 if the checksums of a kernel differ.
use constriction_bench::kernels::{growing, usual, Kernel};
use constriction_bench::measure::{Effort, Samples};
use std::io::{stderr, IsTerminal, Write};
use std::process::ExitCode;
use std::time::{Duration, Instant};

/// Prints how far a run is: on a terminal at each kernel, otherwise every ten seconds.
struct Progress {
    said: Instant,
}

impl Progress {
    fn say(&mut self, text: &str) {
        if stderr().is_terminal() {
            eprint!("\r\x1b[K{text}");
            let _ = stderr().flush();
        } else if self.said.elapsed() > Duration::from_secs(10) {
            eprintln!("{text}");
            self.said = Instant::now();
        }
    }

    fn end(&self) {
        if stderr().is_terminal() {
            eprint!("\r\x1b[K");
        }
    }
}

fn main() -> ExitCode {
    let arguments: Vec<String> = std::env::args().skip(1).collect();
    let has = |flag: &str| arguments.iter().any(|it| it == flag);
    let words: Vec<&String> = arguments.iter().filter(|it| !it.starts_with("--")).collect();
    let effort = if has("--quick") { Effort::QUICK } else { Effort::FULL };
    let mut kernels: Vec<Kernel> = if has("--growth") { growing() } else { usual() };
    kernels.retain(|kernel| words.is_empty() || words.iter().any(|word| kernel.name.contains(word.as_str())));
    if has("--list") {
        for kernel in &kernels {
            println!("{}\t{}\t{}\t{}", kernel.name, kernel.sides.name(), kernel.words, kernel.rows);
        }
        return ExitCode::SUCCESS;
    }

    let mut progress = Progress { said: Instant::now() };
    let count = kernels.len();
    let mut samples = vec![];
    let mut is_right = true;
    for (index, kernel) in kernels.iter_mut().enumerate() {
        progress.say(&format!("bench: comparing checksums, {} of {count}", index + 1));
        if !kernel.agrees() {
            progress.end();
            eprintln!("bench: the checksums of {} at {} rows differ", kernel.name, kernel.rows);
            is_right = false;
        }
        samples.push(Samples::new(kernel, &effort));
    }
    // a round goes over all kernels, so that a slow spell of the machine does not fall on all samples of one
    for round in 1..=effort.rounds {
        for (index, (kernel, samples)) in kernels.iter_mut().zip(&mut samples).enumerate() {
            progress.say(&format!("bench: round {round} of {}, {} of {count}: {}", effort.rounds, index + 1, kernel.name));
            samples.take(kernel, &effort);
        }
    }
    progress.end();
    for (kernel, samples) in kernels.iter().zip(&samples) {
        let [rust, here] = samples.least(kernel);
        println!("{}\t{}\t{}\t{}\t{rust:.4}\t{here:.4}", kernel.name, kernel.sides.name(), kernel.words, kernel.rows);
    }
    if is_right {
        ExitCode::SUCCESS
    } else {
        ExitCode::FAILURE
    }
}
