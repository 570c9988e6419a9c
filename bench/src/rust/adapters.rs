//! Sources over iterators and sinks over callbacks.
use super::mix;
use constriction::backends::{FallibleCallbackWriteWords, FallibleIteratorReadWords, InfallibleCallbackWriteWords, InfallibleIteratorReadWords, ReadWords, WriteWords};
use constriction::Queue;
use std::convert::Infallible;

/// The crate's source over an iterator of words takes results, against its documentation, and answers these.
#[inline(never)]
pub fn iterator_read(words: &[u32], repeats: u32) -> u64 {
    let mut sum = 0;
    for _ in 0..repeats {
        let mut source = InfallibleIteratorReadWords::new(words.iter().map(|word| Ok::<u32, Infallible>(*word)));
        for _ in 0..words.len() {
            if let Ok(Some(Ok(word))) = ReadWords::<_, Queue>::read(&mut source) {
                sum = mix(sum, word as u64);
            }
        }
    }
    sum
}

#[inline(never)]
pub fn fallible_iterator_read(words: &[u32], repeats: u32) -> u64 {
    let mut sum = 0;
    for _ in 0..repeats {
        let mut source = FallibleIteratorReadWords::new(words.iter().map(|word| if *word == 0 { Err(0u32) } else { Ok(*word) }));
        for _ in 0..words.len() {
            if let Ok(Some(word)) = ReadWords::<u32, Queue>::read(&mut source) {
                sum = mix(sum, word as u64);
            }
        }
    }
    sum
}

#[inline(never)]
pub fn callback_write(words: &[u32], repeats: u32) -> u64 {
    let mut sum = 0;
    for _ in 0..repeats {
        let mut sink = InfallibleCallbackWriteWords::new(|word: u32| sum = mix(sum, word as u64));
        for word in words {
            let _ = sink.write(*word);
        }
    }
    sum
}

#[inline(never)]
pub fn fallible_callback_write(words: &[u32], repeats: u32) -> u64 {
    let mut sum = 0;
    for _ in 0..repeats {
        let mut refused = 0u64;
        let mut sink = FallibleCallbackWriteWords::new(|word: u32| {
            if word == 0 {
                Err(word)
            } else {
                sum = mix(sum, word as u64);
                Ok(())
            }
        });
        for word in words {
            if sink.write(*word).is_err() {
                refused += 1;
            }
        }
        drop(sink.into_inner());
        sum = mix(sum, refused);
    }
    sum
}
