//! Sources and sinks in memory.
use super::mix;
use constriction::backends::{BoundedReadWords, BoundedWriteWords, Cursor, ReadWords, Reverse, WriteWords};
use constriction::{Queue, Semantics, Stack};

/// Reads all words that are left into the checksum.
#[inline(always)]
fn drain<S: Semantics, R: ReadWords<u32, S>>(source: &mut R, before: u64) -> u64 {
    let mut sum = before;
    while let Ok(Some(word)) = source.read() {
        sum = mix(sum, word as u64);
    }
    sum
}

#[inline(never)]
pub fn cursor_write(words: &[u32], buffer: &mut [u32], repeats: u32) -> u64 {
    let mut sum = 0;
    for _ in 0..repeats {
        let mut cursor = Cursor::<u32, &mut [u32]>::new_at_write_beginning(&mut *buffer);
        for word in words {
            if cursor.write(*word).is_err() {
                sum = mix(sum, 1);
            }
        }
        sum = mix(sum, cursor.space_left() as u64);
    }
    sum
}

#[inline(never)]
pub fn reverse_write(words: &[u32], buffer: &mut [u32], repeats: u32) -> u64 {
    let mut sum = 0;
    for _ in 0..repeats {
        let mut reversed = Reverse(Cursor::<u32, &mut [u32]>::new_at_write_end(&mut *buffer));
        for word in words {
            if reversed.write(*word).is_err() {
                sum = mix(sum, 1);
            }
        }
        sum = mix(sum, BoundedReadWords::<u32, Queue>::remaining(&reversed) as u64);
    }
    sum
}

#[inline(never)]
pub fn cursor_queue_read(words: &[u32], repeats: u32) -> u64 {
    let mut sum = 0;
    for _ in 0..repeats {
        let mut cursor = Cursor::<u32, &[u32]>::new_at_write_beginning(words);
        sum = drain::<Queue, _>(&mut cursor, sum);
    }
    sum
}

#[inline(never)]
pub fn cursor_stack_read(words: &[u32], repeats: u32) -> u64 {
    let mut sum = 0;
    for _ in 0..repeats {
        let mut cursor = Cursor::<u32, &[u32]>::new_at_write_end(words);
        sum = drain::<Stack, _>(&mut cursor, sum);
    }
    sum
}

#[inline(never)]
pub fn reverse_stack_read(words: &[u32], repeats: u32) -> u64 {
    let mut sum = 0;
    for _ in 0..repeats {
        let mut reversed = Reverse(Cursor::<u32, &[u32]>::new_at_write_beginning(words));
        sum = drain::<Stack, _>(&mut reversed, sum);
    }
    sum
}

#[inline(never)]
pub fn vec_write(words: &[u32], repeats: u32) -> u64 {
    let mut sum = 0;
    for _ in 0..repeats {
        let mut stack: Vec<u32> = Vec::new();
        for word in words {
            if stack.write(*word).is_err() {
                return 1;
            }
        }
        let middle = stack.get(stack.len() / 2).map_or(0, |word| *word as u64);
        sum = mix(sum, BoundedReadWords::<u32, Stack>::remaining(&stack) as u64 + middle);
    }
    sum
}

#[inline(never)]
pub fn vec_write_read(words: &[u32], repeats: u32) -> u64 {
    let mut sum = 0;
    let mut stack: Vec<u32> = Vec::new();
    for _ in 0..repeats {
        for word in words {
            if stack.write(*word).is_err() {
                return 1;
            }
        }
        sum = drain::<Stack, _>(&mut stack, sum);
    }
    sum
}

#[inline(never)]
pub fn into_reversed(words: &mut [u32], repeats: u32) -> u64 {
    let mut sum = 0;
    for _ in 0..repeats {
        let reversed = Cursor::<u32, &mut [u32]>::new_at_write_beginning(&mut *words).into_reversed();
        sum = mix(sum, reversed.0.buf().first().map_or(0, |word| *word as u64));
    }
    sum
}
