//! The kernels over the Rust crate, with the names, the arguments and the checksums of those in `bench/kernels`.
//!
//! None is compiled into its caller, as none of a static library is.
mod adapters;
mod any_symbols;
mod backends;
mod client;
mod coder;
mod contiguous;
mod conversions;
mod lookups;
mod range_coder;
mod searches;
mod tables;
mod uniform;

pub use adapters::*;
pub use any_symbols::*;
pub use backends::*;
pub use client::*;
pub use coder::*;
pub use contiguous::*;
pub use conversions::*;
pub use lookups::*;
pub use range_coder::*;
pub use searches::*;
pub use tables::*;
pub use uniform::*;

/// The checksum with one more number. Each needs the one before, so no compiler takes several at a time.
#[inline(always)]
fn mix(sum: u64, number: u64) -> u64 {
    sum.rotate_left(5) ^ number
}

/// A row as one number.
#[inline(always)]
fn row(symbol: usize, left: u64, weight: u64) -> u64 {
    (symbol as u64).wrapping_add(left.wrapping_mul(3)).wrapping_add(weight.wrapping_mul(7))
}

/// The loop and the checksum alone.
#[inline(never)]
pub fn nothing(words: &[u32], repeats: u32) -> u64 {
    let mut sum = 0;
    for _ in 0..repeats {
        for word in words {
            sum = mix(sum, row(0, *word as u64, 1));
        }
    }
    sum
}
