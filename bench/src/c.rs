//! The kernels of `bench/c`, with the names, the arguments and the checksums of those in `bench/kernels`.
//!
//! What each requires is asked of its caller: at most 256 weights add up to `2^12`, none is above `2^11`, and each byte
//! has one that is not 0.
use crate::here::exports;

exports! {
    table_encode = c_table_encode(weights: [u32], bytes: [u8]);
    table_decode = c_table_decode(weights: [u32], bytes: [u8]);
    table_decode_two = c_table_decode_two(weights: [u32], bytes: [u8]);
}
