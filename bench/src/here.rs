//! The kernels over this repository's libraries.
//!
//! Of Rattle's functions a slice is a pointer and a length, and an allocator is nothing. What each requires is
//! asked of its caller here: quantiles lie below `2^PRECISION`, a uniform model has 2 to `2^24` symbols, no two
//! symbols of a table are equal, a block has 1 to `2^20` bytes, and bytes have at most 256 weights.

/// A safe function for each export, over slices. Each goes with a length after it, as those of `bench/c` do.
macro_rules! exports {
    ($($name:ident = $symbol:ident($($slice:ident: [$word:ty]),*);)*) => {
        $(
            pub fn $name($($slice: &[$word],)* repeats: u32) -> u64 {
                extern "C" {
                    fn $symbol($($slice: *const $word, _: usize,)* repeats: u32) -> u64;
                }
                // SAFETY: each pointer and length are those of a slice, which is only read.
                unsafe { $symbol($($slice.as_ptr(), $slice.len(),)* repeats) }
            }
        )*
    };
}

pub(crate) use exports;

exports! {
    nothing = kernel_nothing(words: [u32]);
    contiguous_build = kernel_contiguous_build(weights: [u32]);
    contiguous_quantile = kernel_contiguous_quantile(weights: [u32], quantiles: [u32]);
    contiguous_symbol = kernel_contiguous_symbol(weights: [u32], symbols: [u32]);
    contiguous_table = kernel_contiguous_table(weights: [u32]);
    decoder_build = kernel_decoder_build(weights: [u32], symbols: [u32]);
    decoder_build_distinct = kernel_decoder_build_distinct(weights: [u32], symbols: [u32]);
    decoder_build_hashable = kernel_decoder_build_hashable(weights: [u32], symbols: [u32]);
    decoder_build_sorted = kernel_decoder_build_sorted(weights: [u32], symbols: [u32]);
    decoder_quantile = kernel_decoder_quantile(weights: [u32], symbols: [u32], quantiles: [u32]);
    decoder_table = kernel_decoder_table(weights: [u32], symbols: [u32]);
    encoder_build = kernel_encoder_build(weights: [u32], symbols: [u32]);
    encoder_symbol = kernel_encoder_symbol(weights: [u32], symbols: [u32], asked: [u32]);
    direct_lookup_build = kernel_direct_lookup_build(weights: [u16]);
    direct_lookup_quantile = kernel_direct_lookup_quantile(weights: [u16], quantiles: [u16]);
    slotted_lookup_build = kernel_slotted_lookup_build(weights: [u16]);
    slotted_lookup_quantile = kernel_slotted_lookup_quantile(weights: [u16], quantiles: [u16]);
    direct_symbol_lookup_build = kernel_direct_symbol_lookup_build(weights: [u16], symbols: [u32]);
    direct_symbol_lookup_quantile = kernel_direct_symbol_lookup_quantile(weights: [u16], symbols: [u32], quantiles: [u16]);
    slotted_symbol_lookup_quantile = kernel_slotted_symbol_lookup_quantile(weights: [u16], symbols: [u32], quantiles: [u16]);
    wide_lookup_8_quantile = kernel_wide_lookup_8_quantile(weights: [u32], quantiles: [u32]);
    wide_lookup_8_build = kernel_wide_lookup_8_build(weights: [u32]);
    wide_lookup_12_quantile = kernel_wide_lookup_12_quantile(weights: [u32], quantiles: [u32]);
    wide_lookup_12_build = kernel_wide_lookup_12_build(weights: [u32]);
    wide_lookup_16_quantile = kernel_wide_lookup_16_quantile(weights: [u32], quantiles: [u32]);
    wide_lookup_16_build = kernel_wide_lookup_16_build(weights: [u32]);
    small_contiguous_quantile = kernel_small_contiguous_quantile(weights: [u16], quantiles: [u16]);
    small_decoder_quantile = kernel_small_decoder_quantile(weights: [u16], symbols: [u32], quantiles: [u16]);
    to_decoder = kernel_to_decoder(weights: [u32]);
    to_decoder_of_distinct = kernel_to_decoder_of_distinct(weights: [u32]);
    wide_to_decoder_of_distinct = kernel_wide_to_decoder_of_distinct(weights: [u64]);
    to_encoder = kernel_to_encoder(weights: [u32]);
    to_direct_lookup = kernel_to_direct_lookup(weights: [u16]);
    write_quantiles = kernel_write_quantiles(weights: [u32], symbols: [u32]);
    read_symbols = kernel_read_symbols(weights: [u32], words: [u32]);
    coder_encode = kernel_coder_encode(weights: [u32], symbols: [u32]);
    coder_decode = kernel_coder_decode(weights: [u32], words: [u32]);
    coder_lookup_decode = kernel_coder_lookup_decode(weights: [u32], words: [u32]);
    range_encode = kernel_range_encode(weights: [u32], symbols: [u32]);
    range_decode = kernel_range_decode(weights: [u32], symbols: [u32]);
    table_encode = kernel_table_encode(weights: [u32], bytes: [u8]);
    table_decode = kernel_table_decode(weights: [u32], bytes: [u8]);
    table_decode_two = kernel_table_decode_two(weights: [u32], bytes: [u8]);
    cursor_queue_read = kernel_cursor_queue_read(words: [u32]);
    cursor_stack_read = kernel_cursor_stack_read(words: [u32]);
    reverse_stack_read = kernel_reverse_stack_read(words: [u32]);
    vec_write = kernel_vec_write(words: [u32]);
    vec_write_read = kernel_vec_write_read(words: [u32]);
    iterator_read = kernel_iterator_read(words: [u32]);
    fallible_iterator_read = kernel_fallible_iterator_read(words: [u32]);
    callback_write = kernel_callback_write(words: [u32]);
    fallible_callback_write = kernel_fallible_callback_write(words: [u32]);
}

extern "C" {
    fn kernel_uniform_quantile(range: usize, quantiles: *const u32, _: usize, repeats: u32) -> u64;
    fn kernel_uniform_symbol(range: usize, symbols: *const u32, _: usize, repeats: u32) -> u64;
    fn kernel_uniform_table(range: usize, repeats: u32) -> u64;
    fn kernel_cursor_write(words: *const u32, _: usize, buffer: *mut u32, _: usize, repeats: u32) -> u64;
    fn kernel_reverse_write(words: *const u32, _: usize, buffer: *mut u32, _: usize, repeats: u32) -> u64;
    fn kernel_into_reversed(words: *mut u32, _: usize, repeats: u32) -> u64;
}

pub fn uniform_quantile(range: usize, quantiles: &[u32], repeats: u32) -> u64 {
    // SAFETY: the pointer and the length are those of a slice, which is only read; so below.
    unsafe { kernel_uniform_quantile(range, quantiles.as_ptr(), quantiles.len(), repeats) }
}

pub fn uniform_symbol(range: usize, symbols: &[u32], repeats: u32) -> u64 {
    unsafe { kernel_uniform_symbol(range, symbols.as_ptr(), symbols.len(), repeats) }
}

pub fn uniform_table(range: usize, repeats: u32) -> u64 {
    unsafe { kernel_uniform_table(range, repeats) }
}

pub fn cursor_write(words: &[u32], buffer: &mut [u32], repeats: u32) -> u64 {
    // SAFETY: the buffer is a slice of the caller's that nothing else refers to while it is written; so below.
    unsafe { kernel_cursor_write(words.as_ptr(), words.len(), buffer.as_mut_ptr(), buffer.len(), repeats) }
}

pub fn reverse_write(words: &[u32], buffer: &mut [u32], repeats: u32) -> u64 {
    unsafe { kernel_reverse_write(words.as_ptr(), words.len(), buffer.as_mut_ptr(), buffer.len(), repeats) }
}

pub fn into_reversed(words: &mut [u32], repeats: u32) -> u64 {
    unsafe { kernel_into_reversed(words.as_mut_ptr(), words.len(), repeats) }
}
