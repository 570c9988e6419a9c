//! The kernels of both sides, paired over the same inputs.
use crate::inputs::{Inputs, SmallTable, Table, MANY};
use crate::{c, here, rust};
use std::hint::black_box;

/// Goes over the input as many times as the argument says, and returns a checksum.
pub type Run = Box<dyn FnMut(u32) -> u64>;

/// What the two sides of a kernel do.
#[derive(Clone, Copy)]
pub enum Sides {
    /// the same work
    Same,
    /// The same work over a hash table, whose hash has a key there and none here.
    Hashes,
    /// The same work. The Rust crate's side is a function over its models that this project wrote.
    Written,
    /// Both make a model. The one here looks for symbols that repeat, and refuses them.
    Repeats,
    /// Both have a lookup table: here one of fewer slots, there one with a slot for each quantile.
    Slots,
    /// A lookup table here. The Rust crate has none over such words, so its searching model is measured.
    Search,
    /// A table with an entry for each quantile here. The Rust crate has none, so its lookup model and its division are
    /// measured, under a coder that this project wrote.
    Nearest,
    /// The same work. The other side is in C, which this project wrote.
    C,
}

impl Sides {
    /// The name that figures are saved with.
    pub fn name(self) -> &'static str {
        match self {
            Sides::Same => "same",
            Sides::Hashes => "hashes",
            Sides::Written => "written",
            Sides::Repeats => "repeats",
            Sides::Slots => "slots",
            Sides::Search => "search",
            Sides::Nearest => "nearest",
            Sides::C => "c",
        }
    }
}

pub struct Kernel {
    pub name: &'static str,
    pub sides: Sides,
    /// the words of the model and its precision, or the words that are read and written
    pub words: &'static str,
    /// how many rows the model has; 0 where there is none
    pub rows: usize,
    /// how many items a pass goes over: quantiles, symbols, words, or weights of a model that is made
    pub items: usize,
    /// the Rust crate's side, or the one in C
    pub there: Run,
    pub here: Run,
}

impl Kernel {
    /// The kernel, whose sides do what is said here, and not the same.
    fn with(self, sides: Sides) -> Self {
        Kernel { sides, ..self }
    }

    /// Whether both sides compute the same checksum.
    pub fn agrees(&mut self) -> bool {
        [0, 1, 2].into_iter().all(|repeats| (self.there)(repeats) == (self.here)(repeats))
    }
}

/// A kernel by the name of its function on both sides. A number among the arguments is hidden: else one side would
/// be compiled for it.
macro_rules! kernel {
    ($name:literal, $words:literal, $rows:expr, $items:expr, $function:ident($($argument:expr),*)) => {
        kernel!($name, $words, $rows, $items, rust::$function($($argument),*))
    };
    ($name:literal, $words:literal, $rows:expr, $items:expr, $there:ident::$function:ident($($argument:expr),*)) => {
        Kernel {
            name: $name,
            sides: Sides::Same,
            words: $words,
            rows: $rows,
            items: $items,
            there: Box::new(move |repeats| $there::$function($(black_box($argument),)* repeats)),
            here: Box::new(move |repeats| here::$function($(black_box($argument),)* repeats)),
        }
    };
}

/// A kernel that writes: each side has a buffer of its own.
macro_rules! writing {
    ($name:literal, $function:ident($($argument:expr),*)) => {{
        let mut buffers = [vec![7u32; MANY], vec![7u32; MANY]];
        let [mut first, mut second] = std::mem::take(&mut buffers);
        Kernel {
            name: $name,
            sides: Sides::Same,
            words: "u32",
            rows: 0,
            items: MANY,
            there: Box::new(move |repeats| rust::$function($($argument,)* &mut first, repeats)),
            here: Box::new(move |repeats| here::$function($($argument,)* &mut second, repeats)),
        }
    }};
}

/// All kernels, at the sizes of the table.
pub fn usual() -> Vec<Kernel> {
    let mut inputs = Inputs::new();
    let tables: Vec<Table> = [2, 16, 256, 4096, 65536].into_iter().map(|rows| inputs.table(rows)).collect();
    let small: Vec<SmallTable> = [2, 16, 256, 4096].into_iter().map(|rows| inputs.small_table(rows)).collect();
    let wide: Vec<SmallTable> = [2, 16, 256, 2048].into_iter().map(|rows| inputs.small_table_with_a_wide_end(rows)).collect();
    let words = inputs.words;
    let mut kernels = vec![kernel!("nothing but the loop", "u32", 0, MANY, nothing(words))];
    for rows in [10, 1000] {
        kernels.push(uniform_quantile(&inputs, rows));
    }
    kernels.push(kernel!("uniform left_cumulative_and_probability", "u32/24", 256, MANY, uniform_symbol(256, words_below_256(words))));
    kernels.push(kernel!("uniform symbol_table", "u32/24", 4096, 4096, uniform_table(4096)));
    for table in &tables {
        kernels.push(contiguous_quantile(&inputs, table));
    }
    for table in [&tables[2], &tables[4]] {
        let (weights, indices) = (table.weights, table.indices);
        kernels.push(kernel!("contiguous left_cumulative_and_probability", "u32/24", table.rows, MANY, contiguous_symbol(weights, indices)));
    }
    let weights = tables[3].weights;
    kernels.push(kernel!("contiguous symbol_table", "u32/24", 4096, 4096, contiguous_table(weights)));
    for table in &small {
        let (weights, quantiles) = (table.weights, inputs.small_quantiles);
        kernels.push(kernel!("contiguous quantile_function", "u16/12", table.rows, MANY, small_contiguous_quantile(weights, quantiles)));
    }
    for table in &small {
        kernels.push(direct_lookup_quantile(&inputs, table));
    }
    for table in &small {
        kernels.push(slotted_lookup_quantile(&inputs, table));
    }
    for table in &small {
        let (weights, symbols, quantiles) = (table.weights, table.symbols, inputs.small_quantiles);
        kernels.push(kernel!("decoder of symbols quantile_function", "u16/12", table.rows, MANY, small_decoder_quantile(weights, symbols, quantiles)));
    }
    for table in &small {
        let (weights, symbols, quantiles) = (table.weights, table.symbols, inputs.small_quantiles);
        kernels.push(kernel!("direct lookup of symbols quantile_function", "u16/12", table.rows, MANY, direct_symbol_lookup_quantile(weights, symbols, quantiles)));
    }
    for table in &small {
        let (weights, symbols, quantiles) = (table.weights, table.symbols, inputs.small_quantiles);
        kernels.push(kernel!("256-slot lookup of symbols quantile_function", "u16/12", table.rows, MANY, slotted_symbol_lookup_quantile(weights, symbols, quantiles)).with(Sides::Slots));
    }
    for table in &wide {
        let (weights, symbols, quantiles) = (table.weights, table.symbols, inputs.small_quantiles);
        kernels.push(kernel!("decoder of symbols quantile_function, a wide end", "u16/12", table.rows, MANY, small_decoder_quantile(weights, symbols, quantiles)));
    }
    for table in &wide {
        let (weights, symbols, quantiles) = (table.weights, table.symbols, inputs.small_quantiles);
        kernels.push(kernel!("direct lookup of symbols quantile_function, a wide end", "u16/12", table.rows, MANY, direct_symbol_lookup_quantile(weights, symbols, quantiles)));
    }
    for table in &tables[..4] {
        let (weights, symbols, quantiles) = (table.weights, table.symbols, inputs.quantiles);
        kernels.push(kernel!("decoder of symbols quantile_function", "u32/24", table.rows, MANY, decoder_quantile(weights, symbols, quantiles)));
    }
    for table in &tables[1..] {
        let (weights, quantiles) = (table.weights, inputs.quantiles);
        kernels.push(kernel!("wide 256-slot lookup quantile_function", "u32/24", table.rows, MANY, wide_lookup_8_quantile(weights, quantiles)).with(Sides::Search));
        kernels.push(kernel!("wide 4,096-slot lookup quantile_function", "u32/24", table.rows, MANY, wide_lookup_12_quantile(weights, quantiles)).with(Sides::Search));
        kernels.push(kernel!("wide 65,536-slot lookup quantile_function", "u32/24", table.rows, MANY, wide_lookup_16_quantile(weights, quantiles)).with(Sides::Search));
        kernels.push(kernel!("wide 256-slot lookup made", "u32/24", table.rows, table.rows, wide_lookup_8_build(weights)).with(Sides::Search));
        kernels.push(kernel!("wide 4,096-slot lookup made", "u32/24", table.rows, table.rows, wide_lookup_12_build(weights)).with(Sides::Search));
        kernels.push(kernel!("wide 65,536-slot lookup made", "u32/24", table.rows, table.rows, wide_lookup_16_build(weights)).with(Sides::Search));
    }
    let (weights, symbols) = (tables[3].weights, tables[3].symbols);
    kernels.push(kernel!("decoder of symbols symbol_table", "u32/24", 4096, 4096, decoder_table(weights, symbols)));
    for table in &tables[2..] {
        kernels.push(encoder_symbol(table));
    }
    for table in &tables[1..] {
        kernels.push(contiguous_build(table));
    }
    for table in &small[2..] {
        let weights = table.weights;
        kernels.push(kernel!("direct lookup made", "u16/12", table.rows, table.rows, direct_lookup_build(weights)));
        kernels.push(kernel!("256-slot lookup made", "u16/12", table.rows, table.rows, slotted_lookup_build(weights)).with(Sides::Slots));
    }
    for table in &small[1..3] {
        let (weights, symbols) = (table.weights, table.symbols);
        kernels.push(kernel!("direct lookup of symbols made", "u16/12", table.rows, table.rows, direct_symbol_lookup_build(weights, symbols)).with(Sides::Repeats));
    }
    for table in &tables[1..4] {
        kernels.push(decoder_build(table));
    }
    for table in &tables[1..4] {
        kernels.push(decoder_build_distinct(table));
    }
    for table in &tables[1..4] {
        kernels.push(decoder_build_hashable(table));
    }
    for table in &tables[1..4] {
        kernels.push(decoder_build_sorted(table));
    }
    for table in &tables[1..] {
        kernels.push(encoder_build(table));
    }
    for table in &tables[2..4] {
        let weights = table.weights;
        kernels.push(kernel!("to_generic_decoder_model", "u32/24", table.rows, table.rows, to_decoder(weights)).with(Sides::Repeats));
        kernels.push(kernel!("to_generic_decoder_model_of_distinct", "u32/24", table.rows, table.rows, to_decoder_of_distinct(weights)));
        let wide: &'static [u64] = weights.iter().map(|weight| u64::from(*weight)).collect::<Vec<u64>>().leak();
        kernels.push(kernel!("to_generic_decoder_model_of_distinct", "u64/24", table.rows, table.rows, wide_to_decoder_of_distinct(wide)));
        kernels.push(kernel!("to_generic_encoder_model", "u32/24", table.rows, table.rows, to_encoder(weights)).with(Sides::Hashes));
    }
    let weights = small[2].weights;
    kernels.push(kernel!("to_lookup_decoder_model, direct", "u16/12", 256, 256, to_direct_lookup(weights)));
    for table in &tables[2..4] {
        let (weights, indices, quantiles) = (table.weights, table.indices, inputs.quantiles);
        kernels.push(kernel!("write_quantiles to a Vec", "u32/24", table.rows, MANY, write_quantiles(weights, indices)).with(Sides::Written));
        kernels.push(kernel!("read_symbols of a Cursor", "u32/24", table.rows, MANY, read_symbols(weights, quantiles)).with(Sides::Written));
    }
    for table in &tables[2..4] {
        let (weights, indices) = (table.weights, table.indices);
        kernels.push(kernel!("stack coder encode_symbol", "u32/24", table.rows, MANY, coder_encode(weights, indices)).with(Sides::Written));
        kernels.push(kernel!("stack coder decode_symbol", "u32/24", table.rows, MANY, coder_decode(weights, words)).with(Sides::Written));
        kernels.push(kernel!("stack coder decode_symbol, 4,096-slot lookup", "u32/24", table.rows, MANY, coder_lookup_decode(weights, words)).with(Sides::Search));
    }
    for table in &tables[2..4] {
        let (weights, indices) = (table.weights, table.indices);
        kernels.push(kernel!("range coder encode_symbol", "u32/24", table.rows, MANY, range_encode(weights, indices)).with(Sides::Written));
        kernels.push(kernel!("range coder decode_symbol", "u32/24", table.rows, MANY, range_decode(weights, indices)).with(Sides::Written));
    }
    kernels.push(writing!("Cursor write", cursor_write(words)));
    kernels.push(kernel!("Cursor read, Queue", "u32", 0, MANY, cursor_queue_read(words)));
    kernels.push(kernel!("Cursor read, Stack", "u32", 0, MANY, cursor_stack_read(words)));
    kernels.push(writing!("Reverse<Cursor> write", reverse_write(words)));
    kernels.push(kernel!("Reverse<Cursor> read, Stack", "u32", 0, MANY, reverse_stack_read(words)));
    kernels.push(writing!("Cursor into_reversed", into_reversed()));
    kernels.push(kernel!("Vec write, growing", "u32", 0, MANY, vec_write(words)));
    kernels.push(kernel!("Vec write and read", "u32", 0, MANY, vec_write_read(words)));
    kernels.push(kernel!("iterator read", "u32", 0, MANY, iterator_read(words)));
    kernels.push(kernel!("fallible iterator read", "u32", 0, MANY, fallible_iterator_read(words)));
    kernels.push(kernel!("callback write", "u32", 0, MANY, callback_write(words)));
    kernels.push(kernel!("fallible callback write", "u32", 0, MANY, fallible_callback_write(words)));
    let text = inputs.text();
    let (weights, bytes) = (weights_of(text, 12), &text[..MANY]);
    let rows = weights.len();
    kernels.push(kernel!("direct table decode_into", "u32/12", rows, MANY, table_decode(weights, bytes)).with(Sides::Nearest));
    kernels.push(kernel!("direct table decode_into", "u32/12", rows, MANY, c::table_decode(weights, bytes)).with(Sides::C));
    kernels.push(kernel!("direct table decode_two", "u32/12", rows, MANY, table_decode_two(weights, bytes)).with(Sides::Nearest));
    kernels.push(kernel!("direct table decode_two", "u32/12", rows, MANY, c::table_decode_two(weights, bytes)).with(Sides::C));
    kernels.push(kernel!("direct table encode_prepared_slice_reverse", "u32/12", rows, MANY, table_encode(weights, bytes)).with(Sides::Nearest));
    kernels.push(kernel!("direct table encode_prepared_slice_reverse", "u32/12", rows, MANY, c::table_encode(weights, bytes)).with(Sides::C));
    kernels
}

/// The four kinds of models, and what makes them, at 2^4 to 2^20 rows, as far as each goes.
pub fn growing() -> Vec<Kernel> {
    let mut inputs = Inputs::new();
    let mut kernels = vec![];
    for bits in [4, 6, 8, 10, 12, 14, 16, 18, 20] {
        let table = inputs.table(1 << bits);
        kernels.push(uniform_quantile(&inputs, table.rows));
        kernels.push(contiguous_quantile(&inputs, &table));
        kernels.push(encoder_symbol(&table));
        kernels.push(contiguous_build(&table));
        kernels.push(encoder_build(&table));
        kernels.push(decoder_build_distinct(&table));
        kernels.push(decoder_build_hashable(&table));
        kernels.push(decoder_build_sorted(&table));
        // this one compares each symbol with all before it
        if bits <= 14 {
            kernels.push(decoder_build(&table));
        }
    }
    for bits in [4, 6, 8, 10, 12] {
        let table = inputs.small_table(1 << bits);
        kernels.push(direct_lookup_quantile(&inputs, &table));
        kernels.push(slotted_lookup_quantile(&inputs, &table));
    }
    kernels
}

fn words_below_256(words: &'static [u32]) -> &'static [u32] {
    words.iter().map(|word| word % 256).collect::<Vec<u32>>().leak()
}

/// How many rows the model of these bytes has.
fn rows_of(bytes: &[u8]) -> usize {
    bytes.iter().max().map_or(0, |most| usize::from(*most) + 1)
}

/// Weights of bytes over `2^precision`: one quantile each, up to the greatest byte, and its share of the others. The most
/// frequent byte has what is left.
fn weights_of(bytes: &[u8], precision: u32) -> &'static [u32] {
    let mut counts = vec![0u64; rows_of(bytes)];
    for byte in bytes {
        counts[usize::from(*byte)] += 1;
    }
    let shared = (1 << precision) - counts.len() as u64;
    let mut weights: Vec<u32> = counts.iter().map(|count| 1 + (count * shared / bytes.len() as u64) as u32).collect();
    let left = (1 << precision) - weights.iter().sum::<u32>();
    if let Some(most) = weights.iter_mut().max() {
        *most += left;
    }
    weights.leak()
}

fn uniform_quantile(inputs: &Inputs, rows: usize) -> Kernel {
    let quantiles = inputs.quantiles;
    kernel!("uniform quantile_function", "u32/24", rows, MANY, uniform_quantile(rows, quantiles))
}

fn contiguous_quantile(inputs: &Inputs, table: &Table) -> Kernel {
    let (weights, quantiles) = (table.weights, inputs.quantiles);
    kernel!("contiguous quantile_function", "u32/24", table.rows, MANY, contiguous_quantile(weights, quantiles))
}

fn direct_lookup_quantile(inputs: &Inputs, table: &SmallTable) -> Kernel {
    let (weights, quantiles) = (table.weights, inputs.small_quantiles);
    kernel!("direct lookup quantile_function", "u16/12", table.rows, MANY, direct_lookup_quantile(weights, quantiles))
}

fn slotted_lookup_quantile(inputs: &Inputs, table: &SmallTable) -> Kernel {
    let (weights, quantiles) = (table.weights, inputs.small_quantiles);
    kernel!("256-slot lookup quantile_function", "u16/12", table.rows, MANY, slotted_lookup_quantile(weights, quantiles)).with(Sides::Slots)
}

fn encoder_symbol(table: &Table) -> Kernel {
    let (weights, symbols, asked) = (table.weights, table.symbols, table.asked);
    kernel!("hashed encoder left_cumulative_and_probability", "u32/24", table.rows, MANY, encoder_symbol(weights, symbols, asked)).with(Sides::Hashes)
}

fn contiguous_build(table: &Table) -> Kernel {
    let weights = table.weights;
    kernel!("contiguous made", "u32/24", table.rows, table.rows, contiguous_build(weights))
}

fn decoder_build(table: &Table) -> Kernel {
    let (weights, symbols) = (table.weights, table.symbols);
    kernel!("decoder of symbols made, comparing", "u32/24", table.rows, table.rows, decoder_build(weights, symbols)).with(Sides::Repeats)
}

fn decoder_build_distinct(table: &Table) -> Kernel {
    let (weights, symbols) = (table.weights, table.symbols);
    kernel!("decoder of symbols made, known to differ", "u32/24", table.rows, table.rows, decoder_build_distinct(weights, symbols))
}

fn decoder_build_hashable(table: &Table) -> Kernel {
    let (weights, symbols) = (table.weights, table.symbols);
    kernel!("decoder of symbols made, hashing", "u32/24", table.rows, table.rows, decoder_build_hashable(weights, symbols)).with(Sides::Repeats)
}

fn decoder_build_sorted(table: &Table) -> Kernel {
    let mut sorted = table.symbols.to_vec();
    sorted.sort_unstable();
    let (weights, symbols): (_, &'static [u32]) = (table.weights, sorted.leak());
    kernel!("decoder of symbols made, in order", "u32/24", table.rows, table.rows, decoder_build_sorted(weights, symbols)).with(Sides::Repeats)
}

fn encoder_build(table: &Table) -> Kernel {
    let (weights, symbols) = (table.weights, table.symbols);
    kernel!("hashed encoder made", "u32/24", table.rows, table.rows, encoder_build(weights, symbols)).with(Sides::Hashes)
}
