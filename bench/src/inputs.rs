//! What the kernels work on: the same numbers in each run, and kept as long as the program runs.
use std::collections::{BTreeSet, HashSet};

/// Random numbers by the generator SplitMix64.
pub struct Random(u64);

impl Random {
    pub fn new(seed: u64) -> Self {
        Random(seed)
    }

    pub fn number(&mut self) -> u64 {
        self.0 = self.0.wrapping_add(0x9E37_79B9_7F4A_7C15);
        let mut mixed = self.0;
        mixed = (mixed ^ (mixed >> 30)).wrapping_mul(0xBF58_476D_1CE4_E5B9);
        mixed = (mixed ^ (mixed >> 27)).wrapping_mul(0x94D0_49BB_1331_11EB);
        mixed ^ (mixed >> 31)
    }

    pub fn below(&mut self, end: u64) -> u64 {
        ((u128::from(self.number()) * u128::from(end)) >> 64) as u64
    }

    /// So many weights, which fill `0..2^precision`: it is cut at random places.
    pub fn weights(&mut self, rows: usize, precision: u32) -> Vec<u64> {
        let whole = 1u64 << precision;
        let mut cuts = BTreeSet::from([0, whole]);
        while cuts.len() < rows + 1 {
            cuts.insert(self.below(whole));
        }
        let cuts: Vec<u64> = cuts.into_iter().collect();
        cuts.windows(2).map(|pair| pair[1] - pair[0]).collect()
    }

    /// So many symbols, no two of which are equal.
    pub fn symbols(&mut self, count: usize) -> Vec<u32> {
        let mut seen = HashSet::new();
        let mut symbols = vec![];
        while symbols.len() < count {
            let symbol = self.number() as u32;
            if seen.insert(symbol) {
                symbols.push(symbol);
            }
        }
        symbols
    }
}

/// How many quantiles, symbols or words a kernel goes over.
pub const MANY: usize = 1 << 16;

/// How many bytes a block has that is packed.
pub const BLOCK: usize = 1 << 20;

/// A table of so many rows over 24 bits of `u32`, and what is asked of it.
pub struct Table {
    pub rows: usize,
    pub weights: &'static [u32],
    pub symbols: &'static [u32],
    /// the index of a row, each time
    pub indices: &'static [u32],
    /// the symbol of that row
    pub asked: &'static [u32],
}

/// A table over 12 bits of `u16`.
pub struct SmallTable {
    pub rows: usize,
    pub weights: &'static [u16],
    pub symbols: &'static [u32],
}

pub struct Inputs {
    random: Random,
    pub quantiles: &'static [u32],
    pub small_quantiles: &'static [u16],
    pub words: &'static [u32],
}

impl Inputs {
    pub fn new() -> Self {
        let mut random = Random::new(2024);
        let quantiles = keep((0..MANY).map(|_| random.below(1 << 24) as u32).collect());
        let small_quantiles = keep((0..MANY).map(|_| random.below(1 << 12) as u16).collect());
        let words = keep((0..MANY).map(|_| random.number() as u32).collect());
        Inputs { random, quantiles, small_quantiles, words }
    }

    pub fn table(&mut self, rows: usize) -> Table {
        let weights = keep(self.random.weights(rows, 24).into_iter().map(|weight| weight as u32).collect());
        let symbols = keep(self.random.symbols(rows));
        let indices = keep((0..MANY).map(|_| self.random.below(rows as u64) as u32).collect());
        let asked = keep(indices.iter().map(|&index| symbols[index as usize]).collect());
        Table { rows, weights, symbols, indices, asked }
    }

    /// The bytes of a block: letters, spaces and ends of lines, of which few are frequent, as in a text.
    pub fn text(&mut self) -> &'static [u8] {
        let letters = b" etaoinshrdlucmfwypvbgk,.\nxjqz";
        let mut letter = || {
            let end = 1 + self.random.below(letters.len() as u64);
            letters[self.random.below(end) as usize]
        };
        keep((0..BLOCK).map(|_| letter()).collect())
    }

    pub fn small_table(&mut self, rows: usize) -> SmallTable {
        let weights = self.random.weights(rows, 12);
        self.small_table_of(weights)
    }

    /// A table whose last row has half of the quantiles, so of 2 to 2,049 rows.
    pub fn small_table_with_a_wide_end(&mut self, rows: usize) -> SmallTable {
        let mut weights = self.random.weights(rows - 1, 11);
        weights.push(1 << 11);
        self.small_table_of(weights)
    }

    fn small_table_of(&mut self, weights: Vec<u64>) -> SmallTable {
        let rows = weights.len();
        let weights = keep(weights.into_iter().map(|weight| weight as u16).collect());
        let symbols = keep(self.random.symbols(rows));
        SmallTable { rows, weights, symbols }
    }
}

impl Default for Inputs {
    fn default() -> Self {
        Self::new()
    }
}

fn keep<T>(all: Vec<T>) -> &'static [T] {
    all.leak()
}
