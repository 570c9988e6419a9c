//! How long a kernel takes on each side.
//!
//! A sample is two calls, on one side and then on the other: one goes over the input several times, the other not
//! at all. Of each call the least time counts, because what disturbs a sample only makes it longer. Both calls make
//! the model, so the difference of their times, divided by the number of items, is the time of an item.
use crate::kernels::{Kernel, Run};
use std::hint::black_box;
use std::time::{Duration, Instant};

/// How much is measured.
pub struct Effort {
    /// the least length of a sample
    pub sample: Duration,
    pub samples: usize,
    pub rounds: usize,
}

impl Effort {
    pub const FULL: Effort = Effort { sample: Duration::from_millis(8), samples: 41, rounds: 3 };
    pub const QUICK: Effort = Effort { sample: Duration::from_millis(2), samples: 7, rounds: 1 };
}

/// The least times of one side, in nanoseconds.
#[derive(Clone, Copy)]
struct Least {
    repeats: u32,
    none: f64,
    all: f64,
}

/// The samples of a kernel, of the Rust crate and of this library.
pub struct Samples {
    sides: [Least; 2],
    is_long: bool,
}

fn timed(run: &mut Run, repeats: u32) -> f64 {
    let start = Instant::now();
    black_box(run(black_box(repeats)));
    start.elapsed().as_nanos() as f64
}

/// How often a kernel goes over its input, so that it takes as long as a sample has to, and at least half as long as
/// making the model. Otherwise the difference would be lost in how much the time of making the model varies.
fn repeats_of(run: &mut Run, effort: &Effort) -> u32 {
    let none = timed(run, 0).min(timed(run, 0));
    let least = (effort.sample.as_nanos() as f64).max(none / 2.0);
    let mut repeats = 1;
    loop {
        let taken = timed(run, repeats) - none;
        if taken > least || repeats > 1 << 28 {
            return repeats;
        }
        repeats *= if taken < least / 16.0 { 8 } else { 2 };
    }
}

impl Samples {
    pub fn new(kernel: &mut Kernel, effort: &Effort) -> Self {
        let sides = [&mut kernel.there, &mut kernel.here].map(|run| Least { repeats: repeats_of(run, effort), none: f64::MAX, all: f64::MAX });
        // what takes long at once is disturbed less, and is sampled less often
        let is_long = [&mut kernel.there, &mut kernel.here].into_iter().any(|run| timed(run, 1) > 1e8);
        Samples { sides, is_long }
    }

    /// Takes the samples of a round.
    pub fn take(&mut self, kernel: &mut Kernel, effort: &Effort) {
        for _ in 0..if self.is_long { 3 } else { effort.samples } {
            for (run, least) in [&mut kernel.there, &mut kernel.here].into_iter().zip(&mut self.sides) {
                least.none = least.none.min(timed(run, 0));
                least.all = least.all.min(timed(run, least.repeats));
            }
        }
    }

    /// The nanoseconds of an item, of the Rust crate and of this library.
    pub fn least(&self, kernel: &Kernel) -> [f64; 2] {
        self.sides.map(|least| (least.all - least.none).max(0.0) / (kernel.items as f64 * f64::from(least.repeats)))
    }
}
