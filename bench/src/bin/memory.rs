//! Prints a line for each kernel that makes models: its name, what its sides do, its words, its rows, and then of the
//! Rust crate and of this library how many allocations and growths of one a model takes, and how many bytes it asks for.
//!
//! usage: memory [WORD..]
//!
//! Both sides ask the C library for memory. This program has that library's functions under their own names, which
//! count and pass each call on.
use constriction_bench::kernels::{usual, Run};
use std::ffi::c_void;
use std::sync::atomic::{AtomicU64, Ordering::Relaxed};

static ALLOCATIONS: AtomicU64 = AtomicU64::new(0);
static GROWTHS: AtomicU64 = AtomicU64::new(0);
static BYTES: AtomicU64 = AtomicU64::new(0);

extern "C" {
    fn __libc_malloc(size: usize) -> *mut c_void;
    fn __libc_calloc(count: usize, size: usize) -> *mut c_void;
    fn __libc_realloc(old: *mut c_void, size: usize) -> *mut c_void;
}

/// # Safety
/// As that of the C library.
#[no_mangle]
pub unsafe extern "C" fn malloc(size: usize) -> *mut c_void {
    ALLOCATIONS.fetch_add(1, Relaxed);
    BYTES.fetch_add(size as u64, Relaxed);
    __libc_malloc(size)
}

/// # Safety
/// As that of the C library.
#[no_mangle]
pub unsafe extern "C" fn calloc(count: usize, size: usize) -> *mut c_void {
    ALLOCATIONS.fetch_add(1, Relaxed);
    BYTES.fetch_add((count * size) as u64, Relaxed);
    __libc_calloc(count, size)
}

/// # Safety
/// As that of the C library.
#[no_mangle]
pub unsafe extern "C" fn realloc(old: *mut c_void, size: usize) -> *mut c_void {
    let counter = if old.is_null() { &ALLOCATIONS } else { &GROWTHS };
    counter.fetch_add(1, Relaxed);
    BYTES.fetch_add(size as u64, Relaxed);
    __libc_realloc(old, size)
}

/// What has been asked for so far.
fn counted() -> [u64; 3] {
    [&ALLOCATIONS, &GROWTHS, &BYTES].map(|it| it.load(Relaxed))
}

/// What one pass of a kernel requests, without what the kernel requests before it.
fn pass(run: &mut Run) -> [u64; 3] {
    let start = counted();
    run(0);
    let none = counted();
    run(1);
    let one = counted();
    [0, 1, 2].map(|it| (one[it] - none[it]) - (none[it] - start[it]))
}

fn main() {
    let words: Vec<String> = std::env::args().skip(1).collect();
    for kernel in &mut usual() {
        let makes = kernel.name.contains("made") || kernel.name.starts_with("to_");
        if !makes || !(words.is_empty() || words.iter().any(|word| kernel.name.contains(word.as_str()))) {
            continue;
        }
        let sides = [&mut kernel.there, &mut kernel.here].map(pass);
        print!("{}\t{}\t{}\t{}", kernel.name, kernel.sides.name(), kernel.words, kernel.rows);
        for side in sides {
            print!("\t{}\t{}\t{}", side[0], side[1], side[2]);
        }
        println!();
    }
}
