//! Work by this repository's libraries, beside the Rust crate or beside C, measured in one run.
//!
//! [`rust`] has the kernels over the Rust crate, [`c`] those of `bench/c`, and [`here`] the kernels of `bench/kernels`,
//! a static library. A kernel does a whole batch in one call: it goes over its input as often as its last argument
//! says, and returns a checksum. [`kernels`] pairs two sides over the same inputs, and [`measure`] takes the times.
//!
//! To add a kernel: a function in `bench/kernels`, its line in [`here`], the same function in [`rust`], and a line in
//! [`kernels`], which says what the two sides do if they do not do the same.
pub mod c;
pub mod here;
pub mod inputs;
pub mod kernels;
pub mod measure;
pub mod rust;
