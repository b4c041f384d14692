//! A second, unproved implementation of the ring register, and a door to the proved one.
//!
//! - [`reference`] is written from documents 01 and 02 alone, in safe Rust.
//! - [`proved`] calls the proved library through its C interface (feature `proved`).
//! - [`samples`] makes registers and comma lines for the comparison and the benchmark of the two.

#![deny(unsafe_code)]
#![warn(missing_docs)]

#[cfg(feature = "proved")]
pub mod proved;
pub mod reference;
pub mod samples;
