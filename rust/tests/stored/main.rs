//! Both implementations held against stored answers: `../tests/vectors`, `../tests/lines.txt`, `../tests/prefixes.txt`,
//! `../tests/likely.txt`, `../tests/edits.txt` and `../tests/days.txt`.
//!
//! Without the feature `proved` the reference is held against them alone. Run with
//! `cargo test --release --test stored -- --nocapture` to see how many lines and cases there are.

mod days;
mod edits;
mod forms;
mod implementations;
mod likely;
mod lines;
mod prefixes;
mod rates;
mod vectors;
