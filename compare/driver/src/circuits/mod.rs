//! Runs circuits through the original Rust and through another program, and
//! compares what comes of them.

pub mod account;
pub mod generate;
pub mod original_side;
pub mod sample;
pub mod text;
