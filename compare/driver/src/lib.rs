//! Runs operations on lists of terms, and whole circuits, through the original
//! Rust and through another program, and compares the answers.

pub mod circuits;
pub mod comparison;
pub mod fields;
pub mod generate;
pub mod original_side;
pub mod sample;
pub mod text;
pub mod verdict;
