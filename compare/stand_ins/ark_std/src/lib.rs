//! A stand-in: the standard library under the other name.

pub use std::{any, boxed, cell, collections, error, fmt, format, ops, rc, string, vec};
