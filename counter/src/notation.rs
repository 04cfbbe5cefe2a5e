//! The bench sheet's way of writing a slice: rows head first, a slash between rows.

use crate::model::{Record, Slice};

/// The slice written as text, e.g. `1 0 / 0`.
pub fn slice(text: &str) -> Slice {
    let symbol = |word: &str| word.parse().expect("a symbol is a number");
    let row = |part: &str| part.split_whitespace().map(symbol).collect();
    text.split('/').map(row).collect()
}

/// The record with this own number whose slices are written as text.
pub fn record(own: usize, slices: &[&str]) -> Record {
    let n = slices.len();
    let slices = slices.iter().map(|text| slice(text)).collect();
    Record { n, own, slices }
}
