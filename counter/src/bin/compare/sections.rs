//! What is compared: the bench sheet, states, histories, damage, loose records, rows, numbers.

pub mod bench;
pub mod damage;
pub mod histories;
pub mod loose;
pub mod numbers;
pub mod rows;
pub mod states;

use crate::session::Session;

/// A part of the comparison: the kinds that it announces, and its run.
pub struct Section {
    pub kinds: fn() -> Vec<String>,
    pub run: fn(&mut Session),
}

pub const BENCH: Section = Section {
    kinds: bench::kinds,
    run: bench::run,
};

/// The whole comparison.
pub const ALL: [Section; 7] = [
    BENCH,
    Section {
        kinds: states::kinds,
        run: states::run,
    },
    Section {
        kinds: histories::kinds,
        run: histories::run,
    },
    Section {
        kinds: damage::kinds,
        run: damage::run,
    },
    Section {
        kinds: loose::kinds,
        run: loose::run,
    },
    Section {
        kinds: rows::kinds,
        run: rows::run,
    },
    Section {
        kinds: numbers::kinds,
        run: numbers::run,
    },
];

/// Every N.
pub const COPIES: std::ops::RangeInclusive<usize> = 2..=8;

/// One name for each N.
pub fn for_each_n(name: &str) -> Vec<String> {
    COPIES.map(|n| with_n(name, n)).collect()
}

pub fn with_n(name: &str, n: usize) -> String {
    format!("{name}, N = {n}")
}
