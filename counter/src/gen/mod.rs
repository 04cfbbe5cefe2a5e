//! Generators with fixed seeds, each with a report of what it covered.

pub mod coverage;
pub mod damaged;
pub mod forged;
pub mod histories;
pub mod loose;
pub mod prng;
pub mod rows;
pub mod states;
pub mod tables;
pub mod texts;

use crate::answers::Comparison;
use crate::calls::{Outcome, TableCall};
use prng::Prng;

/// The seed that the tests use where nothing else is said.
pub const SEED: u64 = 0x5EED_0F57_A3B5_0A01;

/// A copy number of N or more, also such that its low bytes alone would be a good one.
pub fn number_out_of_range(prng: &mut Prng, n: usize) -> usize {
    let low = prng.below(n);
    let top_bit = usize::MAX / 2 + 1;
    let numbers = [
        n,
        n + 1,
        8 + low,
        255,
        256 + low,
        65_536 + low,
        top_bit + low,
        usize::MAX,
    ];
    prng.pick(&numbers)
}

/// An N outside 2 to 8, also such that its low bytes alone would be a good one.
pub fn n_out_of_range(prng: &mut Prng) -> usize {
    let low = 2 + prng.below(7);
    let top_bit = usize::MAX / 2 + 1;
    let numbers = [
        0,
        1,
        9,
        255,
        256 + low,
        65_536 + low,
        top_bit + low,
        usize::MAX,
    ];
    prng.pick(&numbers)
}

/// The name of a call, for reports.
pub fn call_name(call: TableCall) -> &'static str {
    match call {
        TableCall::Fresh(_) => "fresh",
        TableCall::Check => "check",
        TableCall::Update(_) => "update",
        TableCall::Meet(_, _) => "meet",
        TableCall::Compare(a, b) if a == b => "compare with itself",
        TableCall::Compare(_, _) => "compare",
        TableCall::Lend(_) => "lend",
        TableCall::Superfluous => "superfluous",
    }
}

/// The name of an outcome, for reports.
pub fn outcome_name(n: usize, outcome: Outcome) -> String {
    match outcome {
        Outcome::Done => "done".into(),
        Outcome::Compared(answer) => answer.name().into(),
        Outcome::Lent { .. } => "lent".into(),
        Outcome::Listed(list) if list.count == 0 => "none".into(),
        Outcome::Listed(list) if list.count as usize == n => "all".into(),
        Outcome::Listed(_) => "some".into(),
        Outcome::Refused(refusal) => format!("refused {}", refusal.number()),
    }
}

/// The names of the four answers of a comparison.
pub fn comparison_names() -> [&'static str; 4] {
    Comparison::ALL.map(Comparison::name)
}
