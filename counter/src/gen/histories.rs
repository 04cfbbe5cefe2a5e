//! Histories: lists of calls on one table from fresh, some with numbers out of range.

use super::coverage::Coverage;
use super::prng::Prng;
use super::{call_name, comparison_names, n_out_of_range, number_out_of_range, outcome_name};
use crate::answers::Refusal;
use crate::bytes::table_size;
use crate::calls::{self, Outcome, TableCall};

/// The kinds that a history's report announces.
pub fn kinds() -> Vec<String> {
    let mut kinds: Vec<String> = [
        "fresh done",
        "fresh refused 2",
        "fresh refused 3",
        "check done",
        "update done",
        "update refused 5",
        "meet done",
        "meet refused 5",
        "meet refused 5 before 6",
        "meet refused 6",
        "compare refused 5",
        "compare with itself equal",
        "compare with itself refused 5",
        "lend lent",
        "lend refused 5",
        "superfluous none",
        "superfluous some",
        "superfluous all",
    ]
    .map(String::from)
    .to_vec();
    kinds.extend(comparison_names().map(|name| format!("compare {name}")));
    kinds
}

/// A number that is mostly a copy's.
fn mostly_a_copy(prng: &mut Prng, n: usize) -> usize {
    if prng.once_in(12) {
        number_out_of_range(prng, n)
    } else {
        prng.below(n)
    }
}

/// One call of a history.
fn call(prng: &mut Prng, n: usize) -> TableCall {
    let other_n = 2 + (n - 1) % 7;
    match prng.below(100) {
        0..=29 => TableCall::Update(mostly_a_copy(prng, n)),
        30..=59 => {
            let (a, b) = prng.two_below(n);
            match prng.below(12) {
                0 => TableCall::Meet(a, a),
                1 => TableCall::Meet(a, number_out_of_range(prng, n)),
                2 => TableCall::Meet(number_out_of_range(prng, n), b),
                3 => {
                    let number = number_out_of_range(prng, n);
                    TableCall::Meet(number, number)
                }
                _ => TableCall::Meet(a, b),
            }
        }
        60..=82 => TableCall::Compare(mostly_a_copy(prng, n), mostly_a_copy(prng, n)),
        83..=84 => {
            let numbers = [prng.below(n), number_out_of_range(prng, n)];
            let number = prng.pick(&numbers);
            TableCall::Compare(number, number)
        }
        85..=89 => TableCall::Lend(mostly_a_copy(prng, n)),
        90..=96 => TableCall::Superfluous,
        97 => TableCall::Check,
        98 if prng.once_in(4) => TableCall::Fresh(n),
        98 => TableCall::Fresh(other_n),
        _ => TableCall::Fresh(n_out_of_range(prng)),
    }
}

/// Calls that leave all copies equal, so that a list of all is among the answers.
fn all_meet(n: usize) -> Vec<TableCall> {
    let there = (1..n).map(|i| TableCall::Meet(i - 1, i));
    let back = (1..n).rev().map(|i| TableCall::Meet(i, i - 1));
    there.chain(back).collect()
}

/// Calls after which each copy has an update that no other knows.
fn all_apart(n: usize) -> Vec<TableCall> {
    (0..n).map(TableCall::Update).collect()
}

/// A history of N copies with at least this many calls; the first makes the table fresh.
pub fn history(seed: u64, n: usize, length: usize) -> (Vec<TableCall>, Coverage) {
    let mut prng = Prng::new(seed ^ n as u64);
    let mut calls = vec![TableCall::Fresh(n)];
    while calls.len() < length {
        calls.push(call(&mut prng, n));
        if prng.once_in(150) {
            calls.extend(all_meet(n));
            calls.push(TableCall::Superfluous);
            calls.push(TableCall::Compare(0, n - 1));
        }
        if prng.once_in(150) {
            calls.extend(all_apart(n));
            calls.push(TableCall::Superfluous);
        }
    }
    let mut coverage = Coverage::expecting(kinds());
    let mut table = vec![0; table_size(n)];
    for &call in &calls {
        let outcome = calls::answer(&mut table, call);
        coverage.note(&format!("{} {}", call_name(call), outcome_name(n, outcome)));
        let twice = matches!(call, TableCall::Meet(a, b) if a == b);
        if twice && outcome == Outcome::Refused(Refusal::NoSuchCopy) {
            coverage.note("meet refused 5 before 6");
        }
    }
    (calls, coverage)
}
