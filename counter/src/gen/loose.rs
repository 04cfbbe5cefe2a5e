//! Pairs of loose records: related, unrelated, of the same number, of different N, damaged.

use super::coverage::Coverage;
use super::damaged::{damaged_record, Fault};
use super::forged::{forged_table, Relation};
use super::prng::Prng;
use crate::bytes::{record_from_bytes, record_to_bytes};
use crate::calls;
use crate::model;

/// Two loose records as they lie in a dock.
#[derive(Clone, Debug, PartialEq, Eq)]
pub struct LoosePair {
    pub first: Vec<u8>,
    pub second: Vec<u8>,
}

/// The kinds that the report announces.
pub fn kinds() -> Vec<String> {
    let mut kinds: Vec<String> = [
        "meet done",
        "compare equal",
        "compare older",
        "compare newer",
        "compare conflicting",
        "8 before 6",
        "6 before 7",
        "both damaged, the second's number smaller",
    ]
    .map(String::from)
    .to_vec();
    for call in ["meet", "compare"] {
        for number in [6, 7, 8] {
            kinds.push(format!("{call} refused {number}"));
        }
        for number in 1..=4 {
            kinds.push(format!("{call} refused {number} for the first"));
            kinds.push(format!("{call} refused {number} for the second"));
        }
    }
    kinds
}

/// A pair whose records are both well formed.
fn well_formed_pair(prng: &mut Prng, n: usize) -> LoosePair {
    let relation = match prng.below(8) {
        0..=5 => prng.pick(&Relation::RELATED),
        _ => prng.pick(&Relation::UNRELATED),
    };
    let table = forged_table(prng, n, relation);
    let (a, b) = prng.two_below(n);
    let first = record_to_bytes(&table[a]);
    let second = match prng.below(8) {
        0 => record_to_bytes(&forged_table(prng, n, Relation::Free)[a]),
        1 => {
            let other_n = 2 + (n - 2 + 1 + prng.below(6)) % 7;
            let other = forged_table(prng, other_n, Relation::Free);
            record_to_bytes(&other[prng.below(other_n.min(n))])
        }
        _ => record_to_bytes(&table[b]),
    };
    LoosePair { first, second }
}

/// Any pair.
fn pair(prng: &mut Prng, n: usize) -> LoosePair {
    let mut pair = well_formed_pair(prng, n);
    let damage_which = prng.below(9);
    if damage_which == 0 || damage_which == 2 {
        let fault = prng.pick(&Fault::OF_RECORD);
        pair.first = damaged_record(prng, n, fault).bytes;
    }
    if damage_which == 1 || damage_which == 2 {
        let fault = prng.pick(&Fault::OF_RECORD);
        pair.second = damaged_record(prng, n, fault).bytes;
    }
    pair
}

/// The name of a refusal of a pair: 1 to 4 with the record it is for.
fn refusal_name(pair: &LoosePair, number: u8) -> String {
    if number > 4 {
        return format!("refused {number}");
    }
    let of_first = record_from_bytes(&pair.first).is_err();
    let which = if of_first { "first" } else { "second" };
    format!("refused {number} for the {which}")
}

/// Reports one pair.
fn note_pair(coverage: &mut Coverage, pair: &LoosePair) {
    let compared = match calls::compare_records(&pair.first, &pair.second) {
        Ok(answer) => answer.name().to_string(),
        Err(refusal) => refusal_name(pair, refusal.number()),
    };
    coverage.note(&format!("compare {compared}"));
    let (mut first, mut second) = (pair.first.clone(), pair.second.clone());
    let met = match calls::meet_records(&mut first, &mut second) {
        Ok(()) => "done".to_string(),
        Err(refusal) => refusal_name(pair, refusal.number()),
    };
    coverage.note(&format!("meet {met}"));
    match (
        record_from_bytes(&pair.first),
        record_from_bytes(&pair.second),
    ) {
        (Ok(a), Ok(b)) if a.n != b.n && a.own == b.own => coverage.note("8 before 6"),
        (Ok(a), Ok(b)) if a.n == b.n && a.own == b.own && model::compare(&a, &b).is_err() => {
            coverage.note("6 before 7")
        }
        (Err(a), Err(b)) if b < a => coverage.note("both damaged, the second's number smaller"),
        _ => {}
    }
}

/// Pairs of loose records, the first mostly of N copies.
pub fn loose_pairs(seed: u64, n: usize, count: usize) -> (Vec<LoosePair>, Coverage) {
    let mut prng = Prng::new(seed ^ (n as u64) << 24);
    let mut coverage = Coverage::expecting(kinds());
    let mut pairs = Vec::new();
    for _ in 0..count {
        let pair = pair(&mut prng, n);
        note_pair(&mut coverage, &pair);
        pairs.push(pair);
    }
    (pairs, coverage)
}
