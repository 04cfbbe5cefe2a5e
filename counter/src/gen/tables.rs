//! Calls on single tables: forged related, forged unrelated and damaged ones.

use super::coverage::Coverage;
use super::damaged::{damaged_table, Fault};
use super::forged::{forged_table, Relation};
use super::prng::Prng;
use super::{call_name, comparison_names, n_out_of_range, number_out_of_range, outcome_name};
use crate::answers::SliceAnswer;
use crate::bytes::{table_from_bytes, table_to_bytes};
use crate::calls::{self, Outcome, TableCall};
use crate::model::{self, head, Record};

/// One table as it is lent, and one call on it.
#[derive(Clone, Debug, PartialEq, Eq)]
pub struct TableCase {
    pub n: usize,
    pub table: Vec<u8>,
    pub call: TableCall,
}

/// The kinds that the report announces for this N.
pub fn kinds(n: usize) -> Vec<String> {
    let mut kinds: Vec<String> = [
        "fresh done",
        "fresh refused 2",
        "fresh refused 3",
        "check done",
        "update done",
        "meet done",
        "compare with itself equal",
        "lend lent",
        "superfluous none",
        "superfluous some",
        "superfluous all",
        "both heads found",
        "neither head found",
        "symbols in the upper half",
        "the greatest symbol",
        "new symbol in the upper half",
        "cached rows alone hold a smaller symbol",
        "b wins level",
        "b wins behind",
        "a wins",
        "W has a smaller number before a greater",
    ]
    .map(String::from)
    .to_vec();
    kinds.extend(comparison_names().map(|name| format!("compare {name}")));
    let refused = |call: &str, numbers: &[u8]| -> Vec<String> {
        let kind = |number| format!("{call} refused {number}");
        numbers.iter().map(kind).collect()
    };
    kinds.extend(refused("check", &[1, 2, 3, 4]));
    kinds.extend(refused("update", &[1, 2, 3, 4, 5]));
    kinds.extend(refused("meet", &[1, 2, 3, 4, 5, 6, 7]));
    kinds.extend(refused("compare", &[1, 2, 3, 4, 5, 7]));
    kinds.extend(refused("compare with itself", &[1, 2, 3, 4, 5]));
    kinds.extend(refused("lend", &[1, 2, 3, 4, 5]));
    kinds.extend(refused("superfluous", &[1, 2, 3, 4, 7]));
    if n > 2 {
        // With two copies no row is other than those of the pair.
        let of_other_rows = [
            "x isn't in W",
            "x stands earlier in W",
            "y stands earlier in W",
            "the same head, another row",
            "takes the other record's row",
            "naming the other first gives other bytes",
        ];
        kinds.extend(of_other_rows.map(String::from));
        // With two copies an unrelated pair is every pair.
        kinds.push("a pair meets beside an unrelated one".into());
    }
    kinds
}

/// How many shapes of call there are; the more frequent ones count more than once.
const SHAPES: usize = 32;

/// A call of this shape; numbers are mostly copies'.
fn call(prng: &mut Prng, n: usize, shape: usize) -> TableCall {
    let (a, b) = prng.two_below(n);
    let far = number_out_of_range(prng, n);
    match shape {
        0 => TableCall::Fresh(n),
        1 => TableCall::Fresh(2 + (n - 1) % 7),
        2 => TableCall::Fresh(n_out_of_range(prng)),
        3 => TableCall::Check,
        4..=8 => TableCall::Update(a),
        9 => TableCall::Update(far),
        10..=16 => TableCall::Meet(a, b),
        17 => TableCall::Meet(a, a),
        18 => TableCall::Meet(far, far),
        19 => TableCall::Meet(a, far),
        20 => TableCall::Meet(far, b),
        21..=23 => TableCall::Compare(a, b),
        24 => TableCall::Compare(a, a),
        25 => prng.pick(&[TableCall::Compare(a, far), TableCall::Compare(far, a)]),
        26 => TableCall::Compare(far, far),
        27 => TableCall::Lend(a),
        28 => TableCall::Lend(far),
        _ => TableCall::Superfluous,
    }
}

/// Whether some pair is unrelated in some slice.
fn has_unrelated_pair(table: &[Record]) -> bool {
    let pairs = |a: &Record| table.iter().any(|b| model::compare(a, b).is_err());
    table.iter().any(pairs)
}

/// Reports what an accepted update comes upon.
fn note_update(coverage: &mut Coverage, n: usize, record: &Record) {
    let p = record.own;
    let slice = &record.slices[p];
    if model::new_symbol(n, slice) as usize >= n * n / 2 {
        coverage.note("new symbol in the upper half");
    }
    let in_cached_rows_only = |s: u8| {
        let held = slice.iter().any(|row| row.contains(&s));
        held && !slice[p].contains(&s)
    };
    if (0..model::new_symbol(n, slice)).any(in_cached_rows_only) {
        coverage.note("cached rows alone hold a smaller symbol");
    }
}

/// Reports what an accepted meeting comes upon.
fn note_meeting(coverage: &mut Coverage, a: &Record, b: &Record) {
    let n = a.n;
    for p in 0..n {
        let (a_row, b_row) = (a.principal_row(p), b.principal_row(p));
        let b_wins = model::b_wins(a_row, b_row);
        coverage.note(match model::slice_answer(a_row, b_row) {
            SliceAnswer::Level => "b wins level",
            SliceAnswer::Behind => "b wins behind",
            _ => "a wins",
        });
        let (w, loser, winner) = if b_wins { (b_row, a, b) } else { (a_row, b, a) };
        if w.windows(2).any(|pair| pair[0] < pair[1]) {
            coverage.note("W has a smaller number before a greater");
        }
        for k in (0..n).filter(|&k| k != a.own && k != b.own) {
            let (lost, won) = (&loser.slices[p][k], &winner.slices[p][k]);
            let (x, y) = (head(lost), head(won));
            if x == y {
                if lost != won {
                    coverage.note("the same head, another row");
                }
                continue;
            }
            coverage.note("takes the other record's row");
            coverage.note(match model::new_head(x, y, w) {
                _ if !w.contains(&x) => "x isn't in W",
                chosen if chosen == x => "x stands earlier in W",
                _ => "y stands earlier in W",
            });
        }
    }
    let there = model::meet(a, b);
    let back = model::meet(b, a).map(|(b, a)| (a, b));
    if there != back {
        coverage.note("naming the other first gives other bytes");
    }
}

/// Reports one case.
fn note_case(coverage: &mut Coverage, case: &TableCase) {
    let n = case.n;
    let outcome = calls::answer(&mut case.table.clone(), case.call);
    let names = (call_name(case.call), outcome_name(n, outcome));
    coverage.note(&format!("{} {}", names.0, names.1));
    let Ok(table) = table_from_bytes(&case.table) else {
        return;
    };
    let rows = || {
        table
            .iter()
            .flat_map(|record| record.slices.iter().flatten())
    };
    let symbols = || rows().flatten().map(|&s| s as usize);
    let high = symbols().filter(|&s| s >= n * n / 2).count();
    let greatest = symbols().filter(|&s| s == n * n - 1).count();
    coverage.note_times("symbols in the upper half", high);
    coverage.note_times("the greatest symbol", greatest);
    match (case.call, outcome) {
        (TableCall::Update(i), Outcome::Done) => note_update(coverage, n, &table[i]),
        (TableCall::Meet(a, b), Outcome::Done) => {
            note_meeting(coverage, &table[a], &table[b]);
            if has_unrelated_pair(&table) {
                coverage.note("a pair meets beside an unrelated one");
            }
        }
        (TableCall::Meet(a, b) | TableCall::Compare(a, b), Outcome::Refused(_))
            if a < n && b < n =>
        {
            for p in 0..n {
                let (a_row, b_row) = (table[a].principal_row(p), table[b].principal_row(p));
                if model::slice_answer(a_row, b_row) == SliceAnswer::Unrelated {
                    let found = b_row.contains(&head(a_row));
                    coverage.note(if found {
                        "both heads found"
                    } else {
                        "neither head found"
                    });
                }
            }
        }
        _ => {}
    }
}

/// Calls on tables of N copies: every call on every fault, then `count` on forged tables.
pub fn table_cases(seed: u64, n: usize, count: usize) -> (Vec<TableCase>, Coverage) {
    let mut prng = Prng::new(seed ^ (n as u64) << 16);
    let mut cases = Vec::new();
    for fault in Fault::of_table() {
        for shape in 0..SHAPES {
            let call = call(&mut prng, n, shape);
            let table = damaged_table(&mut prng, n, fault).bytes;
            cases.push(TableCase { n, table, call });
        }
    }
    for _ in 0..count {
        let shape = prng.below(SHAPES);
        let call = call(&mut prng, n, shape);
        let relation = if prng.below(3) < 2 {
            prng.pick(&Relation::RELATED)
        } else {
            prng.pick(&Relation::UNRELATED)
        };
        let table = table_to_bytes(&forged_table(&mut prng, n, relation));
        cases.push(TableCase { n, table, call });
    }
    let mut coverage = Coverage::expecting(kinds(n));
    for case in &cases {
        note_case(&mut coverage, case);
    }
    (cases, coverage)
}
