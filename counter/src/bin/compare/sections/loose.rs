//! Two loose records, in all orders of refusals 1 to 8.

use counter::bytes::record_to_bytes;
use counter::gen::damaged::{damaged_record, Fault};
use counter::gen::forged::{forged_table, Relation};
use counter::gen::loose::loose_pairs;
use counter::gen::prng::Prng;
use counter::gen::SEED;

use super::{for_each_n, with_n, COPIES};
use crate::frames::Call;
use crate::session::Session;

const PAIRS: &str = "loose records, any two";

/// Both well formed: what is true of the pair.
const WELL_FORMED: [&str; 6] = [
    "related",
    "unrelated (7)",
    "same number (6)",
    "same number (6) and unrelated (7)",
    "different N (8)",
    "different N (8) and same number (6)",
];

/// One of the two damaged, or both: the numbers that apply, 0 for none.
fn damaged_kinds() -> Vec<(u8, u8)> {
    let all = (0..=4).flat_map(|first| (0..=4).map(move |second| (first, second)));
    all.filter(|&pair| pair != (0, 0)).collect()
}

fn damaged_name((first, second): (u8, u8)) -> String {
    let number = |k: u8| if k == 0 { "none".into() } else { k.to_string() };
    format!(
        "loose records: of the first {}, of the second {}",
        number(first),
        number(second)
    )
}

fn well_formed_name(kind: &str) -> String {
    format!("loose records: {kind}")
}

pub fn kinds() -> Vec<String> {
    let mut names = for_each_n(PAIRS);
    names.extend(WELL_FORMED.map(well_formed_name));
    names.extend(damaged_kinds().into_iter().map(damaged_name));
    names
}

fn both_calls(session: &mut Session, first: &[u8], second: &[u8]) {
    session.call(Call::CompareRecords, first, second);
    session.call(Call::MeetRecords, first, second);
}

/// A record that is refused with this number, or a well-formed one.
fn record(prng: &mut Prng, n: usize, number: u8) -> Vec<u8> {
    let faults: Vec<Fault> = Fault::OF_RECORD
        .into_iter()
        .filter(|fault| fault.refusal().number() == number)
        .collect();
    if faults.is_empty() {
        let own = prng.below(n);
        return record_to_bytes(&forged_table(prng, n, Relation::Free)[own]);
    }
    let fault = prng.pick(&faults);
    damaged_record(prng, n, fault).bytes
}

/// Two well-formed records of this kind.
fn well_formed(prng: &mut Prng, n: usize, kind: &str) -> [Vec<u8>; 2] {
    let related = prng.pick(&Relation::RELATED);
    let unrelated = prng.pick(&Relation::UNRELATED);
    let other_n = 2 + (n - 1) % 7;
    let number = prng.below(n.min(other_n));
    let two = prng.two_below(n);
    let of = |prng: &mut Prng, n, relation, own: usize| {
        record_to_bytes(&forged_table(prng, n, relation)[own])
    };
    match kind {
        "same number (6)" => {
            let one = of(prng, n, related, number);
            [one.clone(), one]
        }
        "same number (6) and unrelated (7)" => loop {
            // Two forged records of one number: mostly some slice is unrelated.
            let (one, other) = (of(prng, n, related, number), of(prng, n, related, number));
            let rows = |bytes: &[u8]| counter::bytes::record_from_bytes(bytes).expect("forged");
            if counter::model::compare(&rows(&one), &rows(&other)).is_err() {
                return [one, other];
            }
        },
        "different N (8) and same number (6)" => [
            of(prng, n, related, number),
            of(prng, other_n, related, number),
        ],
        "different N (8)" => {
            let other = (number + 1) % other_n;
            [
                of(prng, n, related, number),
                of(prng, other_n, related, other),
            ]
        }
        _ => loop {
            let relation = if kind == "related" {
                related
            } else {
                unrelated
            };
            let table = forged_table(prng, n, relation);
            let unrelated_pair = counter::model::compare(&table[two.0], &table[two.1]).is_err();
            if unrelated_pair == relation.is_unrelated() {
                return [
                    record_to_bytes(&table[two.0]),
                    record_to_bytes(&table[two.1]),
                ];
            }
        },
    }
}

pub fn run(session: &mut Session) {
    for n in COPIES {
        session.kind(&with_n(PAIRS, n));
        for pair in loose_pairs(SEED, n, 1500).0 {
            both_calls(session, &pair.first, &pair.second);
        }
        let mut prng = Prng::new(SEED ^ (n as u64) << 56);
        for kind in WELL_FORMED {
            session.kind(&well_formed_name(kind));
            for _ in 0..60 {
                let [first, second] = well_formed(&mut prng, n, kind);
                both_calls(session, &first, &second);
                both_calls(session, &second, &first);
            }
        }
        for numbers in damaged_kinds() {
            session.kind(&damaged_name(numbers));
            for _ in 0..30 {
                let first = record(&mut prng, n, numbers.0);
                let second = record(&mut prng, n, numbers.1);
                both_calls(session, &first, &second);
            }
        }
    }
}
