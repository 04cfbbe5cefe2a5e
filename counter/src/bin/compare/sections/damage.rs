//! Damaged bytes: each byte set to all values, every length, random bytes, named faults; and forged tables that are well formed.

use counter::bytes::{record_size, table_size, table_to_bytes, MARK};
use counter::calls::{self, TableCall};
use counter::gen::damaged::damaged;
use counter::gen::forged::{forged_table, Relation};
use counter::gen::prng::Prng;
use counter::gen::tables::table_cases;
use counter::gen::SEED;

use super::{for_each_n, with_n, COPIES};
use crate::session::Session;

const TABLE_BYTE: &str = "a byte of a table set to a value";
const RECORD_BYTE: &str = "a byte of a record set to a value";
const TABLE_LENGTH: &str = "a table of every length from 0 to size + 2";
const RECORD_LENGTH: &str = "a record of every length from 0 to size + 2";
const RANDOM: &str = "random bytes, with and without a right header and length";
const FAULTS: &str = "named faults, one and two at a time";
const FORGED: &str = "forged tables with any symbols, every call";
const CASES: &str = "calls on forged and damaged tables";

pub fn kinds() -> Vec<String> {
    [
        TABLE_BYTE,
        RECORD_BYTE,
        TABLE_LENGTH,
        RECORD_LENGTH,
        RANDOM,
        FAULTS,
        FORGED,
        CASES,
    ]
    .map(for_each_n)
    .concat()
}

/// Up to here every byte is set to every value; above it, some are.
const WHOLE: usize = 3;

/// Places and values tried on one table or record of a larger N.
const SAMPLES: usize = 700;

/// Well-formed tables: from a history, and forged.
fn tables(prng: &mut Prng, n: usize) -> Vec<Vec<u8>> {
    let mut lived = vec![0; table_size(n)];
    calls::fresh(n, &mut lived).expect("the size is right");
    for _ in 0..10 * n {
        let (a, b) = prng.two_below(n);
        calls::update(&mut lived, a).expect("a copy");
        calls::update(&mut lived, b).expect("a copy");
        calls::meet(&mut lived, a, b).expect("a history");
    }
    let forged = |relation| table_to_bytes(&forged_table(prng, n, relation));
    let mut tables: Vec<Vec<u8>> = [Relation::Free, Relation::Level].map(forged).to_vec();
    tables.push(lived);
    tables
}

/// Places and values: all of them, or some.
fn settings(prng: &mut Prng, n: usize, size: usize) -> Vec<(usize, u8)> {
    if n <= WHOLE {
        let all = (0..size).flat_map(|at| (0..=255).map(move |value| (at, value)));
        return all.collect();
    }
    (0..SAMPLES)
        .map(|_| {
            let near = [
                0,
                1,
                n as u8,
                n as u8 + 1,
                (n * n) as u8 - 1,
                (n * n) as u8,
                0xFE,
                0xFF,
            ];
            let value = if prng.once_in(2) {
                prng.pick(&near)
            } else {
                prng.byte()
            };
            // A few of them in a header.
            let at = prng.below(size);
            let at = if prng.once_in(8) {
                at / record_size(n) * record_size(n) + at % 4
            } else {
                at
            };
            (at, value)
        })
        .collect()
}

fn bytes_set(session: &mut Session, prng: &mut Prng, n: usize) {
    let size = record_size(n);
    for table in tables(prng, n) {
        session.kind(&with_n(TABLE_BYTE, n));
        for (at, value) in settings(prng, n, table.len()) {
            let mut bytes = table.clone();
            bytes[at] = value;
            session.table_calls(n, &bytes);
        }
        session.kind(&with_n(RECORD_BYTE, n));
        let own = prng.below(n);
        let beside = (own + 1) % n;
        for (at, value) in settings(prng, n, size) {
            let mut bytes = table[own * size..(own + 1) * size].to_vec();
            bytes[at] = value;
            session.record_calls(&bytes, &table[beside * size..(beside + 1) * size]);
        }
    }
}

fn lengths(session: &mut Session, prng: &mut Prng, n: usize) {
    let size = record_size(n);
    let table = table_to_bytes(&forged_table(prng, n, Relation::Free));
    let mut long = table.clone();
    long.extend([0xFF, 0xB5]);
    session.kind(&with_n(TABLE_LENGTH, n));
    for length in 0..=long.len() {
        session.table_calls(n, &long[..length]);
        session.on(&long[..length], TableCall::Fresh(n));
    }
    session.kind(&with_n(RECORD_LENGTH, n));
    for length in 0..=size + 2 {
        // Behind record 1 stands more of the table, or the two bytes past it.
        session.record_calls(&long[size..size + length], &table[..size]);
    }
}

fn random(session: &mut Session, prng: &mut Prng, n: usize) {
    session.kind(&with_n(RANDOM, n));
    let beside = table_to_bytes(&forged_table(prng, n, Relation::Free)[..1]);
    for turn in 0..400 {
        let size = if turn % 2 == 0 {
            table_size(n)
        } else {
            record_size(n)
        };
        let length = if turn % 4 < 2 {
            size
        } else {
            prng.below(size + 40)
        };
        let mut bytes: Vec<u8> = (0..length).map(|_| prng.byte()).collect();
        let header = [MARK[0], MARK[1], n as u8, prng.below(n) as u8];
        let right = prng.below(5).min(length);
        bytes[..right].copy_from_slice(&header[..right]);
        session.table_calls(n, &bytes);
        session.record_calls(&bytes, &beside);
    }
}

fn faults(session: &mut Session, prng: &mut Prng, n: usize) {
    session.kind(&with_n(FAULTS, n));
    let beside = table_to_bytes(&forged_table(prng, n, Relation::Free)[..1]);
    for case in damaged(SEED, n, false, 6).0 {
        session.table_calls(n, &case.bytes);
    }
    for case in damaged(SEED, n, true, 12).0 {
        session.record_calls(&case.bytes, &beside);
    }
}

fn forged(session: &mut Session, prng: &mut Prng, n: usize) {
    session.kind(&with_n(FORGED, n));
    for relation in [Relation::RELATED.to_vec(), Relation::UNRELATED.to_vec()].concat() {
        for _ in 0..160 / (n * n) {
            session.every_call(n, &table_to_bytes(&forged_table(prng, n, relation)));
        }
    }
    session.kind(&with_n(CASES, n));
    let (cases, coverage) = table_cases(SEED, n, 2500);
    for case in cases {
        session.on(&case.table, case.call);
    }
    let missing = coverage.empty_kinds();
    let fact = with_n("every kind of forged table is among them", n);
    session.kinds.fact(fact, missing.is_empty());
}

pub fn run(session: &mut Session) {
    for n in COPIES {
        let mut prng = Prng::new(SEED ^ (n as u64) << 48);
        bytes_set(session, &mut prng, n);
        lengths(session, &mut prng, n);
        random(session, &mut prng, n);
        faults(session, &mut prng, n);
        forged(session, &mut prng, n);
    }
}
