//! Numbers of any size, on a good table and on a damaged one.

use counter::bytes::{record_size, rows_from_record, table_size, table_to_bytes};
use counter::calls::TableCall;
use counter::gen::forged::{forged_table, Relation};
use counter::gen::prng::Prng;
use counter::gen::SEED;

use super::{for_each_n, with_n, COPIES};
use crate::expected::rows_bytes;
use crate::frames::Call;
use crate::session::Session;

const KIND: &str = "numbers of any size";

pub fn kinds() -> Vec<String> {
    for_each_n(KIND)
}

/// Numbers below N, at N, and such that their low bytes alone would be a good one.
fn numbers(n: usize) -> Vec<usize> {
    let top = usize::MAX / 2 + 1;
    vec![
        0,
        1,
        n - 1,
        n,
        n + 1,
        8,
        9,
        255,
        256,
        257,
        1 << 16,
        1 << 32,
        (1 << 32) + 1,
        top,
        top + n,
        usize::MAX,
    ]
}

pub fn run(session: &mut Session) {
    for n in COPIES {
        session.kind(&with_n(KIND, n));
        let mut prng = Prng::new(SEED ^ (n as u64) << 12);
        let table = forged_table(&mut prng, n, Relation::Free);
        let rows = rows_from_record(&table[0]);
        let table = table_to_bytes(&table);
        let mut damaged = table.clone();
        damaged[record_size(n)] ^= 1;
        for x in numbers(n) {
            for bytes in [&table, &damaged] {
                session.on(bytes, TableCall::Update(x));
                session.on(bytes, TableCall::Lend(x));
                for y in numbers(n) {
                    session.on(bytes, TableCall::Meet(x, y));
                    session.on(bytes, TableCall::Compare(x, y));
                }
            }
            session.on(&vec![0xAA; table_size(n)], TableCall::Fresh(x));
            for y in numbers(n) {
                let room = vec![0xAA; record_size(n)];
                session.call(Call::WriteRows { n: x, own: y }, &room, &rows_bytes(&rows));
            }
        }
    }
}
