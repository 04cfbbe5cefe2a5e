//! The bench sheet's cases, each reached through the library's own calls.

use counter::bytes::{table_size, table_to_bytes};
use counter::calls::TableCall::{self, Check, Compare, Fresh, Lend, Meet, Superfluous, Update};
use counter::model::Record;
use counter::notation;

use crate::session::Session;

/// A case: its name, N, the calls that lead to it from fresh.
type Reached = (&'static str, usize, &'static [TableCall]);

const U0: TableCall = Update(0);

/// P1 to P8 and P12, and what the sheet says beside them.
const REACHED: [Reached; 9] = [
    ("P1", 2, &[]),
    ("P2", 2, &[U0]),
    ("P3", 2, &[U0, U0]),
    ("P4", 2, &[U0, U0, U0]),
    ("P5", 2, &[U0, U0, U0, Meet(0, 1)]),
    ("P6", 2, &[U0, U0, U0, Meet(0, 1), U0]),
    ("P7", 3, &[U0, Update(2), Meet(1, 2), Meet(0, 1)]),
    (
        "P8",
        3,
        &[U0, Update(2), Meet(1, 2), Meet(0, 1), Meet(1, 2)],
    ),
    ("P12", 3, &[U0]),
];

/// P9 to P11: two copies, slice 0 forged.
const FORGED: [(&str, [&str; 2]); 3] = [
    ("P9", ["1 / 1", "2 / 2"]),
    ("P10", ["1 2 / 2", "1 / 2 1"]),
    ("P11", ["1 / 0", "0 / 0"]),
];

const FRESH_N: &str = "fresh with N = 1 or 9";
const LENGTHS: &str = "N = 8 with 4,639 or 4,641 bytes";
const COPY_8: &str = "copy 8 of 8, and copy 7";

fn named(name: &str) -> String {
    format!("bench sheet: {name}")
}

pub fn kinds() -> Vec<String> {
    let reached = REACHED.map(|(name, _, _)| name);
    let forged = FORGED.map(|(name, _)| name);
    let all = reached
        .iter()
        .chain(&forged)
        .chain(&[FRESH_N, LENGTHS, COPY_8]);
    all.map(|name| named(name)).collect()
}

pub fn run(session: &mut Session) {
    for (name, n, calls) in REACHED {
        session.kind(&named(name));
        session.keep(vec![0xAA; table_size(n)]);
        session.next(Fresh(n));
        for &call in calls {
            session.next(call);
        }
        let table = session.kept().to_vec();
        session.every_call(n, &table);
    }
    for (name, slices) in FORGED {
        session.kind(&named(name));
        let record = |own: usize| notation::record(own, &[slices[own], "0 / 0"]);
        let records: Vec<Record> = (0..2).map(record).collect();
        session.every_call(2, &table_to_bytes(&records));
    }
    session.kind(&named(FRESH_N));
    for n in [1, 9] {
        session.on(&vec![0xAA; table_size(n)], Fresh(n));
    }
    session.kind(&named(LENGTHS));
    session.keep(vec![0xAA; table_size(8)]);
    session.next(Fresh(8));
    let whole = session.kept().to_vec();
    for length in [4639, 4641] {
        let mut room = whole.clone();
        room.resize(length, 0xFF);
        for call in [Check, Fresh(8), Update(0), Superfluous] {
            session.on(&room, call);
        }
    }
    session.kind(&named(COPY_8));
    for i in [8, 7] {
        for call in [
            Update(i),
            Meet(0, i),
            Meet(i, 0),
            Compare(i, 0),
            Compare(0, i),
            Lend(i),
        ] {
            session.on(&whole, call);
        }
    }
}
