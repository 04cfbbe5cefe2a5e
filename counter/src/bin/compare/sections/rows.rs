//! Rows written and read: each kind of fault, junk beyond N, and what was written read again.

use counter::bytes::record_size;
use counter::gen::prng::Prng;
use counter::gen::rows::rows_cases;
use counter::gen::SEED;

use super::{for_each_n, with_n, COPIES};
use crate::expected::rows_bytes;
use crate::frames::Call;
use crate::session::Session;

const WRITTEN: &str = "rows written, and read again where they were accepted";
const LENGTHS: &str = "rows written into every length from 0 to size + 2";

pub fn kinds() -> Vec<String> {
    [WRITTEN, LENGTHS].map(for_each_n).concat()
}

pub fn run(session: &mut Session) {
    for n in COPIES {
        let (cases, coverage) = rows_cases(SEED, n, 25);
        session.kind(&with_n(WRITTEN, n));
        for case in &cases {
            let (n, own) = (case.rows.n, case.rows.own);
            let after = session.call(
                Call::WriteRows { n, own },
                &case.buffer,
                &rows_bytes(&case.rows),
            );
            session.read(&after.first);
        }
        let fact = with_n("every kind of rows is among them", n);
        session.kinds.fact(fact, coverage.empty_kinds().is_empty());
        session.kind(&with_n(LENGTHS, n));
        let mut prng = Prng::new(SEED ^ n as u64);
        let good = cases
            .iter()
            .find(|case| case.refusal.is_none())
            .expect("some are well formed");
        for length in 0..=record_size(n) + 2 {
            let room: Vec<u8> = (0..length).map(|_| prng.byte()).collect();
            session.call(
                Call::WriteRows {
                    n,
                    own: good.rows.own,
                },
                &room,
                &rows_bytes(&good.rows),
            );
        }
    }
}
