//! Random histories on a table that the driver keeps, all pairs held to version vectors after every call.

use counter::bytes::table_size;
use counter::calls::TableCall;
use counter::gen::histories::history;
use counter::gen::prng::Prng;
use counter::gen::SEED;
use counter::vectors::VersionVectors;

use super::{for_each_n, with_n, COPIES};
use crate::session::Session;

const CALLS: &str = "random history";
const PAIRS: &str = "all pairs against version vectors";
const AWAY: &str = "a copy away for 3,000 calls of the others, and back";
const AWAY_PAIRS: &str = "pairs against version vectors around it";

/// Calls of a random history.
const LENGTH: usize = 1500;

/// Calls of the others while one copy is away, and how often the pairs are compared meanwhile.
const ABSENCE: usize = 3000;
const NOW_AND_THEN: usize = 50;

pub fn kinds() -> Vec<String> {
    [CALLS, PAIRS, AWAY, AWAY_PAIRS].map(for_each_n).concat()
}

/// What a call that was done does to the vectors.
fn follow(vectors: &mut VersionVectors, call: TableCall) {
    match call {
        TableCall::Fresh(n) => *vectors = VersionVectors::new(n),
        TableCall::Update(i) => vectors.update(i),
        TableCall::Meet(a, b) => vectors.meet(a, b),
        _ => {}
    }
}

fn compare_pairs(session: &mut Session, n: usize, vectors: &VersionVectors) {
    for a in 0..n {
        for b in 0..n {
            session.compared(a, b, vectors.compare(a, b));
        }
    }
}

fn random_history(session: &mut Session, n: usize) {
    let (calls, _) = history(SEED, n, LENGTH);
    let mut vectors = VersionVectors::new(n);
    session.kind(&with_n(CALLS, n));
    session.keep(vec![0; table_size(n)]);
    for call in calls {
        session.kind(&with_n(CALLS, n));
        if session.next(call) == 0 {
            follow(&mut vectors, call);
        }
        session.kind(&with_n(PAIRS, n));
        compare_pairs(session, n, &vectors);
    }
}

/// A call of the copies but the last: an update, or a meeting where there are two.
fn call_of_others(prng: &mut Prng, n: usize) -> TableCall {
    if n == 2 || prng.once_in(2) {
        return TableCall::Update(prng.below(n - 1));
    }
    let (a, b) = prng.two_below(n - 1);
    TableCall::Meet(a, b)
}

/// Copy N-1 is away for long, then updates, and meets each of the others.
fn away(session: &mut Session, n: usize) {
    let mut prng = Prng::new(SEED ^ (n as u64) << 40);
    let mut calls = vec![TableCall::Fresh(n), TableCall::Update(n - 1)];
    calls.extend((0..ABSENCE).map(|_| call_of_others(&mut prng, n)));
    calls.push(TableCall::Update(n - 1));
    calls.extend((0..n - 1).map(|i| TableCall::Meet(n - 1, i)));
    calls.extend((0..n - 1).rev().map(|i| TableCall::Meet(i, n - 1)));
    let back = calls.len() - 2 * n;
    let mut vectors = VersionVectors::new(n);
    session.kind(&with_n(AWAY, n));
    session.keep(vec![0; table_size(n)]);
    for (turn, call) in calls.into_iter().enumerate() {
        session.kind(&with_n(AWAY, n));
        if session.next(call) == 0 {
            follow(&mut vectors, call);
        }
        if turn % NOW_AND_THEN == 0 || turn >= back {
            session.kind(&with_n(AWAY_PAIRS, n));
            compare_pairs(session, n, &vectors);
        }
    }
}

pub fn run(session: &mut Session) {
    for n in COPIES {
        random_history(session, n);
        away(session, n);
    }
}
