//! Every reachable state of a slice at N = 2 and N = 3, and every call from it.

use counter::bytes::table_to_bytes;
use counter::gen::states::{reachable, table_of};

use super::with_n;
use crate::session::Session;

const KIND: &str = "every call from every reachable slice state";

/// How many states there are.
const STATES: [(usize, usize); 2] = [(2, 9), (3, 4755)];

pub fn kinds() -> Vec<String> {
    STATES.map(|(n, _)| with_n(KIND, n)).to_vec()
}

pub fn run(session: &mut Session) {
    for (n, count) in STATES {
        session.kind(&with_n(KIND, n));
        let states = reachable(n, usize::MAX);
        for (state, _) in &states {
            session.every_call(n, &table_to_bytes(&table_of(n, state)));
        }
        let fact = with_n(&format!("{} reachable slice states", states.len()), n);
        session.kinds.fact(fact, states.len() == count);
    }
}
