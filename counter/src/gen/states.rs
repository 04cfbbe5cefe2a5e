//! The reachable states of one slice, breadth first from fresh, with counters carried along.

use std::collections::{HashMap, VecDeque};

use crate::model::{self, Record, Slice};

/// Slice 0 of every record. By symmetry slice 0 stands for all.
pub type State = Vec<Slice>;

/// The counter for copy 0 at each copy, as ranks: 0 is the oldest, no rank is left out.
pub type Ranks = Vec<usize>;

/// Ranks say all that updates, meetings and comparisons can tell of counters.
fn ranked(counters: &[usize]) -> Ranks {
    let mut values = counters.to_vec();
    values.sort();
    values.dedup();
    let rank = |c: &usize| values.iter().position(|v| v == c).expect("it is there");
    counters.iter().map(rank).collect()
}

/// The states one call away: an update of copy 0, or a meeting of any ordered pair.
fn next_states(n: usize, state: &State, ranks: &Ranks) -> Vec<(State, Ranks)> {
    let mut next = Vec::new();
    let mut updated = state.clone();
    updated[0] = model::update_slice(n, 0, &state[0]);
    let mut counters = ranks.clone();
    counters[0] += 1;
    next.push((updated, ranked(&counters)));
    for a in 0..n {
        for b in (0..n).filter(|&b| b != a) {
            let mut met = state.clone();
            let (of_a, of_b) = model::meet_slice(a, b, &state[a], &state[b]);
            met[a] = of_a;
            met[b] = of_b;
            let mut counters = ranks.clone();
            counters[a] = ranks[a].max(ranks[b]);
            counters[b] = counters[a];
            next.push((met, ranked(&counters)));
        }
    }
    next
}

/// The states in the order in which they are found; stops after `most`.
pub fn reachable(n: usize, most: usize) -> Vec<(State, Ranks)> {
    let fresh: State = vec![model::fresh_slice(n); n];
    let mut known = HashMap::from([(fresh.clone(), vec![0; n])]);
    let mut queue = VecDeque::from([fresh]);
    let mut found = Vec::new();
    while let Some(state) = queue.pop_front() {
        let ranks = known[&state].clone();
        for (next, next_ranks) in next_states(n, &state, &ranks) {
            if let Some(before) = known.get(&next) {
                // A state has the same ranks whatever history leads to it.
                assert_eq!(before, &next_ranks, "{next:?}");
            } else if known.len() < most {
                known.insert(next.clone(), next_ranks);
                queue.push_back(next);
            }
        }
        found.push((state, ranks));
    }
    found
}

/// The table whose slice 0 is this state and whose other slices are fresh.
pub fn table_of(n: usize, state: &State) -> Vec<Record> {
    let record = |own: usize| {
        let mut record = model::fresh_record(n, own);
        record.slices[0] = state[own].clone();
        record
    };
    (0..n).map(record).collect()
}
