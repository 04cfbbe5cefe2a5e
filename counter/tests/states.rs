//! All reachable states of one slice at N = 2 and N = 3, with counters carried along.

use std::collections::HashSet;

use counter::answers::SliceAnswer;
use counter::gen::states::{self, Ranks, State};
use counter::model::{self, Row};

/// The principal rows of the slice.
fn principal_rows(state: &State) -> Vec<&Row> {
    (0..state.len()).map(|i| &state[i][i]).collect()
}

/// Comparisons agree with the counters, so no pair is unrelated; a new symbol is really new.
fn assert_state_is_right(n: usize, state: &State, ranks: &Ranks) {
    let rows = principal_rows(state);
    for a in 0..n {
        for b in 0..n {
            let expected = match ranks[a].cmp(&ranks[b]) {
                std::cmp::Ordering::Equal => SliceAnswer::Level,
                std::cmp::Ordering::Less => SliceAnswer::Behind,
                std::cmp::Ordering::Greater => SliceAnswer::Ahead,
            };
            let found = model::slice_answer(rows[a], rows[b]);
            assert_eq!(found, expected, "{a} against {b} in {state:?}");
        }
    }
    let new = model::new_symbol(n, &state[0]);
    assert!(rows.iter().all(|row| !row.contains(&new)), "{state:?}");
    let in_use: HashSet<&u8> = state[0].iter().flatten().collect();
    assert!(in_use.len() <= n * n - n + 1);
}

/// The reachable states, each checked.
fn reachable(n: usize, most: usize) -> usize {
    let found = states::reachable(n, most);
    for (state, ranks) in &found {
        assert_state_is_right(n, state, ranks);
    }
    found.len()
}

#[test]
fn two_copies_have_9_states() {
    assert_eq!(reachable(2, usize::MAX), 9);
}

#[test]
fn three_copies_have_4755_states() {
    assert_eq!(reachable(3, usize::MAX), 4755);
}

#[test]
fn four_copies_first_60000_states() {
    assert_eq!(reachable(4, 60_000), 60_000);
}
