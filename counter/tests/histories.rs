//! Stamps against counters: random histories, and a site that stays away for long.

use std::collections::HashMap;

use counter::bytes::{table_from_bytes, table_size};
use counter::calls::{self, Outcome, TableCall};
use counter::gen::histories::history;
use counter::gen::prng::Prng;
use counter::gen::SEED;
use counter::model::{self, Record};
use counter::vectors::VersionVectors;

/// Stamps and counters of one history, step by step.
struct Both {
    n: usize,
    stamps: Vec<Record>,
    counters: VersionVectors,
    /// How often each symbol was given, by copy and symbol.
    given: HashMap<(usize, u8), usize>,
}

impl Both {
    fn new(n: usize) -> Both {
        Both {
            n,
            stamps: model::fresh_table(n),
            counters: VersionVectors::new(n),
            given: HashMap::new(),
        }
    }

    fn update(&mut self, p: usize) {
        let new = model::new_symbol(self.n, &self.stamps[p].slices[p]);
        for record in &self.stamps {
            assert!(!record.principal_row(p).contains(&new), "not free");
        }
        *self.given.entry((p, new)).or_insert(0) += 1;
        self.stamps[p] = model::update(&self.stamps[p]);
        assert_eq!(self.stamps[p].principal_row(p)[0], new);
        self.counters.update(p);
    }

    fn meet(&mut self, a: usize, b: usize) {
        let met = model::meet(&self.stamps[a], &self.stamps[b]);
        let (of_a, of_b) = met.expect("a history from fresh is never refused 7");
        self.stamps[a] = of_a;
        self.stamps[b] = of_b;
        self.counters.meet(a, b);
    }

    fn assert_agree(&self) {
        for a in 0..self.n {
            for b in 0..self.n {
                let by_stamps = model::compare(&self.stamps[a], &self.stamps[b]);
                let by_counters = self.counters.compare(a, b);
                assert_eq!(by_stamps, Ok(by_counters), "{a} against {b}");
            }
        }
        let list = model::superfluous(&self.stamps);
        assert_eq!(list, Ok(self.counters.superfluous()));
    }

    /// Updates that took a symbol given before.
    fn reuses(&self) -> usize {
        self.given.values().map(|times| times - 1).sum()
    }
}

/// One random call; of the copies only those at home take part.
fn step(prng: &mut Prng, both: &mut Both, at_home: &[usize]) {
    let a = prng.pick(at_home);
    let b = prng.pick(at_home);
    if a == b || prng.once_in(3) {
        both.update(a);
    } else {
        both.meet(a, b);
    }
}

#[test]
fn random_histories_agree_with_counters() {
    for n in 2..=8 {
        let everyone: Vec<usize> = (0..n).collect();
        for round in 0..6 {
            let mut prng = Prng::new(SEED + 100 * n as u64 + round);
            let mut both = Both::new(n);
            both.assert_agree();
            for _ in 0..1500 {
                step(&mut prng, &mut both, &everyone);
                both.assert_agree();
            }
            assert!(both.reuses() > 100, "symbols come back");
        }
    }
}

#[test]
fn random_histories_with_rare_meetings_agree_with_counters() {
    for n in 3..=8 {
        let mut prng = Prng::new(SEED ^ n as u64);
        let mut both = Both::new(n);
        for _ in 0..3000 {
            // Small circles that change keep old knowledge about for long.
            let (a, b) = prng.two_below(n);
            for _ in 0..prng.below(4) {
                step(&mut prng, &mut both, &[a, b]);
                both.assert_agree();
            }
        }
    }
}

#[test]
fn histories_through_the_bytes_agree_with_counters() {
    for n in 2..=8 {
        let (list, _) = history(SEED, n, 600);
        let mut table = vec![0; table_size(n)];
        let mut counters = VersionVectors::new(n);
        for call in list {
            let outcome = calls::answer(&mut table, call);
            let refused = matches!(outcome, Outcome::Refused(_));
            let valid = match call {
                TableCall::Fresh(other) => other == n,
                TableCall::Update(i) | TableCall::Lend(i) => i < n,
                TableCall::Meet(a, b) => a < n && b < n && a != b,
                TableCall::Compare(a, b) => a < n && b < n,
                TableCall::Check | TableCall::Superfluous => true,
            };
            assert_eq!(refused, !valid, "{call:?}");
            if !valid {
                continue;
            }
            match call {
                TableCall::Fresh(_) => counters = VersionVectors::new(n),
                TableCall::Update(i) => counters.update(i),
                TableCall::Meet(a, b) => counters.meet(a, b),
                TableCall::Compare(a, b) => {
                    assert_eq!(outcome, Outcome::Compared(counters.compare(a, b)));
                }
                TableCall::Superfluous => {
                    assert_eq!(outcome, Outcome::Listed(counters.superfluous()));
                }
                TableCall::Check | TableCall::Lend(_) => {}
            }
            let records = table_from_bytes(&table).expect("it stays well formed");
            for a in 0..n {
                for b in 0..n {
                    let by_stamps = model::compare(&records[a], &records[b]);
                    assert_eq!(by_stamps, Ok(counters.compare(a, b)), "{call:?}");
                }
            }
        }
    }
}

#[test]
fn a_site_returns_after_thousands_of_reuses() {
    for n in 2..=8 {
        for away in [0, n - 1] {
            let mut prng = Prng::new(SEED + (10 * n + away) as u64);
            let mut both = Both::new(n);
            let everyone: Vec<usize> = (0..n).collect();
            for _ in 0..100 {
                step(&mut prng, &mut both, &everyone);
            }
            // It leaves with an update that nobody knows.
            both.update(away);
            let at_home: Vec<usize> = (0..n).filter(|&i| i != away).collect();
            let reuses_before = both.reuses();
            while both.reuses() < reuses_before + 4000 {
                step(&mut prng, &mut both, &at_home);
                if prng.once_in(40) {
                    both.assert_agree();
                }
                // The one that is away goes on working alone.
                if prng.once_in(50) {
                    both.update(away);
                }
            }
            both.assert_agree();
            both.meet(prng.pick(&at_home), away);
            both.assert_agree();
            for _ in 0..300 {
                step(&mut prng, &mut both, &everyone);
                both.assert_agree();
            }
        }
    }
}

#[test]
fn version_vectors_as_in_table_2_2() {
    let mut counters = VersionVectors::new(3);
    counters.update(0);
    assert_eq!(counters.vectors, [[1, 0, 0], [0, 0, 0], [0, 0, 0]]);
    counters.update(2);
    assert_eq!(counters.vectors, [[1, 0, 0], [0, 0, 0], [0, 0, 1]]);
    counters.meet(1, 2);
    assert_eq!(counters.vectors, [[1, 0, 0], [0, 0, 1], [0, 0, 1]]);
    counters.meet(0, 1);
    assert_eq!(counters.vectors, [[1, 0, 1], [1, 0, 1], [0, 0, 1]]);
    counters.meet(1, 2);
    assert_eq!(counters.vectors, [[1, 0, 1], [1, 0, 1], [1, 0, 1]]);
}
