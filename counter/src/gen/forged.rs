//! Forged tables: well formed and with rows that no history need ever make.

use super::prng::Prng;
use crate::model::{Record, Row, Slice};

/// How the copies of a forged table stand to each other.
#[derive(Clone, Copy, Debug, PartialEq, Eq)]
pub enum Relation {
    /// Every pair is level in every slice.
    Level,
    /// One order of all copies, the same in every slice, level in places.
    Chain,
    /// In slice p copy p is ahead of all others, so every pair is conflicting.
    Apart,
    /// Any slice either way; what is newer needn't pass on along three copies.
    Free,
    /// In some slice the pair's heads are both found and differ.
    UnrelatedBothFound,
    /// In some slice neither of the pair's heads is found.
    UnrelatedNeitherFound,
}

impl Relation {
    pub const RELATED: [Relation; 4] = [
        Relation::Level,
        Relation::Chain,
        Relation::Apart,
        Relation::Free,
    ];
    pub const UNRELATED: [Relation; 2] = [
        Relation::UnrelatedBothFound,
        Relation::UnrelatedNeitherFound,
    ];

    pub fn is_unrelated(self) -> bool {
        Relation::UNRELATED.contains(&self)
    }
}

/// What the principal rows of one slice have to be like, copy by copy.
struct Plan {
    /// The head of each copy's principal row.
    heads: Row,
    /// Whether copy x's principal row holds the head of copy y.
    knows: Vec<Vec<bool>>,
}

/// Symbols to draw from: all, the high ones, or just enough to make rows overlap.
fn pool(prng: &mut Prng, n: usize) -> Row {
    let all: Row = (0..(n * n) as u8).collect();
    let high: Row = all[n * n - (2 * n).min(n * n)..].to_vec();
    let mut few = all.clone();
    prng.shuffle(&mut few);
    few.truncate(n + 2);
    let mut pool = prng.pick(&[all, high, few]);
    prng.shuffle(&mut pool);
    pool
}

/// The level of each copy in slice p; copies on one level have one head.
fn levels(prng: &mut Prng, n: usize, p: usize, relation: Relation, order: &[usize]) -> Vec<usize> {
    match relation {
        Relation::Level => vec![0; n],
        Relation::Chain => {
            // Levels rise with the order by 0 or 1, so the order holds in every slice.
            let mut levels = vec![0; n];
            for rank in 1..n {
                levels[order[rank]] = levels[order[rank - 1]] + prng.below(2);
            }
            levels
        }
        Relation::Apart => {
            let mut levels: Vec<usize> = (0..n).map(|_| prng.below(n - 1)).collect();
            levels[p] = n - 1;
            levels
        }
        _ => {
            let bound = 2 + prng.below(n - 1);
            (0..n).map(|_| prng.below(bound)).collect()
        }
    }
}

/// Plans slice p such that all pairs are related.
fn related_plan(
    prng: &mut Prng,
    n: usize,
    p: usize,
    relation: Relation,
    order: &[usize],
    pool: &Row,
) -> Plan {
    let levels = levels(prng, n, p, relation, order);
    let heads: Row = levels.iter().map(|&level| pool[level]).collect();
    // Between two levels exactly one side knows the other, all its copies alike.
    let upper_is_newer = matches!(relation, Relation::Chain | Relation::Apart);
    let mut coin = |_| upper_is_newer || prng.once_in(2);
    let mut coins = |_| (0..n).map(&mut coin).collect();
    let upper_knows_lower: Vec<Vec<bool>> = (0..n).map(&mut coins).collect();
    let mut knows = vec![vec![true; n]; n];
    for x in 0..n {
        for y in 0..n {
            let (own, other) = (levels[x], levels[y]);
            if own > other {
                knows[x][y] = upper_knows_lower[own][other];
            }
            if own < other {
                knows[x][y] = !upper_knows_lower[other][own];
            }
        }
    }
    Plan { heads, knows }
}

/// Makes the pair x, y unrelated; copies that share a head with one of them may follow.
fn make_unrelated(plan: &mut Plan, pool: &Row, x: usize, y: usize, both_found: bool) {
    let n = plan.heads.len();
    let were_level = plan.heads[x] == plan.heads[y];
    if were_level {
        let other = pool.iter().find(|s| !plan.heads.contains(s));
        plan.heads[x] = *other.expect("a pool has more symbols than copies");
    }
    for z in (0..n).filter(|&z| plan.heads[z] == plan.heads[y]) {
        plan.knows[x][z] = both_found;
    }
    if were_level {
        // No other copy shares x's new head, so each of the others stays related to x.
        for z in (0..n).filter(|&z| z != x) {
            plan.knows[z][x] = !plan.knows[x][z];
        }
    }
    for z in (0..n).filter(|&z| plan.heads[z] == plan.heads[x]) {
        plan.knows[y][z] = both_found;
    }
}

/// One copy's slice: the principal set is exactly the heads, cached rows are free past the head.
fn forged_slice(prng: &mut Prng, n: usize, own: usize, plan: &Plan, pool: &Row) -> Slice {
    let mut principal: Row = vec![plan.heads[own]];
    for y in 0..n {
        if plan.knows[own][y] && !principal.contains(&plan.heads[y]) {
            principal.push(plan.heads[y]);
        }
    }
    let most = principal.len() + prng.below(n - principal.len() + 1);
    for &symbol in pool.iter().rev() {
        let free = !principal.contains(&symbol) && !plan.heads.contains(&symbol);
        if principal.len() < most && free {
            principal.push(symbol);
        }
    }
    prng.shuffle(&mut principal[1..]);
    let mut slice = vec![principal.clone(); n];
    let mut others: Vec<usize> = (0..n).filter(|&k| k != own).collect();
    prng.shuffle(&mut others);
    for (place, &k) in others.iter().enumerate() {
        // Every symbol of the principal row is the head of some row; the rest repeat.
        let head = match principal.get(place + 1) {
            Some(&symbol) => symbol,
            None => prng.pick(&principal),
        };
        slice[k] = vec![head];
        let length = 1 + prng.below(n);
        let mut tail = pool.clone();
        prng.shuffle(&mut tail);
        let tail: Row = tail.into_iter().filter(|&s| s != head).collect();
        slice[k].extend(tail.iter().take(length - 1));
    }
    slice
}

/// A slice with N*N-N+1 symbols in use, its principal row knowing no head but `head`.
fn full_slice(prng: &mut Prng, n: usize, own: usize, head: u8) -> Slice {
    let mut symbols: Row = (0..(n * n) as u8).filter(|&s| s != head).collect();
    prng.shuffle(&mut symbols);
    let mut principal = vec![head];
    principal.extend(symbols.drain(..n - 1));
    if prng.once_in(2) {
        // The lowest first leaves only high symbols free.
        symbols.sort();
    }
    let mut slice = vec![principal.clone(); n];
    let cached = (0..n).filter(|&k| k != own);
    for (k, &head) in cached.zip(&principal[1..]) {
        slice[k] = vec![head];
        slice[k].extend(symbols.drain(..n - 1));
    }
    slice
}

/// A forged table of N copies: well formed, its pairs as the relation says.
pub fn forged_table(prng: &mut Prng, n: usize, relation: Relation) -> Vec<Record> {
    let mut order: Vec<usize> = (0..n).collect();
    prng.shuffle(&mut order);
    let (x, y) = prng.two_below(n);
    let unrelated_slice = prng.below(n);
    let mut table: Vec<Record> = (0..n)
        .map(|own| Record {
            n,
            own,
            slices: Vec::new(),
        })
        .collect();
    for p in 0..n {
        let pool = pool(prng, n);
        let mut plan = related_plan(prng, n, p, relation, &order, &pool);
        let break_here = p == unrelated_slice || prng.once_in(4);
        if relation.is_unrelated() && break_here {
            let both_found = relation == Relation::UnrelatedBothFound;
            make_unrelated(&mut plan, &pool, x, y, both_found);
        }
        let one_level = plan.heads.iter().all(|&s| s == plan.heads[0]);
        for record in &mut table {
            let own = record.own;
            let slice = if own == p && one_level && prng.once_in(2) {
                full_slice(prng, n, own, plan.heads[own])
            } else {
                forged_slice(prng, n, own, &plan, &pool)
            };
            record.slices.push(slice);
        }
    }
    table
}
