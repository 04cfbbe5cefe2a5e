//! Rows and steps of document 01 on plain vectors, without any bytes.

use crate::answers::{Comparison, Refusal, SliceAnswer, Superfluous};

/// Symbols, greatest first; the first is the head.
pub type Row = Vec<u8>;

/// One row for each copy.
pub type Slice = Vec<Row>;

/// What one copy holds: one slice for each copy.
#[derive(Clone, Debug, PartialEq, Eq, Hash)]
pub struct Record {
    pub n: usize,
    pub own: usize,
    pub slices: Vec<Slice>,
}

impl Record {
    /// Row `own` of a slice is the principal row.
    pub fn principal_row(&self, p: usize) -> &Row {
        &self.slices[p][self.own]
    }
}

/// The first symbol of a row.
pub fn head(row: &Row) -> u8 {
    row[0]
}

/// Fresh: every row is the single symbol 0.
pub fn fresh_slice(n: usize) -> Slice {
    vec![vec![0]; n]
}

/// Fresh: every slice is fresh.
pub fn fresh_record(n: usize, own: usize) -> Record {
    let slices = vec![fresh_slice(n); n];
    Record { n, own, slices }
}

/// Fresh: all records.
pub fn fresh_table(n: usize) -> Vec<Record> {
    (0..n).map(|own| fresh_record(n, own)).collect()
}

/// The smallest symbol that stands in no row of the slice.
pub fn new_symbol(n: usize, slice: &Slice) -> u8 {
    let symbols = 0..(n * n) as u8;
    let mut free = symbols.filter(|s| !slice.iter().any(|row| row.contains(s)));
    free.next().expect("at most N*N-N+1 symbols are in use")
}

/// Update of copy p, on slice p of record p.
pub fn update_slice(n: usize, p: usize, slice: &Slice) -> Slice {
    let old_row = &slice[p];
    let is_head_of_other_row = |s: &u8| (0..n).any(|k| k != p && head(&slice[k]) == *s);
    let mut new_row = vec![new_symbol(n, slice)];
    new_row.extend(old_row.iter().filter(|s| is_head_of_other_row(s)));
    let mut after = slice.clone();
    after[p] = new_row;
    after
}

/// Update of copy p: only slice p of record p changes.
pub fn update(record: &Record) -> Record {
    let p = record.own;
    let mut after = record.clone();
    after.slices[p] = update_slice(record.n, p, &record.slices[p]);
    after
}

/// Slice answer of a against b, from a's and b's principal rows.
pub fn slice_answer(a_row: &Row, b_row: &Row) -> SliceAnswer {
    let a_head = head(a_row);
    let b_head = head(b_row);
    let a_found = b_row.contains(&a_head);
    let b_found = a_row.contains(&b_head);
    if a_head == b_head {
        SliceAnswer::Level
    } else if a_found && !b_found {
        SliceAnswer::Behind
    } else if b_found && !a_found {
        SliceAnswer::Ahead
    } else {
        SliceAnswer::Unrelated
    }
}

/// The slice answers of a against b, slice 0 first.
pub fn slice_answers(a: &Record, b: &Record) -> Vec<SliceAnswer> {
    (0..a.n)
        .map(|p| slice_answer(a.principal_row(p), b.principal_row(p)))
        .collect()
}

/// Comparison of a against b.
pub fn compare(a: &Record, b: &Record) -> Result<Comparison, Refusal> {
    let answers = slice_answers(a, b);
    if answers.contains(&SliceAnswer::Unrelated) {
        return Err(Refusal::Unrelated);
    }
    let some_behind = answers.contains(&SliceAnswer::Behind);
    let some_ahead = answers.contains(&SliceAnswer::Ahead);
    Ok(Comparison::from_parts(some_behind, some_ahead))
}

/// Whether b wins a slice: a's head is in b's principal row.
pub fn b_wins(a_row: &Row, b_row: &Row) -> bool {
    b_row.contains(&head(a_row))
}

/// The new head of another row: the loser's head x, the winner's head y, the winning row w.
pub fn new_head(x: u8, y: u8, w: &Row) -> u8 {
    if !w.contains(&x) {
        return y;
    }
    // The order of symbols is their order in w, never their size as numbers.
    *w.iter().find(|&&s| s == x || s == y).expect("x is in w")
}

/// The new heads of all rows, when `winner` and `loser` meet as copies a and b.
pub fn new_heads(a: usize, b: usize, w: &Row, loser: &Slice, winner: &Slice) -> Vec<u8> {
    let new_head_of_row = |k: usize| {
        if k == a || k == b {
            head(w)
        } else {
            new_head(head(&loser[k]), head(&winner[k]), w)
        }
    };
    (0..loser.len()).map(new_head_of_row).collect()
}

/// One record's slice after the meeting, from its own slice and the other record's.
fn met_slice(a: usize, b: usize, cut: &Row, heads: &[u8], own: &Slice, other: &Slice) -> Slice {
    let row_after = |k: usize| {
        if k == a || k == b {
            cut.clone()
        } else if head(&own[k]) == heads[k] {
            own[k].clone()
        } else {
            other[k].clone()
        }
    };
    (0..own.len()).map(row_after).collect()
}

/// Meeting of a and b in one slice that isn't unrelated: both slices as they are afterwards.
pub fn meet_slice(a: usize, b: usize, of_a: &Slice, of_b: &Slice) -> (Slice, Slice) {
    let (w, loser, winner) = if b_wins(&of_a[a], &of_b[b]) {
        (&of_b[b], of_a, of_b)
    } else {
        (&of_a[a], of_b, of_a)
    };
    let heads = new_heads(a, b, w, loser, winner);
    let cut: Row = w.iter().copied().filter(|s| heads.contains(s)).collect();
    let a_after = met_slice(a, b, &cut, &heads, of_a, of_b);
    let b_after = met_slice(a, b, &cut, &heads, of_b, of_a);
    (a_after, b_after)
}

/// Meeting of a and b, a named first: both records as they are afterwards.
pub fn meet(a: &Record, b: &Record) -> Result<(Record, Record), Refusal> {
    if slice_answers(a, b).contains(&SliceAnswer::Unrelated) {
        return Err(Refusal::Unrelated);
    }
    let mut a_after = a.clone();
    let mut b_after = b.clone();
    for p in 0..a.n {
        let (of_a, of_b) = meet_slice(a.own, b.own, &a.slices[p], &b.slices[p]);
        a_after.slices[p] = of_a;
        b_after.slices[p] = of_b;
    }
    Ok((a_after, b_after))
}

/// Superfluous copies: some other copy compares equal to it or newer than it.
pub fn superfluous(table: &[Record]) -> Result<Superfluous, Refusal> {
    let mut copies = Vec::new();
    for i in 0..table.len() {
        let mut is_superfluous = false;
        for j in 0..table.len() {
            if j == i {
                continue;
            }
            // An unrelated pair refuses the whole call, so no pair is skipped.
            let answer = compare(&table[j], &table[i])?;
            is_superfluous |= matches!(answer, Comparison::Equal | Comparison::Newer);
        }
        if is_superfluous {
            copies.push(i);
        }
    }
    Ok(Superfluous::of(&copies))
}
