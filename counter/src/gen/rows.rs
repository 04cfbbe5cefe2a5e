//! Rows to be written: well formed, with each kind of fault, with anything in the room beyond N.

use super::coverage::Coverage;
use super::forged::{forged_table, Relation};
use super::prng::Prng;
use super::{n_out_of_range, number_out_of_range};
use crate::answers::Refusal;
use crate::bytes::{record_size, rows_from_record, Rows, UNUSED};

/// The kinds of rows and buffers.
#[derive(Clone, Copy, Debug, PartialEq, Eq)]
pub enum RowsKind {
    WellFormed,
    NOutOfRange,
    BufferShorter,
    BufferLonger,
    BufferEmpty,
    NOutOfRangeAndBufferEmpty,
    BufferShorterAndNotWellFormed,
    OwnNumberTooGreat,
    LengthZero,
    LengthTooGreat,
    SymbolOutOfRange,
    SymbolRepeated,
    CellPastLengthNotFF,
    PrincipalLacksAHead,
    PrincipalHasMore,
}

impl RowsKind {
    pub const ALL: [RowsKind; 15] = [
        RowsKind::WellFormed,
        RowsKind::NOutOfRange,
        RowsKind::BufferShorter,
        RowsKind::BufferLonger,
        RowsKind::BufferEmpty,
        RowsKind::NOutOfRangeAndBufferEmpty,
        RowsKind::BufferShorterAndNotWellFormed,
        RowsKind::OwnNumberTooGreat,
        RowsKind::LengthZero,
        RowsKind::LengthTooGreat,
        RowsKind::SymbolOutOfRange,
        RowsKind::SymbolRepeated,
        RowsKind::CellPastLengthNotFF,
        RowsKind::PrincipalLacksAHead,
        RowsKind::PrincipalHasMore,
    ];

    /// The refusal number that document 01 gives, if any.
    pub fn refusal(self) -> Option<Refusal> {
        match self {
            RowsKind::WellFormed => None,
            RowsKind::NOutOfRange | RowsKind::NOutOfRangeAndBufferEmpty => Some(Refusal::BadN),
            RowsKind::BufferShorter
            | RowsKind::BufferLonger
            | RowsKind::BufferEmpty
            | RowsKind::BufferShorterAndNotWellFormed => Some(Refusal::WrongLength),
            _ => Some(Refusal::NotWellFormed),
        }
    }
}

/// Rows to be written and the buffer, with its old bytes, that they go into.
#[derive(Clone, Debug, PartialEq, Eq)]
pub struct RowsCase {
    pub kind: RowsKind,
    pub junk_beyond_n: bool,
    pub rows: Rows,
    pub buffer: Vec<u8>,
    pub refusal: Option<Refusal>,
}

/// Puts anything into the room beyond N's slices, rows and cells.
fn put_junk(prng: &mut Prng, rows: &mut Rows, n: usize) {
    for p in 0..8 {
        for k in 0..8 {
            if p >= n || k >= n {
                rows.lengths[Rows::length_index(p, k)] = prng.byte();
            }
            for c in 0..8 {
                if p >= n || k >= n || c >= n {
                    rows.cells[Rows::cell_index(p, k, c)] = prng.byte();
                }
            }
        }
    }
}

/// Gives the rows the fault of this kind; false if they have no place for it.
fn damage(prng: &mut Prng, rows: &mut Rows, n: usize, kind: RowsKind) -> bool {
    let own = rows.own;
    let p = prng.below(n);
    let of_principal = matches!(
        kind,
        RowsKind::PrincipalLacksAHead | RowsKind::PrincipalHasMore
    );
    let k = if of_principal { own } else { prng.below(n) };
    let at = Rows::length_index(p, k);
    let cell = |c| Rows::cell_index(p, k, c);
    let length = rows.lengths[at] as usize;
    match kind {
        RowsKind::NOutOfRange | RowsKind::NOutOfRangeAndBufferEmpty => {
            rows.n = n_out_of_range(prng);
        }
        RowsKind::OwnNumberTooGreat => rows.own = number_out_of_range(prng, n),
        RowsKind::LengthZero => rows.lengths[at] = 0,
        RowsKind::LengthTooGreat => {
            rows.lengths[at] = prng.pick(&[n as u8 + 1, 9, 128, 255]);
        }
        RowsKind::SymbolOutOfRange | RowsKind::BufferShorterAndNotWellFormed => {
            let symbol = (n * n + prng.below(256 - n * n)) as u8;
            rows.cells[cell(prng.below(length))] = symbol;
        }
        RowsKind::SymbolRepeated if length >= 2 => {
            let (from, to) = prng.two_below(length);
            rows.cells[cell(to)] = rows.cells[cell(from)];
        }
        RowsKind::CellPastLengthNotFF if length < n => {
            let c = length + prng.below(n - length);
            rows.cells[cell(c)] = prng.pick(&[0, 1, 0x7F, 0xFE]);
        }
        RowsKind::PrincipalLacksAHead if length >= 2 => {
            rows.lengths[at] -= 1;
            rows.cells[cell(length - 1)] = UNUSED;
        }
        RowsKind::PrincipalHasMore if length < n => {
            let row: Vec<u8> = (0..length).map(|c| rows.cells[cell(c)]).collect();
            let others: Vec<u8> = (0..(n * n) as u8).filter(|s| !row.contains(s)).collect();
            rows.lengths[at] += 1;
            rows.cells[cell(length)] = prng.pick(&others);
        }
        RowsKind::SymbolRepeated
        | RowsKind::CellPastLengthNotFF
        | RowsKind::PrincipalLacksAHead
        | RowsKind::PrincipalHasMore => return false,
        _ => {}
    }
    true
}

/// The length of the buffer for this kind.
fn buffer_length(prng: &mut Prng, n: usize, kind: RowsKind) -> usize {
    let size = record_size(n);
    match kind {
        RowsKind::BufferShorter | RowsKind::BufferShorterAndNotWellFormed => {
            prng.pick(&[1, 4, size / 2, size - 1])
        }
        RowsKind::BufferLonger => prng.pick(&[size + 1, 2 * size, n * size]),
        RowsKind::BufferEmpty | RowsKind::NOutOfRangeAndBufferEmpty => 0,
        _ => size,
    }
}

/// Rows of this kind; other forged rows are tried until they have a place for its fault.
pub fn rows_case(prng: &mut Prng, n: usize, kind: RowsKind, junk_beyond_n: bool) -> RowsCase {
    loop {
        let table = forged_table(prng, n, Relation::Free);
        let mut rows = rows_from_record(&table[prng.below(n)]);
        if junk_beyond_n {
            put_junk(prng, &mut rows, n);
        }
        if !damage(prng, &mut rows, n, kind) {
            continue;
        }
        let buffer = (0..buffer_length(prng, n, kind))
            .map(|_| prng.byte())
            .collect();
        return RowsCase {
            kind,
            junk_beyond_n,
            rows,
            buffer,
            refusal: kind.refusal(),
        };
    }
}

/// The kinds that the report announces.
pub fn kinds(n: usize) -> Vec<String> {
    let mut kinds: Vec<String> = RowsKind::ALL.map(|kind| format!("{kind:?}")).to_vec();
    kinds.extend((2..=4).map(|number| format!("refused {number}")));
    kinds.push("written".into());
    if n < 8 {
        // With eight copies there is no room beyond.
        kinds.push("written with junk beyond N".into());
        kinds.push("refused with junk beyond N".into());
    }
    kinds
}

/// Rows to be written of N copies: `rounds` times each kind, with and without junk beyond N.
pub fn rows_cases(seed: u64, n: usize, rounds: usize) -> (Vec<RowsCase>, Coverage) {
    let mut prng = Prng::new(seed ^ (n as u64) << 32);
    let mut coverage = Coverage::expecting(kinds(n));
    let mut cases = Vec::new();
    for _ in 0..rounds {
        for kind in RowsKind::ALL {
            for junk_beyond_n in [false, true] {
                let case = rows_case(&mut prng, n, kind, junk_beyond_n);
                coverage.note(&format!("{kind:?}"));
                let outcome = match case.refusal {
                    None => "written".to_string(),
                    Some(refusal) => format!("refused {}", refusal.number()),
                };
                coverage.note(&outcome);
                if junk_beyond_n && n < 8 {
                    let word = if case.refusal.is_none() {
                        "written"
                    } else {
                        "refused"
                    };
                    coverage.note(&format!("{word} with junk beyond N"));
                }
                cases.push(case);
            }
        }
    }
    (cases, coverage)
}
