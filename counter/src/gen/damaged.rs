//! Damaged bytes: a forged record or table with one named fault, or with two.

use super::coverage::Coverage;
use super::forged::{forged_table, Relation};
use super::prng::Prng;
use crate::answers::Refusal;
use crate::bytes::{cell_place, length_place, record_size, table_to_bytes, UNUSED};

/// The kinds of fault.
#[derive(Clone, Copy, Debug, PartialEq, Eq)]
pub enum Fault {
    MarkFirstByte,
    MarkSecondByte,
    FewerThanFourBytes,
    NTooSmall,
    NTooGreat,
    NOfAnotherSize,
    Shorter,
    Longer,
    OwnNumberTooGreat,
    /// In a table: an own number below N that isn't the record's place.
    OwnNumberOfAnother,
    LaterMark,
    LaterN,
    RowLengthZero,
    RowLengthTooGreat,
    SymbolOutOfRange,
    SymbolRepeated,
    UnusedCellNotFF,
    PrincipalLacksAHead,
    PrincipalHasMore,
}

impl Fault {
    /// The faults of one loose record.
    pub const OF_RECORD: [Fault; 16] = [
        Fault::MarkFirstByte,
        Fault::MarkSecondByte,
        Fault::FewerThanFourBytes,
        Fault::NTooSmall,
        Fault::NTooGreat,
        Fault::NOfAnotherSize,
        Fault::Shorter,
        Fault::Longer,
        Fault::OwnNumberTooGreat,
        Fault::RowLengthZero,
        Fault::RowLengthTooGreat,
        Fault::SymbolOutOfRange,
        Fault::SymbolRepeated,
        Fault::UnusedCellNotFF,
        Fault::PrincipalLacksAHead,
        Fault::PrincipalHasMore,
    ];

    /// The faults that only a table can have.
    pub const OF_TABLE_ONLY: [Fault; 3] =
        [Fault::OwnNumberOfAnother, Fault::LaterMark, Fault::LaterN];

    /// The faults of a table.
    pub fn of_table() -> Vec<Fault> {
        [&Fault::OF_RECORD[..], &Fault::OF_TABLE_ONLY[..]].concat()
    }

    /// The refusal number that document 01 gives this fault.
    pub fn refusal(self) -> Refusal {
        match self {
            Fault::MarkFirstByte | Fault::MarkSecondByte | Fault::FewerThanFourBytes => {
                Refusal::NoMark
            }
            Fault::NTooSmall | Fault::NTooGreat => Refusal::BadN,
            Fault::NOfAnotherSize | Fault::Shorter | Fault::Longer => Refusal::WrongLength,
            _ => Refusal::NotWellFormed,
        }
    }

    pub fn name(self) -> String {
        format!("{self:?}")
    }
}

/// Damaged bytes with what was done to them.
#[derive(Clone, Debug, PartialEq, Eq)]
pub struct Damaged {
    pub bytes: Vec<u8>,
    pub faults: Vec<Fault>,
    /// The first refusal that applies.
    pub refusal: Refusal,
}

/// A byte other than this one.
fn other_byte(prng: &mut Prng, byte: u8) -> u8 {
    byte.wrapping_add(1 + prng.below(255) as u8)
}

/// Rows for which a test holds, as pairs of slice and row.
fn rows_where(n: usize, holds: impl Fn(usize, usize) -> bool) -> Vec<(usize, usize)> {
    let all = (0..n).flat_map(|p| (0..n).map(move |k| (p, k)));
    all.filter(|&(p, k)| holds(p, k)).collect()
}

/// Does the fault to the record that starts at `start`; false if its rows have no place for it.
fn damage_record(prng: &mut Prng, bytes: &mut [u8], n: usize, start: usize, fault: Fault) -> bool {
    let own = bytes[start + 3] as usize;
    let length_at = |bytes: &[u8], p, k| bytes[start + length_place(n, p, k)] as usize;
    let cell = |p, k, c| start + cell_place(n, p, k, c);
    let old = bytes.to_vec();
    let candidates = rows_where(n, |p, k| match fault {
        Fault::SymbolRepeated => length_at(&old, p, k) >= 2,
        Fault::UnusedCellNotFF => length_at(&old, p, k) < n,
        Fault::PrincipalLacksAHead => k == own && length_at(&old, p, k) >= 2,
        Fault::PrincipalHasMore => k == own && length_at(&old, p, k) < n,
        _ => true,
    });
    if candidates.is_empty() {
        return false;
    }
    let (p, k) = prng.pick(&candidates);
    let length = length_at(bytes, p, k);
    let length_byte = start + length_place(n, p, k);
    match fault {
        Fault::RowLengthZero => bytes[length_byte] = 0,
        Fault::RowLengthTooGreat => {
            bytes[length_byte] = prng.pick(&[n as u8 + 1, n as u8 + 2, 127, 128, 255]);
        }
        Fault::SymbolOutOfRange => {
            let lowest = (n * n) as u8;
            let symbol = lowest + prng.below(256 - n * n) as u8;
            bytes[cell(p, k, prng.below(length))] = prng.pick(&[symbol, lowest, UNUSED]);
        }
        Fault::SymbolRepeated => {
            let (from, to) = prng.two_below(length);
            bytes[cell(p, k, to)] = bytes[cell(p, k, from)];
        }
        Fault::UnusedCellNotFF => {
            let c = length + prng.below(n - length);
            bytes[cell(p, k, c)] = prng.pick(&[0, 1, 0x7F, 0xFE]);
        }
        Fault::PrincipalLacksAHead => {
            bytes[length_byte] -= 1;
            bytes[cell(p, k, length - 1)] = UNUSED;
        }
        Fault::PrincipalHasMore => {
            let row: Vec<u8> = (0..length).map(|c| old[cell(p, k, c)]).collect();
            let others: Vec<u8> = (0..(n * n) as u8).filter(|s| !row.contains(s)).collect();
            bytes[length_byte] += 1;
            bytes[cell(p, k, length)] = prng.pick(&others);
        }
        Fault::OwnNumberTooGreat => {
            bytes[start + 3] = prng.pick(&[n as u8, n as u8 + 1, 8, 128 + own as u8, 255]);
        }
        Fault::OwnNumberOfAnother => {
            bytes[start + 3] = ((own + 1 + prng.below(n - 1)) % n) as u8;
        }
        Fault::LaterMark => {
            let place = start + prng.below(2);
            bytes[place] = other_byte(prng, bytes[place]);
        }
        Fault::LaterN => bytes[start + 2] = other_byte(prng, n as u8),
        _ => unreachable!("a fault of the whole"),
    }
    true
}

/// Does the fault to the bytes of a record or table; false if there is no place for it.
fn damage(prng: &mut Prng, bytes: &mut Vec<u8>, n: usize, fault: Fault) -> bool {
    let records = bytes.len() / record_size(n);
    match fault {
        Fault::MarkFirstByte => bytes[0] = other_byte(prng, bytes[0]),
        Fault::MarkSecondByte => bytes[1] = other_byte(prng, bytes[1]),
        Fault::FewerThanFourBytes => bytes.truncate(prng.below(4)),
        Fault::NTooSmall => bytes[2] = prng.below(2) as u8,
        Fault::NTooGreat => bytes[2] = prng.pick(&[9, 10, 16, 64, 128 + n as u8, 255]),
        Fault::NOfAnotherSize => bytes[2] = 2 + ((n - 2 + 1 + prng.below(6)) % 7) as u8,
        Fault::Shorter => {
            let whole = bytes.len();
            bytes.truncate(prng.pick(&[4, whole / 2, whole - 1, whole - 2]));
        }
        Fault::Longer => {
            let more = prng.pick(&[1, 2, record_size(n), 9 * record_size(n)]);
            bytes.extend(vec![UNUSED; more]);
        }
        Fault::LaterMark | Fault::LaterN => {
            let record = 1 + prng.below(records - 1);
            return damage_record(prng, bytes, n, record * record_size(n), fault);
        }
        _ => {
            let record = prng.below(records);
            return damage_record(prng, bytes, n, record * record_size(n), fault);
        }
    }
    true
}

/// A forged record or table, as bytes.
fn whole(prng: &mut Prng, n: usize, loose: bool) -> Vec<u8> {
    let relation = prng.pick(&[Relation::Chain, Relation::Free]);
    let table = forged_table(prng, n, relation);
    if loose {
        let i = prng.below(n);
        table_to_bytes(&table[i..i + 1])
    } else {
        table_to_bytes(&table)
    }
}

/// Bytes with exactly this fault; other forged bytes are tried until they have a place for it.
fn one_fault(prng: &mut Prng, n: usize, loose: bool, fault: Fault) -> Damaged {
    loop {
        let mut bytes = whole(prng, n, loose);
        if damage(prng, &mut bytes, n, fault) {
            let (faults, refusal) = (vec![fault], fault.refusal());
            return Damaged {
                bytes,
                faults,
                refusal,
            };
        }
    }
}

/// A loose record with exactly this fault.
pub fn damaged_record(prng: &mut Prng, n: usize, fault: Fault) -> Damaged {
    one_fault(prng, n, true, fault)
}

/// A table with exactly this fault.
pub fn damaged_table(prng: &mut Prng, n: usize, fault: Fault) -> Damaged {
    one_fault(prng, n, false, fault)
}

/// A loose record or table with two faults of different numbers; the smaller number applies.
fn two_faults(prng: &mut Prng, n: usize, loose: bool, kinds: &[Fault]) -> Damaged {
    loop {
        let mut faults = vec![prng.pick(kinds), prng.pick(kinds)];
        // The greater number first: what it touches is still there.
        faults.sort_by_key(|fault| std::cmp::Reverse(fault.refusal()));
        if faults[0].refusal() == faults[1].refusal() {
            continue;
        }
        let mut bytes = whole(prng, n, loose);
        let done = faults.iter().all(|&f| damage(prng, &mut bytes, n, f));
        let refusal = faults[1].refusal();
        if done {
            return Damaged {
                bytes,
                faults,
                refusal,
            };
        }
    }
}

/// Damaged loose records (`loose`) or tables: `rounds` times each fault, and pairs of faults.
pub fn damaged(seed: u64, n: usize, loose: bool, rounds: usize) -> (Vec<Damaged>, Coverage) {
    let mut prng = Prng::new(seed ^ (n as u64) << 8 ^ loose as u64);
    let kinds = if loose {
        Fault::OF_RECORD.to_vec()
    } else {
        Fault::of_table()
    };
    let mut coverage = Coverage::expecting(kinds.iter().map(|fault| fault.name()));
    let refused = (1..=4).map(|number| format!("refused {number}"));
    coverage.add(&Coverage::expecting(refused));
    coverage.add(&Coverage::expecting(
        (1..=3).map(|k| format!("two, {k} first")),
    ));
    let mut cases = Vec::new();
    for _ in 0..rounds {
        for &fault in &kinds {
            cases.push(one_fault(&mut prng, n, loose, fault));
            coverage.note(&fault.name());
        }
        for _ in 0..kinds.len() / 2 {
            let case = two_faults(&mut prng, n, loose, &kinds);
            coverage.note(&format!("two, {} first", case.refusal.number()));
            cases.push(case);
        }
    }
    for case in &cases {
        coverage.note(&format!("refused {}", case.refusal.number()));
    }
    (cases, coverage)
}
