//! Record, table and rows as document 01 lays them out, and when they are well formed.

use crate::answers::Refusal;
use crate::model::{head, Record, Row, Slice};

/// The first two bytes of a record.
pub const MARK: [u8; 2] = [0xB5, 0x0A];

/// What every unused cell holds.
pub const UNUSED: u8 = 0xFF;

/// Whether N is 2 to 8.
pub fn n_is_allowed(n: usize) -> bool {
    (2..=8).contains(&n)
}

/// 4 + N*N*(N+1).
pub fn record_size(n: usize) -> usize {
    4 + n * n * (n + 1)
}

/// N times the record size.
pub fn table_size(n: usize) -> usize {
    n * record_size(n)
}

/// Where the length byte of row k of slice p stands in a record.
pub fn length_place(n: usize, p: usize, k: usize) -> usize {
    4 + (p * n + k) * (n + 1)
}

/// Where cell c of row k of slice p stands in a record.
pub fn cell_place(n: usize, p: usize, k: usize, c: usize) -> usize {
    length_place(n, p, k) + 1 + c
}

/// Refusals 1 and 2 of a record or table; gives N.
fn header(bytes: &[u8]) -> Result<usize, Refusal> {
    if bytes.len() < 4 || bytes[0] != MARK[0] || bytes[1] != MARK[1] {
        return Err(Refusal::NoMark);
    }
    let n = bytes[2] as usize;
    if !n_is_allowed(n) {
        return Err(Refusal::BadN);
    }
    Ok(n)
}

/// The symbols of one row, if its length, symbols and unused cells are as they should be.
fn well_formed_row(n: usize, length: u8, cells: &[u8]) -> Option<Row> {
    let length = length as usize;
    if length < 1 || length > n {
        return None;
    }
    let row: Row = cells[..length].to_vec();
    if row.iter().any(|&s| s as usize >= n * n) {
        return None;
    }
    if (1..length).any(|c| row[..c].contains(&row[c])) {
        return None;
    }
    if cells[length..n].iter().any(|&cell| cell != UNUSED) {
        return None;
    }
    Some(row)
}

/// Whether the principal row's symbols are exactly the set of the heads of all rows.
fn principal_set_is_the_heads(slice: &Slice, own: usize) -> bool {
    let principal = &slice[own];
    let heads: Row = slice.iter().map(head).collect();
    principal.iter().all(|s| heads.contains(s)) && heads.iter().all(|s| principal.contains(s))
}

/// Refusal 4 of lengths and cells given by place; N is allowed.
fn well_formed_record(
    n: usize,
    own: usize,
    length_at: impl Fn(usize, usize) -> u8,
    cell_at: impl Fn(usize, usize, usize) -> u8,
) -> Result<Record, Refusal> {
    if own >= n {
        return Err(Refusal::NotWellFormed);
    }
    let mut slices = Vec::new();
    for p in 0..n {
        let mut slice = Vec::new();
        for k in 0..n {
            let cells: Vec<u8> = (0..n).map(|c| cell_at(p, k, c)).collect();
            let row = well_formed_row(n, length_at(p, k), &cells);
            slice.push(row.ok_or(Refusal::NotWellFormed)?);
        }
        if !principal_set_is_the_heads(&slice, own) {
            return Err(Refusal::NotWellFormed);
        }
        slices.push(slice);
    }
    Ok(Record { n, own, slices })
}

/// Refusal 4 of the bytes of one record; N is allowed and the length is right.
fn record_body(n: usize, bytes: &[u8]) -> Result<Record, Refusal> {
    well_formed_record(
        n,
        bytes[3] as usize,
        |p, k| bytes[length_place(n, p, k)],
        |p, k, c| bytes[cell_place(n, p, k, c)],
    )
}

/// One loose record, with refusals 1 to 4.
pub fn record_from_bytes(bytes: &[u8]) -> Result<Record, Refusal> {
    let n = header(bytes)?;
    if bytes.len() != record_size(n) {
        return Err(Refusal::WrongLength);
    }
    record_body(n, bytes)
}

/// A whole table, with refusals 1 to 4; only the first record's header decides 1, 2 and 3.
pub fn table_from_bytes(bytes: &[u8]) -> Result<Vec<Record>, Refusal> {
    let n = header(bytes)?;
    if bytes.len() != table_size(n) {
        return Err(Refusal::WrongLength);
    }
    let mut table = Vec::new();
    for i in 0..n {
        let part = &bytes[i * record_size(n)..(i + 1) * record_size(n)];
        if header(part) != Ok(n) || part[3] as usize != i {
            return Err(Refusal::NotWellFormed);
        }
        table.push(record_body(n, part)?);
    }
    Ok(table)
}

/// The bytes of one record.
pub fn record_to_bytes(record: &Record) -> Vec<u8> {
    let n = record.n;
    let mut bytes = vec![MARK[0], MARK[1], n as u8, record.own as u8];
    for slice in &record.slices {
        for row in slice {
            bytes.push(row.len() as u8);
            for c in 0..n {
                bytes.push(row.get(c).copied().unwrap_or(UNUSED));
            }
        }
    }
    bytes
}

/// The bytes of records 0 to N-1 in order.
pub fn table_to_bytes(table: &[Record]) -> Vec<u8> {
    table.iter().flat_map(record_to_bytes).collect()
}

/// The rows of one record, with room for N = 8: row k of slice p is at p*8+k.
#[derive(Clone, Debug, PartialEq, Eq)]
pub struct Rows {
    pub n: usize,
    pub own: usize,
    pub lengths: [u8; 64],
    pub cells: [u8; 512],
}

impl Rows {
    /// What stands beside the number of a refused reading.
    pub fn blank() -> Rows {
        Rows {
            n: 0,
            own: 0,
            lengths: [0; 64],
            cells: [UNUSED; 512],
        }
    }

    /// The index of row k of slice p in `lengths`.
    pub fn length_index(p: usize, k: usize) -> usize {
        p * 8 + k
    }

    /// The index of cell c of row k of slice p in `cells`.
    pub fn cell_index(p: usize, k: usize, c: usize) -> usize {
        Rows::length_index(p, k) * 8 + c
    }
}

/// The rows of a record; length 0 and FF in the room beyond N.
pub fn rows_from_record(record: &Record) -> Rows {
    let mut rows = Rows::blank();
    rows.n = record.n;
    rows.own = record.own;
    for (p, slice) in record.slices.iter().enumerate() {
        for (k, row) in slice.iter().enumerate() {
            rows.lengths[Rows::length_index(p, k)] = row.len() as u8;
            for (c, &symbol) in row.iter().enumerate() {
                rows.cells[Rows::cell_index(p, k, c)] = symbol;
            }
        }
    }
    rows
}

/// The record of rows to be written, with refusal 4; N is allowed, room beyond N is ignored.
pub fn record_from_rows(rows: &Rows) -> Result<Record, Refusal> {
    well_formed_record(
        rows.n,
        rows.own,
        |p, k| rows.lengths[Rows::length_index(p, k)],
        |p, k, c| rows.cells[Rows::cell_index(p, k, c)],
    )
}
