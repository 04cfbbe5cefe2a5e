//! The calls of document 01 on lent bytes, each with its refusals in their order.

use crate::answers::{Comparison, Refusal, Superfluous};
use crate::bytes::{
    n_is_allowed, record_from_bytes, record_from_rows, record_size, record_to_bytes,
    rows_from_record, table_from_bytes, table_size, table_to_bytes, Rows,
};
use crate::model;

/// Refusal 5.
fn copy_number(n: usize, i: usize) -> Result<(), Refusal> {
    if i >= n {
        return Err(Refusal::NoSuchCopy);
    }
    Ok(())
}

/// Makes a fresh table: 2, then 3; the old bytes are ignored.
pub fn fresh(n: usize, table: &mut [u8]) -> Result<(), Refusal> {
    if !n_is_allowed(n) {
        return Err(Refusal::BadN);
    }
    if table.len() != table_size(n) {
        return Err(Refusal::WrongLength);
    }
    table.copy_from_slice(&table_to_bytes(&model::fresh_table(n)));
    Ok(())
}

/// Checks a table: 1 to 4.
pub fn check(table: &[u8]) -> Result<(), Refusal> {
    table_from_bytes(table)?;
    Ok(())
}

/// Updates copy i: 1 to 4, then 5.
pub fn update(table: &mut [u8], i: usize) -> Result<(), Refusal> {
    let mut records = table_from_bytes(table)?;
    copy_number(records.len(), i)?;
    records[i] = model::update(&records[i]);
    table.copy_from_slice(&table_to_bytes(&records));
    Ok(())
}

/// Lets copies a and b meet, a named first: 1 to 4, then 5, 6, 7.
pub fn meet(table: &mut [u8], a: usize, b: usize) -> Result<(), Refusal> {
    let mut records = table_from_bytes(table)?;
    copy_number(records.len(), a)?;
    copy_number(records.len(), b)?;
    if a == b {
        return Err(Refusal::SameCopy);
    }
    let (a_after, b_after) = model::meet(&records[a], &records[b])?;
    records[a] = a_after;
    records[b] = b_after;
    table.copy_from_slice(&table_to_bytes(&records));
    Ok(())
}

/// Compares copy a against copy b: 1 to 4, then 5, 7; a copy against itself is equal.
pub fn compare(table: &[u8], a: usize, b: usize) -> Result<Comparison, Refusal> {
    let records = table_from_bytes(table)?;
    copy_number(records.len(), a)?;
    copy_number(records.len(), b)?;
    model::compare(&records[a], &records[b])
}

/// Lends out record i as a part of the table: 1 to 4, then 5.
pub fn lend(table: &[u8], i: usize) -> Result<&[u8], Refusal> {
    let n = table_from_bytes(table)?.len();
    copy_number(n, i)?;
    Ok(&table[i * record_size(n)..(i + 1) * record_size(n)])
}

/// Lists the superfluous copies: 1 to 4, then 7 for any pair.
pub fn superfluous(table: &[u8]) -> Result<Superfluous, Refusal> {
    model::superfluous(&table_from_bytes(table)?)
}

/// Checks one loose record: 1 to 4.
pub fn check_record(record: &[u8]) -> Result<(), Refusal> {
    record_from_bytes(record)?;
    Ok(())
}

/// Two loose records: 1 to 4 of the first, 1 to 4 of the second, then 8, 6.
fn two_records(first: &[u8], second: &[u8]) -> Result<(model::Record, model::Record), Refusal> {
    let a = record_from_bytes(first)?;
    let b = record_from_bytes(second)?;
    if a.n != b.n {
        return Err(Refusal::DifferentN);
    }
    if a.own == b.own {
        return Err(Refusal::SameCopy);
    }
    Ok((a, b))
}

/// Lets two loose records meet, the first named first; 7 comes last.
pub fn meet_records(first: &mut [u8], second: &mut [u8]) -> Result<(), Refusal> {
    let (a, b) = two_records(first, second)?;
    let (a_after, b_after) = model::meet(&a, &b)?;
    first.copy_from_slice(&record_to_bytes(&a_after));
    second.copy_from_slice(&record_to_bytes(&b_after));
    Ok(())
}

/// Compares the first loose record against the second; 7 comes last.
pub fn compare_records(first: &[u8], second: &[u8]) -> Result<Comparison, Refusal> {
    let (a, b) = two_records(first, second)?;
    model::compare(&a, &b)
}

/// Reads the rows of one loose record: 1 to 4; a refusal leaves `Rows::blank()` beside it.
pub fn read_rows(record: &[u8]) -> Result<Rows, Refusal> {
    Ok(rows_from_record(&record_from_bytes(record)?))
}

/// Writes rows into a lent buffer: 2, 3 for the buffer, then 4; the old bytes are ignored.
pub fn write_rows(rows: &Rows, buffer: &mut [u8]) -> Result<(), Refusal> {
    if !n_is_allowed(rows.n) {
        return Err(Refusal::BadN);
    }
    if buffer.len() != record_size(rows.n) {
        return Err(Refusal::WrongLength);
    }
    let record = record_from_rows(rows)?;
    buffer.copy_from_slice(&record_to_bytes(&record));
    Ok(())
}

/// One call on a table, with its numbers.
#[derive(Clone, Copy, Debug, PartialEq, Eq)]
pub enum TableCall {
    Fresh(usize),
    Check,
    Update(usize),
    Meet(usize, usize),
    Compare(usize, usize),
    Lend(usize),
    Superfluous,
}

/// What a call on a table answers.
#[derive(Clone, Copy, Debug, PartialEq, Eq)]
pub enum Outcome {
    Done,
    Compared(Comparison),
    /// The lent part, as places in the table.
    Lent {
        start: usize,
        end: usize,
    },
    Listed(Superfluous),
    Refused(Refusal),
}

/// Makes one call on a table.
pub fn answer(table: &mut [u8], call: TableCall) -> Outcome {
    let result = match call {
        TableCall::Fresh(n) => fresh(n, table).map(|()| Outcome::Done),
        TableCall::Check => check(table).map(|()| Outcome::Done),
        TableCall::Update(i) => update(table, i).map(|()| Outcome::Done),
        TableCall::Meet(a, b) => meet(table, a, b).map(|()| Outcome::Done),
        TableCall::Compare(a, b) => compare(table, a, b).map(Outcome::Compared),
        TableCall::Lend(i) => lend(table, i).map(|part| Outcome::Lent {
            start: i * part.len(),
            end: (i + 1) * part.len(),
        }),
        TableCall::Superfluous => superfluous(table).map(Outcome::Listed),
    };
    result.unwrap_or_else(Outcome::Refused)
}
