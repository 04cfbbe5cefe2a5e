//! The bench sheet of document 01, P1 to P12 and its unmarked lines, to the byte.

use counter::answers::{Comparison, Refusal, Superfluous};
use counter::bytes::{record_size, table_size, table_to_bytes};
use counter::calls::{
    check, compare, compare_records, fresh, lend, meet, meet_records, superfluous, update,
};
use counter::model::Record;
use counter::notation;

/// Bytes written in hex; spaces and line ends are for the eye.
fn hex(text: &str) -> Vec<u8> {
    let byte = |word| u8::from_str_radix(word, 16).expect("two hex digits");
    text.split_whitespace().map(byte).collect()
}

fn fresh_table(n: usize) -> Vec<u8> {
    let mut table = vec![0xAA; table_size(n)];
    assert_eq!(fresh(n, &mut table), Ok(()));
    table
}

/// A table from the slices of its records, written the bench sheet's way.
fn table(records: &[&[&str]]) -> Vec<u8> {
    let record = |(own, slices): (usize, &&[&str])| notation::record(own, slices);
    let records: Vec<Record> = records.iter().enumerate().map(record).collect();
    table_to_bytes(&records)
}

/// The N = 2 table after P1 and this many updates of copy 0.
fn updated(times: usize) -> Vec<u8> {
    let mut table = fresh_table(2);
    for _ in 0..times {
        assert_eq!(update(&mut table, 0), Ok(()));
    }
    table
}

const FRESH_RECORD_0: &str = "B5 0A 02 00  01 00 FF 01 00 FF 01 00 FF 01 00 FF";
const FRESH_RECORD_1: &str = "B5 0A 02 01  01 00 FF 01 00 FF 01 00 FF 01 00 FF";

#[test]
fn p1_fresh_record_0() {
    let table = fresh_table(2);
    assert_eq!(table[..16], hex(FRESH_RECORD_0));
    assert_eq!(table[16..], hex(FRESH_RECORD_1));
}

#[test]
fn p2_update_0() {
    let table = updated(1);
    let record_0 = "B5 0A 02 00  02 01 00 01 00 FF 01 00 FF 01 00 FF";
    assert_eq!(table[..16], hex(record_0));
    assert_eq!(table[16..], hex(FRESH_RECORD_1));
}

#[test]
fn p3_update_0_again() {
    let table = updated(2);
    let record_0 = "B5 0A 02 00  02 02 00 01 00 FF 01 00 FF 01 00 FF";
    assert_eq!(table[..16], hex(record_0));
    assert_eq!(table[16..], hex(FRESH_RECORD_1));
}

#[test]
fn p4_symbol_1_is_back() {
    let table = updated(3);
    let record_0 = "B5 0A 02 00  02 01 00 01 00 FF 01 00 FF 01 00 FF";
    assert_eq!(table[..16], hex(record_0));
    assert_eq!(table[16..], hex(FRESH_RECORD_1));
}

#[test]
fn p5_copies_0_and_1_meet() {
    let mut table = updated(3);
    assert_eq!(meet(&mut table, 0, 1), Ok(()));
    let record_0 = "B5 0A 02 00  01 01 FF 01 01 FF 01 00 FF 01 00 FF";
    let record_1 = "B5 0A 02 01  01 01 FF 01 01 FF 01 00 FF 01 00 FF";
    assert_eq!(table[..16], hex(record_0));
    assert_eq!(table[16..], hex(record_1));
    assert_eq!(compare(&table, 0, 1), Ok(Comparison::Equal));
}

#[test]
fn p6_zero_is_the_greater_symbol() {
    let mut table = updated(3);
    assert_eq!(meet(&mut table, 0, 1), Ok(()));
    assert_eq!(update(&mut table, 0), Ok(()));
    let record_0 = "B5 0A 02 00  02 00 01 01 01 FF 01 00 FF 01 00 FF";
    let record_1 = "B5 0A 02 01  01 01 FF 01 01 FF 01 00 FF 01 00 FF";
    assert_eq!(table[..16], hex(record_0));
    assert_eq!(table[16..], hex(record_1));
    assert_eq!(compare(&table, 1, 0), Ok(Comparison::Older));
    assert_eq!(compare(&table, 0, 1), Ok(Comparison::Newer));
}

/// The N = 3 table after the program's calls up to `M 0 1`.
fn after_the_programs_calls() -> Vec<u8> {
    let mut table = fresh_table(3);
    assert_eq!(update(&mut table, 0), Ok(()));
    assert_eq!(update(&mut table, 2), Ok(()));
    assert_eq!(meet(&mut table, 1, 2), Ok(()));
    assert_eq!(meet(&mut table, 0, 1), Ok(()));
    table
}

const OLD: &str = "0 / 0 / 0";

#[test]
fn p7_the_programs_calls() {
    let met = ["1 0 / 1 0 / 0", OLD, "1 / 1 / 1 0"];
    let expected = table(&[&met, &met, &[OLD, OLD, "0 / 1 0 / 1 0"]]);
    assert_eq!(after_the_programs_calls(), expected);
}

#[test]
fn p8_all_three_equal() {
    let mut after = after_the_programs_calls();
    assert_eq!(meet(&mut after, 1, 2), Ok(()));
    let record_0 = ["1 0 / 1 0 / 0", OLD, "1 / 1 / 1 0"];
    let met = ["1 0 / 1 / 1", OLD, "1 / 1 / 1"];
    assert_eq!(after, table(&[&record_0, &met, &met]));
    for a in 0..3 {
        for b in 0..3 {
            assert_eq!(compare(&after, a, b), Ok(Comparison::Equal));
        }
    }
}

/// Every call that looks at the pair is refused 7 and leaves the bytes alone.
fn assert_refused_7(forged: &[u8]) {
    assert_eq!(check(forged), Ok(()));
    assert_eq!(compare(forged, 0, 1), Err(Refusal::Unrelated));
    assert_eq!(compare(forged, 1, 0), Err(Refusal::Unrelated));
    assert_eq!(superfluous(forged), Err(Refusal::Unrelated));
    let mut after = forged.to_vec();
    assert_eq!(meet(&mut after, 0, 1), Err(Refusal::Unrelated));
    assert_eq!(meet(&mut after, 1, 0), Err(Refusal::Unrelated));
    assert_eq!(after, forged);
    let (first, second) = after.split_at_mut(record_size(2));
    assert_eq!(compare_records(first, second), Err(Refusal::Unrelated));
    assert_eq!(meet_records(first, second), Err(Refusal::Unrelated));
    assert_eq!(meet_records(second, first), Err(Refusal::Unrelated));
    assert_eq!(after, forged);
}

#[test]
fn p9_neither_head_is_found() {
    assert_refused_7(&table(&[&["1 / 1", "0 / 0"], &["2 / 2", "0 / 0"]]));
}

#[test]
fn p10_both_heads_are_found() {
    // Record 1's principal row is its row 1: the heads 1 and 2 stand in both.
    assert_refused_7(&table(&[&["1 2 / 2", "0 / 0"], &["1 / 2 1", "0 / 0"]]));
}

#[test]
fn p11_principal_set_is_not_the_heads() {
    let mut forged = table(&[&["1 / 0", "0 / 0"], &["0 / 0", "0 / 0"]]);
    let before = forged.clone();
    assert_eq!(check(&forged), Err(Refusal::NotWellFormed));
    assert_eq!(compare(&forged, 0, 1), Err(Refusal::NotWellFormed));
    assert_eq!(update(&mut forged, 1), Err(Refusal::NotWellFormed));
    assert_eq!(meet(&mut forged, 0, 1), Err(Refusal::NotWellFormed));
    assert_eq!(superfluous(&forged), Err(Refusal::NotWellFormed));
    assert_eq!(lend(&forged, 1), Err(Refusal::NotWellFormed));
    assert_eq!(forged, before);
}

#[test]
fn p12_mask_6_count_2() {
    let mut table = fresh_table(3);
    assert_eq!(update(&mut table, 0), Ok(()));
    let expected = Superfluous { mask: 6, count: 2 };
    assert_eq!(superfluous(&table), Ok(expected));
}

#[test]
fn fresh_with_n_1_and_9_is_refused_2() {
    for n in [1, 9] {
        let mut room = vec![0xAA; table_size(n)];
        assert_eq!(fresh(n, &mut room), Err(Refusal::BadN));
        assert_eq!(room, vec![0xAA; table_size(n)]);
    }
}

#[test]
fn n_8_with_4639_and_4641_bytes_is_refused_3() {
    assert_eq!(table_size(8), 4640);
    let whole = fresh_table(8);
    for length in [4639, 4641] {
        let mut room = whole.clone();
        room.resize(length, 0xFF);
        assert_eq!(check(&room), Err(Refusal::WrongLength));
        let before = room.clone();
        assert_eq!(fresh(8, &mut room), Err(Refusal::WrongLength));
        assert_eq!(update(&mut room, 0), Err(Refusal::WrongLength));
        assert_eq!(room, before);
    }
    assert_eq!(check(&whole), Ok(()));
}

#[test]
fn copy_8_of_8_is_refused_5() {
    let mut table = fresh_table(8);
    let before = table.clone();
    assert_eq!(update(&mut table, 8), Err(Refusal::NoSuchCopy));
    assert_eq!(meet(&mut table, 0, 8), Err(Refusal::NoSuchCopy));
    assert_eq!(meet(&mut table, 8, 0), Err(Refusal::NoSuchCopy));
    assert_eq!(compare(&table, 8, 0), Err(Refusal::NoSuchCopy));
    assert_eq!(lend(&table, 8), Err(Refusal::NoSuchCopy));
    assert_eq!(table, before);
}

#[test]
fn copy_7_of_8_is_served() {
    let mut table = fresh_table(8);
    assert_eq!(update(&mut table, 7), Ok(()));
    assert_eq!(compare(&table, 7, 0), Ok(Comparison::Newer));
    // Slice 7, row 7 of record 7 is the last row of the table.
    assert_eq!(table[4631..], hex("02 01 00 FF FF FF FF FF FF"));
    assert_eq!(lend(&table, 7), Ok(&table[4060..]));
    assert_eq!(meet(&mut table, 7, 3), Ok(()));
    assert_eq!(compare(&table, 7, 3), Ok(Comparison::Equal));
}

#[test]
fn sizes_are_those_of_document_01() {
    assert_eq!([2, 3, 4, 8].map(record_size), [16, 40, 84, 580]);
    assert_eq!([2, 3, 4, 8].map(table_size), [32, 120, 336, 4640]);
}
