//! Steps worked out by hand where document 01's shortcuts would go wrong.

use counter::answers::Comparison;
use counter::bytes::{record_size, table_size, table_to_bytes};
use counter::calls::{self, lend, read_rows, write_rows};
use counter::model::{self, Record, Slice};
use counter::notation::{record, slice};

/// The slices 0 of all records after calls at N = 3, written `U0`, `M01`.
fn slices_0_after(calls: &[&str]) -> Vec<Slice> {
    let mut table = model::fresh_table(3);
    for call in calls {
        let numbers: Vec<usize> = call[1..].bytes().map(|b| (b - b'0') as usize).collect();
        match numbers[..] {
            [i] => table[i] = model::update(&table[i]),
            [a, b] => {
                let (of_a, of_b) = model::meet(&table[a], &table[b]).expect("a history");
                table[a] = of_a;
                table[b] = of_b;
            }
            _ => panic!("no such call: {call}"),
        }
    }
    table.into_iter().map(|mut r| r.slices.remove(0)).collect()
}

#[test]
fn a_symbol_that_a_cached_row_holds_is_not_free() {
    let slices = slices_0_after(&["U0", "M02", "M10", "U0"]);
    // Row 2 of record 0 still holds 0, though its principal row was cut down to 1.
    assert_eq!(slices[0], slice("2 1 / 1 / 1 0"));
    assert_eq!(slices[1], slice("1 / 1 / 1 0"));
    assert_eq!(slices[2], slice("1 0 / 0 / 1 0"));
}

#[test]
fn a_missing_symbol_is_not_the_greatest() {
    let slices = slices_0_after(&["U0", "M20", "M01", "U0", "M02"]);
    assert_eq!(slices[0], slice("2 1 / 1 / 2 1"));
    assert_eq!(slices[1], slice("1 / 1 / 1 0"));
    // Record 2 had row 1 with head 0, which is missing from 2 1.
    assert_eq!(slices[2], slice("2 1 / 1 / 2 1"));
}

#[test]
fn a_row_is_kept_where_its_head_did_not_change() {
    let slices = slices_0_after(&["U0", "M02", "M12", "M10"]);
    assert_eq!(slices[0], slice("1 / 1 / 1 0"));
    assert_eq!(slices[1], slice("1 / 1 / 1"));
    assert_eq!(slices[2], slice("1 0 / 1 / 1"));
}

#[test]
fn symbols_are_not_compared_as_numbers() {
    let calls = ["U0", "U0", "M20", "U0", "M12", "M20", "U0", "M10"];
    let slices = slices_0_after(&calls[..6]);
    // 1 is newer than 2, and 0 is the oldest.
    assert_eq!(slices[0], slice("1 2 / 2 / 1 2"));
    assert_eq!(slices[2], slice("1 2 / 2 / 1 2"));
    assert_eq!(slices[1], slice("2 0 / 2 / 2"));
    let slices = slices_0_after(&calls);
    assert_eq!(slices[0], slice("0 1 / 0 1 / 1 2"));
    assert_eq!(slices[1], slice("0 1 / 0 1 / 1 2"));
}

/// Records 0 and 1 of N = 3 with these slices 0; the others are fresh.
fn forged(of_0: &str, of_1: &str) -> Vec<u8> {
    let old = "0 / 0 / 0";
    let records: [Record; 3] = [
        record(0, &[of_0, old, old]),
        record(1, &[of_1, old, old]),
        record(2, &[old, old, old]),
    ];
    table_to_bytes(&records)
}

#[test]
fn the_one_named_second_wins_a_level_slice() {
    let before = forged("5 3 / 5 / 3", "5 / 5 4 / 4");
    let mut there = before.clone();
    assert_eq!(calls::meet(&mut there, 0, 1), Ok(()));
    assert_eq!(there, forged("5 4 / 5 4 / 4", "5 4 / 5 4 / 4"));
    let mut back = before;
    assert_eq!(calls::meet(&mut back, 1, 0), Ok(()));
    assert_eq!(back, forged("5 3 / 5 3 / 3", "5 3 / 5 3 / 3"));
}

#[test]
fn heads_are_read_before_anything_is_written() {
    // Copy 1 wins; record 0 already written would have 8 in row 0, level with copy 1.
    let before = forged("2 7 / 2 / 7 5", "2 6 / 8 7 2 / 7 4");
    let mut after = before;
    assert_eq!(calls::compare(&after, 0, 1), Ok(Comparison::Older));
    assert_eq!(calls::meet(&mut after, 0, 1), Ok(()));
    assert_eq!(after, forged("8 7 / 8 7 / 7 5", "8 7 / 8 7 / 7 4"));
}

#[test]
fn the_loser_can_have_the_later_head() {
    // The loser's head 7 of row 2 stands earlier in W than the winner's 2, so it stays.
    let mut after = forged("2 7 / 2 / 7 5", "7 3 / 8 7 2 / 2 1");
    assert_eq!(calls::meet(&mut after, 1, 0), Ok(()));
    assert_eq!(after, forged("8 7 / 8 7 / 7 5", "8 7 / 8 7 / 7 5"));
}

#[test]
fn a_wins_when_its_head_is_not_found() {
    // Copy 0 is ahead; its head 6 of row 2 is kept, as copy 1's head 0 is missing from W.
    let mut after = forged("5 6 1 / 1 / 6", "1 / 1 0 / 0 8");
    assert_eq!(calls::compare(&after, 0, 1), Ok(Comparison::Newer));
    assert_eq!(calls::meet(&mut after, 0, 1), Ok(()));
    assert_eq!(after, forged("5 6 / 5 6 / 6", "5 6 / 5 6 / 6"));
}

#[test]
fn loose_records_meet_as_copies_do() {
    let before = forged("5 3 / 5 / 3", "5 / 5 4 / 4");
    let mut table = before.clone();
    assert_eq!(calls::meet(&mut table, 0, 1), Ok(()));
    let mut first = before[..40].to_vec();
    let mut second = before[40..80].to_vec();
    assert_eq!(calls::meet_records(&mut first, &mut second), Ok(()));
    assert_eq!(first, table[..40]);
    assert_eq!(second, table[40..80]);
    assert_eq!(table[80..], before[80..]);
}

#[test]
fn lending_gives_the_place_and_no_copy() {
    for n in 2..=8 {
        let mut table = vec![0; table_size(n)];
        assert_eq!(calls::fresh(n, &mut table), Ok(()));
        for i in 0..n {
            let part = lend(&table, i).expect("copy i is there");
            assert!(std::ptr::eq(&part[0], &table[i * record_size(n)]));
            assert_eq!(part.len(), record_size(n));
        }
    }
}

#[test]
fn rows_are_where_the_shape_says() {
    let bytes = forged("5 3 / 5 / 3", "5 / 5 4 / 4");
    let rows = read_rows(&bytes[..40]).expect("well formed");
    assert_eq!((rows.n, rows.own), (3, 0));
    let mut lengths = [0; 64];
    let mut cells = [0xFF; 512];
    for p in 0..3 {
        for k in 0..3 {
            lengths[p * 8 + k] = 1;
            cells[(p * 8 + k) * 8] = 0;
        }
    }
    lengths[0] = 2;
    cells[0] = 5;
    cells[1] = 3;
    cells[8] = 5;
    cells[16] = 3;
    assert_eq!(rows.lengths, lengths);
    assert_eq!(rows.cells, cells);
    let mut buffer = vec![0x55; 40];
    assert_eq!(write_rows(&rows, &mut buffer), Ok(()));
    assert_eq!(buffer, bytes[..40]);
}
