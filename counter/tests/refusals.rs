//! Every line of the refusal table for each call it applies to, and the order of refusals.

use counter::answers::Refusal::{self, *};
use counter::answers::{Comparison, Superfluous};
use counter::bytes::{record_size, table_size, Rows};
use counter::calls::{self, TableCall};
use counter::calls::{check_record, compare_records, meet_records, read_rows, write_rows};
use counter::calls::{Outcome, TableCall::*};

const HUGE: usize = usize::MAX;

fn fresh_table(n: usize) -> Vec<u8> {
    let mut table = vec![0; table_size(n)];
    calls::fresh(n, &mut table).expect("N is allowed and the room is right");
    table
}

/// Bytes with some of them set.
fn with(bytes: &[u8], places: &[(usize, u8)]) -> Vec<u8> {
    let mut bytes = bytes.to_vec();
    for &(place, byte) in places {
        bytes[place] = byte;
    }
    bytes
}

/// Every call on a table that reads it, with good and bad numbers for N = 3.
const READERS: [TableCall; 16] = [
    Check,
    Update(0),
    Update(3),
    Update(HUGE),
    Meet(0, 1),
    Meet(0, 0),
    Meet(0, 3),
    Meet(HUGE, HUGE),
    Compare(0, 1),
    Compare(2, 2),
    Compare(3, 0),
    Compare(HUGE, HUGE),
    Lend(2),
    Lend(3),
    Lend(HUGE),
    Superfluous,
];

fn assert_refused(table: &[u8], call: TableCall, refusal: Refusal) {
    let mut after = table.to_vec();
    let outcome = calls::answer(&mut after, call);
    assert_eq!(outcome, Outcome::Refused(refusal), "{call:?}");
    assert_eq!(after, table, "{call:?} wrote");
}

fn assert_all_refused(table: &[u8], refusal: Refusal) {
    for call in READERS {
        assert_refused(table, call, refusal);
    }
}

/// N = 3: in slice 1 copies 0 and 1 are unrelated, copy 2 is older than both.
fn one_unrelated_pair() -> Vec<u8> {
    let table = fresh_table(3);
    // Slice 1 starts at 16; the principal row of record 0 is its row 0, of record 1 its row 1.
    with(
        &table,
        &[
            (16, 2),
            (17, 4),
            (18, 0),
            (40 + 20, 2),
            (40 + 21, 5),
            (40 + 22, 0),
        ],
    )
}

#[test]
fn table_1_short_or_without_the_mark() {
    let table = fresh_table(3);
    for length in 0..4 {
        assert_all_refused(&table[..length], NoMark);
    }
    assert_all_refused(&with(&table, &[(0, 0xB4)]), NoMark);
    assert_all_refused(&with(&table, &[(1, 0x0B)]), NoMark);
    assert_all_refused(&with(&table, &[(0, 0x0A), (1, 0xB5)]), NoMark);
}

#[test]
fn table_2_n_out_of_range() {
    let table = fresh_table(3);
    for n in [0, 1, 9, 16, 131, 255] {
        assert_all_refused(&with(&table, &[(2, n)]), BadN);
    }
    assert_all_refused(&[0xB5, 0x0A, 9, 0], BadN);
}

#[test]
fn table_3_wrong_length() {
    let table = fresh_table(3);
    for length in [4, 40, 80, 119] {
        assert_all_refused(&table[..length], WrongLength);
    }
    let mut longer = table.clone();
    longer.push(0xFF);
    assert_all_refused(&longer, WrongLength);
    for n in [2, 4, 5, 6, 7, 8] {
        assert_all_refused(&with(&table, &[(2, n)]), WrongLength);
    }
}

#[test]
fn table_4_not_well_formed() {
    let table = fresh_table(3);
    // Place 4 is the length of the first row of the first record, 5 to 7 are its cells.
    for length in [0, 2, 3, 4, 255] {
        assert_all_refused(&with(&table, &[(4, length)]), NotWellFormed);
    }
    assert_all_refused(&with(&table, &[(5, 9)]), NotWellFormed);
    assert_all_refused(&with(&table, &[(5, 0xFF)]), NotWellFormed);
    assert_all_refused(&with(&table, &[(4, 2), (6, 0)]), NotWellFormed);
    assert_all_refused(&with(&table, &[(6, 0)]), NotWellFormed);
    assert_all_refused(&with(&table, &[(7, 0xFE)]), NotWellFormed);
    assert_all_refused(&with(&table, &[(4, 2), (6, 1)]), NotWellFormed);
    assert_all_refused(&with(&table, &[(9, 1)]), NotWellFormed);
    // Any of these in the last row of the last record, too.
    assert_all_refused(&with(&table, &[(119, 0)]), NotWellFormed);
    assert_all_refused(&with(&table, &[(116, 0)]), NotWellFormed);
    assert_all_refused(&with(&table, &[(117, 8)]), NotWellFormed);
}

#[test]
fn table_4_own_number_of_any_record_and_header_of_a_later_one() {
    let table = fresh_table(3);
    for own in [1, 2, 3, 255] {
        assert_all_refused(&with(&table, &[(3, own)]), NotWellFormed);
    }
    for own in [0, 2, 3, 255] {
        assert_all_refused(&with(&table, &[(43, own)]), NotWellFormed);
    }
    for n in [0, 1, 2, 4, 9] {
        assert_all_refused(&with(&table, &[(42, n)]), NotWellFormed);
        assert_all_refused(&with(&table, &[(82, n)]), NotWellFormed);
    }
    assert_all_refused(&with(&table, &[(40, 0)]), NotWellFormed);
    assert_all_refused(&with(&table, &[(81, 0)]), NotWellFormed);
}

#[test]
fn table_order_of_1_to_4() {
    let table = fresh_table(3);
    let bad = with(&table, &[(0, 0), (2, 9), (3, 9), (4, 0)]);
    assert_all_refused(&bad, NoMark);
    assert_all_refused(&bad[..3], NoMark);
    let bad = with(&table, &[(2, 9), (3, 9), (4, 0)]);
    assert_all_refused(&bad, BadN);
    assert_all_refused(&bad[..100], BadN);
    let bad = with(&table, &[(3, 9), (4, 0), (40, 0)]);
    assert_all_refused(&bad[..100], WrongLength);
    assert_all_refused(&bad, NotWellFormed);
}

#[test]
fn table_5_no_such_copy() {
    for n in 2..=8 {
        let table = fresh_table(n);
        let bits = usize::BITS;
        for far in [n, n + 1, 255, 256, 257, 65_536, 1 << (bits / 2), HUGE] {
            for call in [
                Update(far),
                Meet(far, 0),
                Meet(0, far),
                Meet(far, far),
                Compare(far, 0),
                Compare(0, far),
                Compare(far, far),
                Lend(far),
            ] {
                assert_refused(&table, call, NoSuchCopy);
            }
        }
    }
}

#[test]
fn table_6_one_copy_named_twice() {
    for n in 2..=8 {
        let table = fresh_table(n);
        for i in 0..n {
            assert_refused(&table, Meet(i, i), SameCopy);
            let equal = calls::compare(&table, i, i);
            assert_eq!(equal, Ok(Comparison::Equal));
        }
    }
}

#[test]
fn table_7_of_the_named_pair_only_but_of_any_pair_for_the_list() {
    let table = one_unrelated_pair();
    for call in [
        Meet(0, 1),
        Meet(1, 0),
        Compare(0, 1),
        Compare(1, 0),
        Superfluous,
    ] {
        assert_refused(&table, call, Unrelated);
    }
    assert_eq!(calls::compare(&table, 0, 2), Ok(Comparison::Newer));
    assert_eq!(calls::compare(&table, 2, 1), Ok(Comparison::Older));
    assert_eq!(calls::compare(&table, 0, 0), Ok(Comparison::Equal));
    for call in [Check, Update(0), Update(1), Meet(0, 2), Meet(2, 1)] {
        let mut after = table.clone();
        assert_eq!(calls::answer(&mut after, call), Outcome::Done, "{call:?}");
    }
    assert_eq!(calls::lend(&table, 1), Ok(&table[40..80]));
}

#[test]
fn table_5_and_6_before_7() {
    let table = one_unrelated_pair();
    assert_refused(&table, Meet(0, 3), NoSuchCopy);
    assert_refused(&table, Meet(9, 9), NoSuchCopy);
    assert_refused(&table, Meet(0, 0), SameCopy);
    assert_refused(&table, Compare(1, 3), NoSuchCopy);
}

#[test]
fn table_7_is_decided_before_any_slice_is_written() {
    // Slice 0 alone would change, slice 1 is unrelated.
    let mut table = one_unrelated_pair();
    assert_eq!(calls::update(&mut table, 0), Ok(()));
    assert_refused(&table, Meet(0, 1), Unrelated);
    assert_refused(&table, Meet(1, 0), Unrelated);
}

#[test]
fn fresh_2_then_3() {
    for n in [0, 1, 9, 10, 255, 256, 258, 65_538, HUGE] {
        for length in [0, 1, 32, 120] {
            assert_refused(&vec![0x77; length], Fresh(n), BadN);
        }
    }
    for n in 2..=8 {
        let right = table_size(n);
        for length in [0, 3, record_size(n), right - 1, right + 1, 2 * right] {
            assert_refused(&vec![0x77; length], Fresh(n), WrongLength);
        }
        let mut room = vec![0x77; right];
        assert_eq!(calls::fresh(n, &mut room), Ok(()));
        assert_eq!(calls::check(&room), Ok(()));
    }
}

#[test]
fn superfluous_answers_nothing_else() {
    let table = fresh_table(3);
    let all = Superfluous { mask: 7, count: 3 };
    assert_eq!(calls::superfluous(&table), Ok(all));
}

/// Loose record i of a fresh table of N copies.
fn loose(n: usize, i: usize) -> Vec<u8> {
    calls::lend(&fresh_table(n), i)
        .expect("copy i is there")
        .to_vec()
}

/// One fault for each of 1 to 4.
fn faulty_records() -> Vec<(Vec<u8>, Refusal)> {
    let record = loose(3, 1);
    let mut longer = record.clone();
    longer.push(0xFF);
    vec![
        (vec![], NoMark),
        (record[..3].to_vec(), NoMark),
        (with(&record, &[(0, 0)]), NoMark),
        (with(&record, &[(1, 0), (2, 0)]), NoMark),
        (with(&record, &[(2, 0)]), BadN),
        (with(&record, &[(2, 1), (3, 9)]), BadN),
        (with(&record, &[(2, 9)])[..20].to_vec(), BadN),
        (record[..4].to_vec(), WrongLength),
        (record[..39].to_vec(), WrongLength),
        (longer, WrongLength),
        (with(&record, &[(2, 4)]), WrongLength),
        (with(&record, &[(3, 3), (4, 0)])[..39].to_vec(), WrongLength),
        (with(&record, &[(3, 3)]), NotWellFormed),
        (with(&record, &[(3, 255)]), NotWellFormed),
        (with(&record, &[(4, 0)]), NotWellFormed),
        (with(&record, &[(4, 4)]), NotWellFormed),
        (with(&record, &[(5, 9)]), NotWellFormed),
        (with(&record, &[(4, 2), (6, 0)]), NotWellFormed),
        (with(&record, &[(7, 0)]), NotWellFormed),
        (with(&record, &[(5, 1)]), NotWellFormed),
        (with(&record, &[(8, 2), (10, 1)]), NotWellFormed),
    ]
}

#[test]
fn loose_check_and_reading_1_to_4() {
    assert_eq!(check_record(&loose(3, 1)), Ok(()));
    for (record, refusal) in faulty_records() {
        assert_eq!(check_record(&record), Err(refusal), "{record:02X?}");
        assert_eq!(read_rows(&record), Err(refusal), "{record:02X?}");
    }
}

fn assert_pair_refused(first: &[u8], second: &[u8], refusal: Refusal) {
    assert_eq!(compare_records(first, second), Err(refusal));
    let mut after = (first.to_vec(), second.to_vec());
    assert_eq!(meet_records(&mut after.0, &mut after.1), Err(refusal));
    assert_eq!((&after.0[..], &after.1[..]), (first, second));
}

#[test]
fn loose_pair_1_to_4_of_the_first_then_of_the_second() {
    let good = loose(3, 0);
    for (bad, refusal) in faulty_records() {
        assert_pair_refused(&bad, &good, refusal);
        assert_pair_refused(&good, &bad, refusal);
        for (other, _) in faulty_records() {
            assert_pair_refused(&bad, &other, refusal);
        }
        // The faults of the second come before 8 and 6.
        assert_pair_refused(&loose(2, 1), &bad, refusal);
        assert_pair_refused(&loose(3, 1), &bad, refusal);
    }
}

#[test]
fn loose_pair_8_then_6_then_7() {
    assert_pair_refused(&loose(2, 0), &loose(3, 1), DifferentN);
    assert_pair_refused(&loose(3, 1), &loose(2, 1), DifferentN);
    assert_pair_refused(&loose(3, 1), &loose(3, 1), SameCopy);
    let table = one_unrelated_pair();
    let (first, second) = (&table[..40], &table[40..80]);
    assert_pair_refused(first, second, Unrelated);
    assert_pair_refused(second, first, Unrelated);
    // As record 0 with principal row 5 0 in slice 1, it would be unrelated to the first.
    let same_own = with(first, &[(17, 5)]);
    assert_eq!(check_record(&same_own), Ok(()));
    assert_pair_refused(first, &same_own, SameCopy);
    let met = compare_records(first, &table[80..]);
    assert_eq!(met, Ok(Comparison::Newer));
}

/// The rows of fresh record 1 of N = 3.
fn fresh_rows() -> Rows {
    read_rows(&loose(3, 1)).expect("well formed")
}

fn assert_writing_refused(rows: &Rows, length: usize, refusal: Refusal) {
    let mut buffer = vec![0x33; length];
    assert_eq!(write_rows(rows, &mut buffer), Err(refusal));
    assert_eq!(buffer, vec![0x33; length]);
}

#[test]
fn writing_2_then_3_then_4() {
    for n in [0, 1, 9, 255, 259, 65_539, HUGE] {
        for own in [0, 3, HUGE] {
            let rows = Rows {
                n,
                own,
                ..fresh_rows()
            };
            assert_writing_refused(&rows, 40, BadN);
            assert_writing_refused(&rows, 0, BadN);
        }
    }
    let mut not_well_formed = fresh_rows();
    not_well_formed.lengths[0] = 0;
    for length in [0, 4, 16, 39, 41, 120] {
        assert_writing_refused(&fresh_rows(), length, WrongLength);
        assert_writing_refused(&not_well_formed, length, WrongLength);
    }
    assert_writing_refused(&not_well_formed, 40, NotWellFormed);
}

#[test]
fn writing_4_for_each_rule() {
    for own in [3, 4, 255, 257, HUGE] {
        let rows = Rows {
            own,
            ..fresh_rows()
        };
        assert_writing_refused(&rows, 40, NotWellFormed);
    }
    // Row 2 of slice 2 is at 18, its cells at 144; cells 144 to 146 are within N.
    let changes: [&[(usize, u8)]; 6] = [
        &[(144, 9)],
        &[(144, 0xFF)],
        &[(144, 1)],
        &[(145, 0)],
        &[(146, 0xFE)],
        &[(136, 1)],
    ];
    for change in changes {
        let mut rows = fresh_rows();
        for &(place, byte) in change {
            rows.cells[place] = byte;
        }
        assert_writing_refused(&rows, 40, NotWellFormed);
    }
    for length in [0, 2, 4, 8, 255] {
        let mut rows = fresh_rows();
        rows.lengths[18] = length;
        assert_writing_refused(&rows, 40, NotWellFormed);
    }
    let mut repeated = fresh_rows();
    repeated.lengths[18] = 2;
    repeated.cells[145] = 0;
    assert_writing_refused(&repeated, 40, NotWellFormed);
    repeated.cells[145] = 8;
    assert_eq!(write_rows(&repeated, &mut [0; 40]), Ok(()));
}

#[test]
fn writing_ignores_room_beyond_n_and_old_bytes() {
    let mut rows = fresh_rows();
    // Cell 3 of row 0, row 3 of slice 0 and slice 3 are all beyond N = 3.
    rows.cells[3] = 0;
    rows.lengths[3] = 200;
    rows.cells[24] = 200;
    rows.lengths[24] = 9;
    rows.cells[511] = 1;
    let mut buffer = vec![0x99; 40];
    assert_eq!(write_rows(&rows, &mut buffer), Ok(()));
    assert_eq!(buffer, loose(3, 1));
}

#[test]
fn a_refused_reading_stands_beside_a_blank() {
    let blank = Rows::blank();
    assert_eq!((blank.n, blank.own), (0, 0));
    assert_eq!(blank.lengths, [0; 64]);
    assert_eq!(blank.cells, [0xFF; 512]);
}

#[test]
fn numbers_are_those_of_the_table() {
    let numbers = Refusal::ALL.map(Refusal::number);
    assert_eq!(numbers, [1, 2, 3, 4, 5, 6, 7, 8, 9]);
    assert_eq!(NoMark.number(), 1);
    assert_eq!(NotWellFormed.number(), 4);
    assert_eq!(Unreadable.number(), 9);
    assert_eq!(Comparison::ALL.map(Comparison::number), [0, 1, 2, 3]);
}
