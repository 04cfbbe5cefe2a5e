//! The generators: nothing they announce is left out, and the calls answer them as they must.

use counter::answers::Refusal;
use counter::bytes::{record_size, record_to_bytes, table_from_bytes, table_to_bytes};
use counter::calls::{self, Outcome, TableCall};
use counter::desk::{lines, read_line, stampdesk};
use counter::gen::coverage::Coverage;
use counter::gen::damaged::{damaged, Damaged};
use counter::gen::forged::{forged_table, Relation};
use counter::gen::histories::history;
use counter::gen::loose::loose_pairs;
use counter::gen::prng::Prng;
use counter::gen::rows::{rows_cases, RowsKind};
use counter::gen::tables::{table_cases, TableCase};
use counter::gen::texts::{broken_line, program_texts, BROKEN};
use counter::gen::SEED;
use counter::model::{self, head, Record};

fn assert_nothing_empty(n: usize, coverage: &Coverage) {
    let empty = coverage.empty_kinds();
    assert!(empty.is_empty(), "N = {n}, never made: {empty:?}");
}

#[test]
fn histories_cover_every_kind() {
    for n in 2..=8 {
        let (calls, coverage) = history(SEED, n, 1500);
        assert!(calls.len() >= 1500);
        assert_nothing_empty(n, &coverage);
    }
}

#[test]
fn table_cases_cover_every_kind() {
    for n in 2..=8 {
        let (cases, coverage) = table_cases(SEED, n, 1500);
        assert!(cases.len() >= 1500);
        assert_nothing_empty(n, &coverage);
    }
}

#[test]
fn loose_pairs_cover_every_kind() {
    for n in 2..=8 {
        let (pairs, coverage) = loose_pairs(SEED, n, 1200);
        assert_eq!(pairs.len(), 1200);
        assert_nothing_empty(n, &coverage);
    }
}

#[test]
fn damaged_bytes_cover_every_kind() {
    for n in 2..=8 {
        for loose in [true, false] {
            assert_nothing_empty(n, &damaged(SEED, n, loose, 5).1);
        }
    }
}

#[test]
fn rows_cover_every_kind() {
    for n in 2..=8 {
        assert_nothing_empty(n, &rows_cases(SEED, n, 3).1);
    }
}

#[test]
fn program_texts_cover_every_kind() {
    assert_nothing_empty(0, &program_texts(SEED, 300).1);
}

#[test]
fn coverage_tells_an_empty_kind() {
    let mut coverage = Coverage::expecting(["made", "never made"]);
    coverage.note("made");
    assert_eq!(coverage.empty_kinds(), ["never made"]);
    assert_eq!(coverage.count("made"), 1);
}

#[test]
fn a_seed_fixes_what_is_made() {
    assert_eq!(history(1, 4, 200), history(1, 4, 200));
    assert_ne!(history(1, 4, 200).0, history(2, 4, 200).0);
    assert_eq!(table_cases(1, 4, 50), table_cases(1, 4, 50));
    assert_ne!(table_cases(1, 4, 50).0, table_cases(2, 4, 50).0);
    assert_eq!(loose_pairs(1, 4, 50), loose_pairs(1, 4, 50));
    assert_ne!(loose_pairs(1, 4, 50).0, loose_pairs(2, 4, 50).0);
    assert_eq!(damaged(1, 4, true, 1), damaged(1, 4, true, 1));
    assert_ne!(damaged(1, 4, true, 1).0, damaged(2, 4, true, 1).0);
    assert_eq!(rows_cases(1, 4, 1), rows_cases(1, 4, 1));
    assert_ne!(rows_cases(1, 4, 1).0, rows_cases(2, 4, 1).0);
    assert_eq!(program_texts(1, 3), program_texts(1, 3));
    assert_ne!(program_texts(1, 3).0, program_texts(2, 3).0);
    // The first numbers of splitmix64 from 0, so that every machine makes the same.
    let mut prng = Prng::new(0);
    assert_eq!(prng.bits(), 0xE220_A839_7B1D_CDAF);
    assert_eq!(prng.bits(), 0x6E78_9E6A_A1B9_65F4);
}

#[test]
fn forged_tables_are_well_formed_and_related_as_asked() {
    let mut prng = Prng::new(SEED);
    for n in 2..=8 {
        for relation in [&Relation::RELATED[..], &Relation::UNRELATED[..]].concat() {
            for _ in 0..60 {
                let table = forged_table(&mut prng, n, relation);
                assert_eq!(table_from_bytes(&table_to_bytes(&table)), Ok(table.clone()));
                let list = model::superfluous(&table);
                match relation {
                    Relation::Level => assert_eq!(list.map(|l| l.count as usize), Ok(n)),
                    Relation::Apart => assert_eq!(list.map(|l| l.count), Ok(0)),
                    Relation::Chain | Relation::Free => assert!(list.is_ok()),
                    _ => assert_eq!(list, Err(Refusal::Unrelated)),
                }
            }
        }
    }
}

/// Damaged bytes are refused with the number of their fault and stay as they are.
fn assert_damaged_table_refused(n: usize, case: &Damaged) {
    for call in [
        TableCall::Check,
        TableCall::Update(n - 1),
        TableCall::Update(n),
        TableCall::Meet(0, 1),
        TableCall::Meet(0, 0),
        TableCall::Compare(1, 0),
        TableCall::Compare(0, 0),
        TableCall::Lend(0),
        TableCall::Superfluous,
    ] {
        let mut bytes = case.bytes.clone();
        let outcome = calls::answer(&mut bytes, call);
        assert_eq!(outcome, Outcome::Refused(case.refusal), "{:?}", case.faults);
        assert_eq!(bytes, case.bytes);
    }
}

#[test]
fn damaged_tables_are_refused_by_every_call() {
    for n in 2..=8 {
        for case in damaged(SEED, n, false, 5).0 {
            assert_damaged_table_refused(n, &case);
        }
    }
}

#[test]
fn damaged_records_are_refused_by_every_call() {
    for n in 2..=8 {
        let mut prng = Prng::new(SEED);
        let table = forged_table(&mut prng, n, Relation::Free);
        let good = record_to_bytes(&table[0]);
        for case in damaged(SEED, n, true, 8).0 {
            let refused = Err(case.refusal);
            assert_eq!(calls::check_record(&case.bytes), refused);
            assert_eq!(calls::read_rows(&case.bytes).map(|_| ()), refused);
            let compared = calls::compare_records(&good, &case.bytes);
            assert_eq!(compared.map(|_| ()), refused);
            let compared = calls::compare_records(&case.bytes, &good);
            assert_eq!(compared.map(|_| ()), refused);
            let (mut first, mut second) = (good.clone(), case.bytes.clone());
            assert_eq!(calls::meet_records(&mut first, &mut second), refused);
            assert_eq!(calls::meet_records(&mut second, &mut first), refused);
            assert_eq!((&first, &second), (&good, &case.bytes));
        }
    }
}

#[test]
fn rows_are_written_or_refused_as_their_kind_says() {
    for n in 2..=8 {
        for case in rows_cases(SEED, n, 4).0 {
            let mut buffer = case.buffer.clone();
            let outcome = calls::write_rows(&case.rows, &mut buffer);
            assert_eq!(outcome.err(), case.refusal, "{:?}", case.kind);
            if case.refusal.is_some() {
                assert_eq!(buffer, case.buffer);
                continue;
            }
            assert_eq!(case.kind, RowsKind::WellFormed);
            let read = calls::read_rows(&buffer).expect("what was written is well formed");
            if case.junk_beyond_n && n < 8 {
                assert_ne!(read, case.rows);
            } else {
                assert_eq!(read, case.rows);
            }
            let mut again = vec![0; buffer.len()];
            assert_eq!(calls::write_rows(&read, &mut again), Ok(()));
            assert_eq!(again, buffer);
        }
    }
}

/// What document 01 says of record p after an update, sentence by sentence.
fn assert_updated(before: &Record, after: &Record) {
    let (n, p) = (before.n, before.own);
    for q in (0..n).filter(|&q| q != p) {
        assert_eq!(after.slices[q], before.slices[q]);
    }
    let (old, new) = (&before.slices[p], &after.slices[p]);
    let held = |s: u8| old.iter().any(|row| row.contains(&s));
    let symbol = head(&new[p]);
    assert!(!held(symbol) && (0..symbol).all(held));
    let heads_of_others: Vec<u8> = (0..n).filter(|&k| k != p).map(|k| head(&old[k])).collect();
    let mut expected = old[p].clone();
    expected.retain(|s| heads_of_others.contains(s));
    assert_eq!(new[p][1..], expected);
    for k in (0..n).filter(|&k| k != p) {
        assert_eq!(new[k], old[k]);
    }
}

/// What document 01 says of both records after a meeting, sentence by sentence.
fn assert_met(a: &Record, b: &Record, a_after: &Record, b_after: &Record) {
    let place = |row: &[u8], s: u8| row.iter().position(|&t| t == s);
    for p in 0..a.n {
        let a_head = head(a.principal_row(p));
        let b_wins = place(b.principal_row(p), a_head).is_some();
        let (winner, loser) = if b_wins { (b, a) } else { (a, b) };
        let w = winner.principal_row(p);
        let mut heads = vec![w[0]];
        for k in (0..a.n).filter(|&k| k != a.own && k != b.own) {
            let (x, y) = (head(&loser.slices[p][k]), head(&winner.slices[p][k]));
            // A missing x never comes first, whatever y's place.
            let x_first = place(w, x) <= place(w, y) && place(w, x).is_some();
            let expected = if x_first { x } else { y };
            heads.push(expected);
            for (old, new, other) in [(a, a_after, b), (b, b_after, a)] {
                let kept = head(&old.slices[p][k]) == expected;
                let source = if kept { old } else { other };
                assert_eq!(new.slices[p][k], source.slices[p][k]);
                assert_eq!(head(&new.slices[p][k]), expected);
            }
        }
        let mut cut = w.clone();
        cut.retain(|s| heads.contains(s));
        for new in [a_after, b_after] {
            assert_eq!(new.slices[p][a.own], cut);
            assert_eq!(new.slices[p][b.own], cut);
        }
    }
}

/// The records that a call names.
fn named(call: TableCall) -> Vec<usize> {
    match call {
        TableCall::Update(i) => vec![i],
        TableCall::Meet(a, b) => vec![a, b],
        _ => vec![],
    }
}

fn assert_table_case(case: &TableCase) {
    let n = case.n;
    let mut after = case.table.clone();
    let outcome = calls::answer(&mut after, case.call);
    if matches!(outcome, Outcome::Refused(_)) {
        assert_eq!(after, case.table, "{:?}", case.call);
        return;
    }
    if matches!(case.call, TableCall::Fresh(_)) {
        assert_eq!(table_from_bytes(&after), Ok(model::fresh_table(n)));
        return;
    }
    let old = table_from_bytes(&case.table).expect("it was accepted");
    let new = table_from_bytes(&after).expect("it stays well formed");
    for i in (0..n).filter(|i| !named(case.call).contains(i)) {
        assert_eq!(new[i], old[i], "{:?} wrote record {i}", case.call);
    }
    match case.call {
        TableCall::Update(i) => assert_updated(&old[i], &new[i]),
        TableCall::Meet(a, b) => assert_met(&old[a], &old[b], &new[a], &new[b]),
        TableCall::Lend(i) => {
            let start = i * record_size(n);
            let end = start + record_size(n);
            assert_eq!(outcome, Outcome::Lent { start, end });
        }
        _ => {}
    }
}

#[test]
fn table_cases_end_as_document_01_says() {
    for n in 2..=8 {
        for case in table_cases(SEED + 1, n, 1200).0 {
            assert_table_case(&case);
        }
    }
}

#[test]
fn only_the_named_records_count() {
    let mut prng = Prng::new(SEED);
    for n in 3..=8 {
        for _ in 0..100 {
            let table = forged_table(&mut prng, n, Relation::Free);
            let strangers = forged_table(&mut prng, n, Relation::Free);
            let (a, b) = prng.two_below(n);
            for call in [
                TableCall::Update(a),
                TableCall::Meet(a, b),
                TableCall::Compare(a, b),
            ] {
                let mut mixed = strangers.clone();
                mixed[a] = table[a].clone();
                mixed[b] = table[b].clone();
                let mut here = table_to_bytes(&table);
                let mut there = table_to_bytes(&mixed);
                let answers = (
                    calls::answer(&mut here, call),
                    calls::answer(&mut there, call),
                );
                assert_eq!(answers.0, answers.1);
                for i in [a, b] {
                    assert_eq!(calls::lend(&here, i), calls::lend(&there, i));
                }
            }
        }
    }
}

#[test]
fn loose_pairs_answer_as_the_table_does() {
    let mut prng = Prng::new(SEED);
    for n in 2..=8 {
        for relation in [&Relation::RELATED[..], &Relation::UNRELATED[..]].concat() {
            for _ in 0..30 {
                let records = forged_table(&mut prng, n, relation);
                let mut table = table_to_bytes(&records);
                let (a, b) = prng.two_below(n);
                let mut first = record_to_bytes(&records[a]);
                let mut second = record_to_bytes(&records[b]);
                let compared = calls::compare_records(&first, &second);
                assert_eq!(compared, calls::compare(&table, a, b));
                let met = calls::meet_records(&mut first, &mut second);
                assert_eq!(met, calls::meet(&mut table, a, b));
                assert_eq!(calls::lend(&table, a), Ok(&first[..]));
                assert_eq!(calls::lend(&table, b), Ok(&second[..]));
            }
        }
    }
}

#[test]
fn refused_loose_pairs_keep_their_bytes() {
    for n in 2..=8 {
        for pair in loose_pairs(SEED + 1, n, 500).0 {
            let (mut first, mut second) = (pair.first.clone(), pair.second.clone());
            let compared = calls::compare_records(&first, &second);
            let met = calls::meet_records(&mut first, &mut second);
            assert_eq!(met.err(), compared.err());
            if met.is_err() {
                assert_eq!((first, second), (pair.first, pair.second));
            }
        }
    }
}

#[test]
fn broken_lines_are_unreadable() {
    let mut prng = Prng::new(SEED);
    for kind in BROKEN {
        for _ in 0..50 {
            let line = broken_line(&mut prng, kind);
            assert!(!line.contains(&b'\n'), "{kind}");
            assert_eq!(read_line(&line), None, "{kind}: {line:?}");
        }
    }
}

#[test]
fn program_texts_have_one_answer_a_line() {
    for text in program_texts(SEED, 60).0 {
        let output = String::from_utf8(stampdesk(&text)).expect("plain text");
        assert!(output.starts_with("line call answer\n") && output.ends_with('\n'));
        let answers: Vec<&str> = output.lines().skip(1).collect();
        if text.len() > 65_536 {
            assert_eq!(answers, ["0 ? refused 9"]);
            continue;
        }
        let asked = lines(&text);
        assert_eq!(answers.len(), asked.len());
        for (i, (line, answer)) in asked.iter().zip(&answers).enumerate() {
            let letter = match read_line(line) {
                Some(_) => line[0] as char,
                None => '?',
            };
            assert!(answer.starts_with(&format!("{} {letter} ", i + 1)));
            assert_eq!(letter == '?', answer.ends_with("refused 9"));
        }
    }
}
