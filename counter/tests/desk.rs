//! The program `stampdesk`: the sample of document 01, how lines are read, and the limits.

use std::io::Write;
use std::process::{Command, Stdio};

use counter::desk::stampdesk;

const HEADER: &str = "line call answer\n";

/// What the program prints, as text.
fn desk(input: &[u8]) -> String {
    String::from_utf8(stampdesk(input)).expect("the output is plain text")
}

/// The answers without header, numbers and line ends.
fn answers(input: &str) -> Vec<String> {
    let output = desk(input.as_bytes());
    let without_number = |line: &str| line.split_once(' ').expect("a number").1.to_string();
    output.lines().skip(1).map(without_number).collect()
}

const SAMPLE: &str = "I 3\nU 0\nC 0 1\nU 2\nC 0 2\nM 1 2\nC 1 2\nM 0 1\nC 1 2\nM 1 1\nC 0 1\n";

const SAMPLE_OUTPUT: &str = "line call answer
1 I ok
2 U ok
3 C newer
4 U ok
5 C conflicting
6 M ok
7 C equal
8 M ok
9 C newer
10 M refused 6
11 C equal
";

#[test]
fn sample_program() {
    assert_eq!(desk(SAMPLE.as_bytes()), SAMPLE_OUTPUT);
}

#[test]
fn sample_program_without_its_last_lf() {
    assert_eq!(desk(SAMPLE.trim_end().as_bytes()), SAMPLE_OUTPUT);
}

#[test]
fn sample_program_through_the_binary() {
    let mut child = Command::new(env!("CARGO_BIN_EXE_counter-desk"))
        .stdin(Stdio::piped())
        .stdout(Stdio::piped())
        .spawn()
        .expect("the binary runs");
    let mut input = child.stdin.take().expect("a pipe");
    input.write_all(SAMPLE.as_bytes()).expect("it reads");
    drop(input);
    let output = child.wait_with_output().expect("it ends");
    assert!(output.status.success());
    assert_eq!(output.stdout, SAMPLE_OUTPUT.as_bytes());
}

#[test]
fn no_line_and_empty_lines() {
    assert_eq!(desk(b""), HEADER);
    assert_eq!(desk(b"\n"), format!("{HEADER}1 ? refused 9\n"));
    assert_eq!(
        desk(b"\n\nI 2"),
        format!("{HEADER}1 ? refused 9\n2 ? refused 9\n3 I ok\n")
    );
    assert_eq!(desk(b"I 2\n\n"), format!("{HEADER}1 I ok\n2 ? refused 9\n"));
}

#[test]
fn unreadable_lines_are_refused_9() {
    let lines: [&[u8]; 46] = [
        b"",
        b" ",
        b"I",
        b"U",
        b"M",
        b"C",
        b"I ",
        b"I3",
        b" I 3",
        b"I  3",
        b"I 3 ",
        b"I\t3",
        b"I 3\r",
        b"I 3\0",
        b"\0",
        b"i 3",
        b"u 0",
        b"m 0 1",
        b"c 0 1",
        b"d",
        b"D 1",
        b"D ",
        b" D",
        b"DD",
        b"I +2",
        b"I -2",
        b"I 02",
        b"I 00",
        b"U 256",
        b"U 999",
        b"U 1000",
        b"U 00000000",
        b"U 4294967296",
        b"U 18446744073709551616",
        b"U 0x1",
        b"U 1.0",
        b"M 1",
        b"M 1 2 3",
        b"M 1  2",
        b"C 1,2",
        b"C 01 2",
        b"C 1 02",
        b"X 1",
        b"?",
        b"U \xB2",
        b"\xEF\xBB\xBFI 3",
    ];
    for line in lines {
        // Both before and after an accepted `I`.
        let text = [line, b"\nI 3\n", line].concat();
        let last = if line.is_empty() {
            ""
        } else {
            "3 ? refused 9\n"
        };
        let expected = format!("{HEADER}1 ? refused 9\n2 I ok\n{last}");
        assert_eq!(desk(&text), expected, "{line:?}");
    }
}

#[test]
fn numbers_up_to_255_are_read() {
    assert_eq!(answers("I 0\nI 1\nI 9\nI 255"), ["I refused 2"; 4]);
    let far = answers("I 8\nU 8\nU 255\nM 0 200\nM 249 249\nC 7 8\nU 7");
    let five = ["U", "U", "M", "M", "C"].map(|c| format!("{c} refused 5"));
    assert_eq!(far[1..6], five);
    assert_eq!(far[6], "U ok");
}

#[test]
fn calls_before_an_accepted_i_are_refused_1() {
    let text = "U 0\nM 0 0\nM 255 255\nC 9 9\nC 0 0\nD\nI 1\nU 255\nI 2\nC 0 0";
    let expected = [
        "U refused 1",
        "M refused 1",
        "M refused 1",
        "C refused 1",
        "C refused 1",
        "D refused 1",
        "I refused 2",
        "U refused 1",
        "I ok",
        "C equal",
    ];
    assert_eq!(answers(text), expected);
}

#[test]
fn a_refused_i_keeps_the_table_and_an_accepted_one_starts_anew() {
    let text = "I 3\nU 0\nI 9\nC 0 1\nI 3\nC 0 1\nU 2\nI 2\nU 2\nD\nI 8\nU 7\nD";
    let expected = [
        "I ok",
        "U ok",
        "I refused 2",
        "C newer",
        "I ok",
        "C equal",
        "U ok",
        "I ok",
        "U refused 5",
        "D 3 2",
        "I ok",
        "U ok",
        "D 127 7",
    ];
    assert_eq!(answers(text), expected);
}

#[test]
fn superfluous_in_decimal() {
    let text = "I 3\nD\nU 0\nD\nU 1\nD\nU 2\nD\nM 0 2\nD";
    let expected = [
        "I ok", "D 7 3", "U ok", "D 6 2", "U ok", "D 4 1", "U ok", "D 0 0", "M ok", "D 5 2",
    ];
    assert_eq!(answers(text), expected);
}

#[test]
fn older_is_printed_too() {
    assert_eq!(answers("I 2\nU 0\nC 1 0"), ["I ok", "U ok", "C older"]);
}

#[test]
fn input_of_65536_bytes_is_read() {
    let text = "I 2\n".repeat(16_384);
    assert_eq!(text.len(), 65_536);
    let output = desk(text.as_bytes());
    assert_eq!(output.lines().count(), 1 + 16_384);
    assert!(output.ends_with("\n16384 I ok\n"));
    let one_line = desk(&[b'7'; 65_536]);
    assert_eq!(one_line, format!("{HEADER}1 ? refused 9\n"));
}

#[test]
fn input_of_65537_bytes_is_refused_9() {
    let refused = format!("{HEADER}0 ? refused 9\n");
    let mut text = "I 2\n".repeat(16_384);
    text.push('\n');
    assert_eq!(desk(text.as_bytes()), refused);
    assert_eq!(desk(&[b'7'; 65_537]), refused);
    assert_eq!(desk(&[b'\n'; 200_000]), refused);
}
