//! Program texts: readable lines, every kind of unreadable line, and inputs at the length limit.

use super::coverage::Coverage;
use super::prng::Prng;
use crate::desk::{lines, read_line, stampdesk, MOST_INPUT};

/// The kinds of unreadable line.
pub const BROKEN: [&str; 30] = [
    "empty",
    "one space",
    "tab",
    "CR",
    "NUL",
    "lower case",
    "two spaces",
    "trailing space",
    "leading space",
    "no space",
    "D with a number",
    "plus sign",
    "minus sign",
    "leading zero",
    "two zeros",
    "256",
    "300 to 999",
    "a number past 32 bits",
    "a number past 64 bits",
    "hexadecimal",
    "decimal point",
    "letter alone",
    "one number too few",
    "one number too many",
    "unknown letter",
    "letter twice",
    "word for a number",
    "a byte past 127",
    "a long line of digits",
    "a long line of letters",
];

/// One unreadable line of this kind, without its LF.
pub fn broken_line(prng: &mut Prng, kind: &str) -> Vec<u8> {
    let i = prng.below(9);
    let j = prng.below(9);
    let c = prng.pick(&["M", "C"]);
    let one = prng.pick(&["I", "U"]);
    let text = match kind {
        "empty" => String::new(),
        "one space" => " ".into(),
        "tab" => prng.pick(&[format!("{one}\t{i}"), format!("{c} {i}\t{j}"), "D\t".into()]),
        "CR" => prng.pick(&[format!("{one} {i}\r"), "D\r".into(), "\r".into()]),
        "NUL" => prng.pick(&[format!("{one} {i}\0"), "D\0".into(), "\0".into()]),
        "lower case" => prng.pick(&[
            format!("i {i}"),
            format!("u {i}"),
            format!("m {i} {j}"),
            format!("c {i} {j}"),
            "d".into(),
        ]),
        "two spaces" => prng.pick(&[format!("{one}  {i}"), format!("{c} {i}  {j}")]),
        "trailing space" => {
            prng.pick(&[format!("{one} {i} "), format!("{c} {i} {j} "), "D ".into()])
        }
        "leading space" => prng.pick(&[format!(" {one} {i}"), " D".into()]),
        "no space" => prng.pick(&[format!("{one}{i}"), format!("{c}{i} {j}")]),
        "D with a number" => format!("D {i}"),
        "plus sign" => prng.pick(&[format!("{one} +{i}"), format!("{c} {i} +{j}")]),
        "minus sign" => prng.pick(&[format!("{one} -{i}"), format!("{c} -{i} {j}")]),
        "leading zero" => prng.pick(&[format!("{one} 0{i}"), format!("{c} {i} 0{j}")]),
        "two zeros" => format!("{one} 00"),
        "256" => prng.pick(&[format!("{one} 256"), format!("{c} 256 {j}")]),
        "300 to 999" => format!("{one} {}", 300 + prng.below(700)),
        "a number past 32 bits" => format!("{one} {}", 4_294_967_296u64 + i as u64),
        "a number past 64 bits" => format!("{one} {}", (1u128 << 64) + i as u128),
        "hexadecimal" => format!("{one} 0x{i}"),
        "decimal point" => format!("{one} {i}.0"),
        "letter alone" => prng.pick(&["I", "U", "M", "C"]).into(),
        "one number too few" => format!("{c} {i}"),
        "one number too many" => prng.pick(&[format!("{one} {i} {j}"), format!("{c} {i} {j} 0")]),
        "unknown letter" => prng.pick(&[format!("X {i}"), "?".into(), "E".into()]),
        "letter twice" => prng.pick(&["DD".into(), format!("{one}{one} {i}")]),
        "word for a number" => format!("{one} one"),
        "a byte past 127" => return prng.pick(&[vec![b'D', 0xC3], vec![0xFF], vec![b'U', 0xA0]]),
        "a long line of digits" => format!("{one} {}", "1".repeat(1 + prng.below(3000) + 3)),
        "a long line of letters" => "D".repeat(2 + prng.below(3000)),
        _ => unreachable!("no such kind: {kind}"),
    };
    text.into_bytes()
}

/// A readable line; numbers mostly fit four copies.
fn readable_line(prng: &mut Prng) -> String {
    let far = prng.once_in(10);
    let mut number = || {
        let numbers = [8, 9, 10, 99, 100, 199, 200, 249, 250, 255];
        if far {
            prng.pick(&numbers)
        } else {
            prng.below(4)
        }
    };
    let (i, j) = (number(), number());
    match prng.below(24) {
        0..=6 => format!("U {i}"),
        7..=13 => format!("M {i} {j}"),
        14..=19 => format!("C {i} {j}"),
        20..=22 => "D".into(),
        _ if prng.once_in(3) => format!("I {}", prng.pick(&[0, 1, 9, 10, 100, 255])),
        _ => format!("I {}", 2 + prng.below(7)),
    }
}

/// A readable line with one byte changed, left out or put in; it may still be readable.
fn changed_line(prng: &mut Prng) -> Vec<u8> {
    let mut line = readable_line(prng).into_bytes();
    let place = prng.below(line.len());
    let mut byte = prng.pick(b"IUMCD 0123456789\t\r\0+-x");
    if prng.once_in(4) {
        byte = prng.byte();
    }
    if byte == b'\n' {
        // An LF would make two lines of it.
        byte = b'\t';
    }
    match prng.below(3) {
        0 => line[place] = byte,
        1 => line.insert(place, byte),
        _ => _ = line.remove(place),
    }
    line
}

/// The kinds that the report announces.
pub fn kinds() -> Vec<String> {
    let mut kinds: Vec<String> = [
        "I ok",
        "I refused 2",
        "U ok",
        "U refused 1",
        "U refused 5",
        "M ok",
        "M refused 1",
        "M refused 5",
        "M refused 6",
        "C equal",
        "C older",
        "C newer",
        "C conflicting",
        "C refused 1",
        "C refused 5",
        "D listed",
        "D refused 1",
        "? refused 9",
        "line 0 refused 9",
        "a second I accepted",
        "the last LF lacks",
        "the last LF stands",
        "empty text",
        "one LF alone",
        "65,536 bytes",
        "65,537 bytes",
        "65,536 bytes in one line",
        "one byte changed and still readable",
        "one byte changed and unreadable",
    ]
    .map(String::from)
    .to_vec();
    kinds.extend(BROKEN.map(|kind| format!("broken: {kind}")));
    kinds
}

/// Reports the answers that the program gives.
fn note_answers(coverage: &mut Coverage, text: &[u8]) {
    let output = String::from_utf8(stampdesk(text)).expect("the output is plain text");
    let mut accepted = 0;
    for line in output.lines().skip(1) {
        let mut words = line.splitn(3, ' ');
        let number = words.next().expect("a line number");
        let letter = words.next().expect("a letter");
        let answer = words.next().expect("an answer");
        let listed = letter == "D" && !answer.starts_with("refused");
        let answer = if listed { "listed" } else { answer };
        if number == "0" {
            coverage.note("line 0 refused 9");
            continue;
        }
        coverage.note(&format!("{letter} {answer}"));
        accepted += (letter == "I" && answer == "ok") as usize;
    }
    if accepted > 1 {
        coverage.note("a second I accepted");
    }
}

/// Reports how the text ends.
fn note_end(coverage: &mut Coverage, text: &[u8]) {
    coverage.note(match text.last() {
        None => "empty text",
        Some(b'\n') => "the last LF stands",
        Some(_) => "the last LF lacks",
    });
}

/// A text of lines that is exactly this long.
fn text_of_length(prng: &mut Prng, length: usize) -> Vec<u8> {
    let mut text = b"I 4\n".to_vec();
    while text.len() < length {
        text.extend(readable_line(prng).bytes());
        text.push(b'\n');
    }
    text.truncate(length);
    text
}

/// Program texts: those at the limits of length, then `count` of up to about a hundred lines.
pub fn program_texts(seed: u64, count: usize) -> (Vec<Vec<u8>>, Coverage) {
    let mut prng = Prng::new(seed);
    let mut coverage = Coverage::expecting(kinds());
    let mut texts = vec![Vec::new(), b"\n".to_vec()];
    coverage.note("one LF alone");
    texts.push(text_of_length(&mut prng, MOST_INPUT));
    coverage.note("65,536 bytes");
    texts.push(text_of_length(&mut prng, MOST_INPUT + 1));
    coverage.note("65,537 bytes");
    texts.push(vec![b'D'; MOST_INPUT]);
    coverage.note("65,536 bytes in one line");
    for round in 0..count {
        let mut text = Vec::new();
        let most = prng.pick(&[0, 1, 3, 20, 100]);
        if !prng.once_in(4) {
            text.extend(format!("I {}\n", 4 + prng.below(5)).bytes());
        }
        let kind = BROKEN[round % BROKEN.len()];
        for _ in 0..most {
            if prng.once_in(8) {
                let line = changed_line(&mut prng);
                let pieces = lines(&line);
                let readable = pieces.len() == 1 && read_line(pieces[0]).is_some();
                coverage.note(if readable {
                    "one byte changed and still readable"
                } else {
                    "one byte changed and unreadable"
                });
                text.extend(line);
            } else if prng.once_in(10) {
                text.extend(broken_line(&mut prng, kind));
                coverage.note(&format!("broken: {kind}"));
            } else {
                text.extend(readable_line(&mut prng).bytes());
            }
            text.push(b'\n');
        }
        text.extend(broken_line(&mut prng, kind));
        coverage.note(&format!("broken: {kind}"));
        if prng.once_in(2) {
            text.push(b'\n');
        }
        texts.push(text);
    }
    for text in &texts {
        note_answers(&mut coverage, text);
        note_end(&mut coverage, text);
    }
    (texts, coverage)
}
