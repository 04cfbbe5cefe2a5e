//! The program `stampdesk` as bytes in, bytes out.

use crate::answers::{Comparison, Refusal, Superfluous};
use crate::bytes::{n_is_allowed, table_size};
use crate::calls;

/// The longest input that is read.
pub const MOST_INPUT: usize = 65_536;

/// What can be read from one line.
#[derive(Clone, Copy, Debug, PartialEq, Eq)]
pub enum Line {
    I(usize),
    U(usize),
    M(usize, usize),
    C(usize, usize),
    D,
}

impl Line {
    pub fn letter(self) -> char {
        match self {
            Line::I(_) => 'I',
            Line::U(_) => 'U',
            Line::M(_, _) => 'M',
            Line::C(_, _) => 'C',
            Line::D => 'D',
        }
    }
}

/// A number 0 to 255 without leading zeros.
fn number(word: &[u8]) -> Option<usize> {
    let all_digits = word.iter().all(|byte| byte.is_ascii_digit());
    if word.is_empty() || word.len() > 3 || !all_digits {
        return None;
    }
    if word.len() > 1 && word[0] == b'0' {
        return None;
    }
    let mut value = 0;
    for digit in word {
        value = value * 10 + (digit - b'0') as usize;
    }
    (value <= 255).then_some(value)
}

/// One line without its LF; none if it can't be read.
pub fn read_line(line: &[u8]) -> Option<Line> {
    // Splitting at every space leaves an empty word wherever there is one space too many.
    let words: Vec<&[u8]> = line.split(|&byte| byte == b' ').collect();
    match words[..] {
        [b"I", n] => Some(Line::I(number(n)?)),
        [b"U", i] => Some(Line::U(number(i)?)),
        [b"M", i, j] => Some(Line::M(number(i)?, number(j)?)),
        [b"C", i, j] => Some(Line::C(number(i)?, number(j)?)),
        [b"D"] => Some(Line::D),
        _ => None,
    }
}

/// The lines of the input: each ends in LF, the last may lack it.
pub fn lines(input: &[u8]) -> Vec<&[u8]> {
    let mut lines: Vec<&[u8]> = input.split(|&byte| byte == b'\n').collect();
    // After a last LF, and in empty input, no further line stands.
    if lines.last().is_some_and(|last| last.is_empty()) {
        lines.pop();
    }
    lines
}

/// The answer as it is printed.
fn shown<T>(result: Result<T, Refusal>, show: impl Fn(T) -> String) -> String {
    match result {
        Ok(answer) => show(answer),
        Err(refusal) => format!("refused {}", refusal.number()),
    }
}

/// Makes one call; the table is absent before an accepted `I`.
fn call(table: &mut Option<Vec<u8>>, line: Line) -> String {
    let ok = |()| "ok".to_string();
    let name = |answer: Comparison| answer.name().to_string();
    let mask_and_count = |list: Superfluous| format!("{} {}", list.mask, list.count);
    if let Line::I(n) = line {
        // 2 is decided before the length, so no room is made for an N that isn't allowed.
        let size = if n_is_allowed(n) { table_size(n) } else { 0 };
        let mut new_table = vec![0; size];
        let result = calls::fresh(n, &mut new_table);
        if result.is_ok() {
            *table = Some(new_table);
        }
        return shown(result, ok);
    }
    let Some(table) = table else {
        return shown(Err(Refusal::NoMark), ok);
    };
    match line {
        Line::I(_) => unreachable!("answered above"),
        Line::U(i) => shown(calls::update(table, i), ok),
        Line::M(i, j) => shown(calls::meet(table, i, j), ok),
        Line::C(i, j) => shown(calls::compare(table, i, j), name),
        Line::D => shown(calls::superfluous(table), mask_and_count),
    }
}

/// The whole program: what it prints for this input.
pub fn stampdesk(input: &[u8]) -> Vec<u8> {
    let mut output = String::from("line call answer\n");
    if input.len() > MOST_INPUT {
        output.push_str("0 ? refused 9\n");
        return output.into_bytes();
    }
    let mut table = None;
    for (i, line) in lines(input).into_iter().enumerate() {
        let (letter, answer) = match read_line(line) {
            Some(line) => (line.letter(), call(&mut table, line)),
            None => ('?', format!("refused {}", Refusal::Unreadable.number())),
        };
        output.push_str(&format!("{} {letter} {answer}\n", i + 1));
    }
    output.into_bytes()
}
