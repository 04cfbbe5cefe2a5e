//! Compares the built library with the counter program, answer by answer and byte by byte. The library is called by a driver that is
//! started with the words given and speaks frames on standard input and output (c/driver.c).
//!
//!     compare [--plant number|out|byte|guard] DRIVER [WORD..]
//!
//! With --plant one answer of the library is made wrong in that place before it is compared, on the bench sheet's cases alone: it must
//! fail. Prints how many calls of each kind were made; a kind with none fails. The last line counts the kinds.

mod expected;
mod frames;
mod kinds;
mod sections;
mod session;

use std::process::ExitCode;

use kinds::Kinds;
use session::{Plant, Session};

/// How many wrong answers are shown whole.
const SHOWN: usize = 5;

fn plant_named(word: &str) -> Option<Plant> {
    match word {
        "number" => Some(Plant::Number),
        "out" => Some(Plant::Out),
        "byte" => Some(Plant::Byte),
        "guard" => Some(Plant::Guard),
        _ => None,
    }
}

fn main() -> ExitCode {
    let mut words: Vec<String> = std::env::args().skip(1).collect();
    let mut plant = None;
    if words.first().is_some_and(|word| word == "--plant") {
        plant = words.get(1).and_then(|word| plant_named(word));
        words.drain(..words.len().min(2));
        if plant.is_none() {
            words.clear();
        }
    }
    if words.is_empty() {
        eprintln!("usage: compare [--plant number|out|byte|guard] DRIVER [WORD..]");
        return ExitCode::from(2);
    }
    let parts = match plant {
        None => &sections::ALL[..],
        Some(_) => &[sections::BENCH],
    };
    let mut names: Vec<String> = parts.iter().flat_map(|part| (part.kinds)()).collect();
    if plant.is_none() {
        names.extend(expected::answers_listed());
    }
    let mut session = Session::start(&words, Kinds::announcing(names), plant);
    for part in parts {
        (part.run)(&mut session);
    }
    let (kinds, wrong, calls) = session.end();
    let (passed, failed) = kinds.report(wrong.iter().map(|wrong| wrong.kinds));
    for wrong in wrong.iter().take(SHOWN) {
        println!("wrong: {}", wrong.text);
    }
    println!("{calls} calls, {} wrong", wrong.len());
    println!("{passed} passed, {failed} failed");
    if failed == 0 && passed > 0 {
        ExitCode::SUCCESS
    } else {
        ExitCode::FAILURE
    }
}
