//! What the counter program says of a call: the number, the out-parameters, every lent byte.

use counter::answers::Refusal;
use counter::bytes::{record_from_bytes, Rows};
use counter::calls::{self, Outcome};
use counter::gen::{call_name, outcome_name};

use crate::frames::{Answer, Call, Request};

/// The rows that a call passes in its second buffer.
pub fn rows_of(n: usize, own: usize, second: &[u8]) -> Rows {
    Rows {
        n,
        own,
        lengths: second[..64].try_into().expect("64 lengths"),
        cells: second[64..].try_into().expect("512 cells"),
    }
}

/// Rows as a call's second buffer.
pub fn rows_bytes(rows: &Rows) -> Vec<u8> {
    [&rows.lengths[..], &rows.cells[..]].concat()
}

/// The outcome of a call on a table: number and out-parameters, beside the bytes left.
pub fn of_outcome(request: &Request, outcome: Outcome, first: Vec<u8>) -> Answer {
    let (number, outs) = match outcome {
        Outcome::Done => (0, request.olds),
        Outcome::Compared(order) => (0, [order.number().into(), request.olds[1]]),
        Outcome::Lent { start, end } => (0, [start as u64, (end - start) as u64]),
        Outcome::Listed(list) => (0, [list.mask.into(), list.count.into()]),
        Outcome::Refused(refusal) => (refusal.number(), request.olds),
    };
    let second = request.second.clone();
    Answer {
        number,
        guarded: true,
        outs,
        first,
        second,
    }
}

/// The name of a refusal of two loose records: 1 to 4 with the record it is for.
fn pair_refusal(request: &Request, refusal: Refusal) -> String {
    let number = refusal.number();
    if number > 4 {
        return format!("refused {number}");
    }
    let of_first = record_from_bytes(&request.first).is_err();
    let which = if of_first { "first" } else { "second" };
    format!("refused {number} for the {which}")
}

fn plain_refusal(_: &Request, refusal: Refusal) -> String {
    format!("refused {}", refusal.number())
}

/// The answer of a call on loose records or rows, and its name.
fn of_result<T>(
    request: &Request,
    result: Result<T, Refusal>,
    name: impl Fn(&Request, Refusal) -> String,
    answered: impl Fn(&mut Answer, T) -> String,
) -> (Answer, String) {
    let mut answer = of_outcome(request, Outcome::Done, request.first.clone());
    let name = match result {
        Ok(value) => answered(&mut answer, value),
        Err(refusal) => {
            answer.number = refusal.number();
            name(request, refusal)
        }
    };
    (answer, name)
}

/// The answer to a request and its name for the report.
pub fn expected(request: &Request) -> (Answer, String) {
    match request.call {
        Call::Table(call) => {
            let mut first = request.first.clone();
            let outcome = calls::answer(&mut first, call);
            let n = request.first.get(2).map_or(0, |&n| n as usize);
            let name = format!("{} {}", call_name(call), outcome_name(n, outcome));
            (of_outcome(request, outcome, first), name)
        }
        Call::CheckRecord => {
            let result = calls::check_record(&request.first);
            let (answer, name) = of_result(request, result, plain_refusal, |_, ()| "done".into());
            (answer, format!("check record {name}"))
        }
        Call::CompareRecords => {
            let result = calls::compare_records(&request.first, &request.second);
            let (answer, name) = of_result(request, result, pair_refusal, |answer, order| {
                answer.outs[0] = order.number().into();
                order.name().into()
            });
            (answer, format!("compare records {name}"))
        }
        Call::MeetRecords => {
            let (mut first, mut second) = (request.first.clone(), request.second.clone());
            let result = calls::meet_records(&mut first, &mut second);
            let (mut answer, name) =
                of_result(request, result, pair_refusal, |_, ()| "done".into());
            (answer.first, answer.second) = (first, second);
            (answer, format!("meet records {name}"))
        }
        Call::ReadRows => {
            let result = calls::read_rows(&request.first);
            let (answer, name) = of_result(request, result, plain_refusal, |answer, rows| {
                answer.outs = [rows.n as u64, rows.own as u64];
                answer.second = rows_bytes(&rows);
                "done".into()
            });
            (answer, format!("read rows {name}"))
        }
        Call::WriteRows { n, own } => {
            let mut first = request.first.clone();
            let result = calls::write_rows(&rows_of(n, own, &request.second), &mut first);
            let (mut answer, name) =
                of_result(request, result, plain_refusal, |_, ()| "done".into());
            answer.first = first;
            (answer, format!("write rows {name}"))
        }
    }
}

/// Every answer and refusal that document 01 lists, call by call.
pub fn answers_listed() -> Vec<String> {
    let mut names = Vec::new();
    let mut list = |call: &str, answers: &[&str], refusals: &[u8]| {
        names.extend(answers.iter().map(|answer| format!("{call} {answer}")));
        names.extend(
            refusals
                .iter()
                .map(|number| format!("{call} refused {number}")),
        );
    };
    let orders = counter::gen::comparison_names();
    list("fresh", &["done"], &[2, 3]);
    list("check", &["done"], &[1, 2, 3, 4]);
    list("update", &["done"], &[1, 2, 3, 4, 5]);
    list("meet", &["done"], &[1, 2, 3, 4, 5, 6, 7]);
    list("compare", &orders, &[1, 2, 3, 4, 5, 7]);
    list("compare with itself", &["equal"], &[1, 2, 3, 4, 5]);
    list("lend", &["lent"], &[1, 2, 3, 4, 5]);
    list("superfluous", &["none", "some", "all"], &[1, 2, 3, 4, 7]);
    list("check record", &["done"], &[1, 2, 3, 4]);
    list("compare records", &orders, &[6, 7, 8]);
    list("meet records", &["done"], &[6, 7, 8]);
    list("read rows", &["done"], &[1, 2, 3, 4]);
    list("write rows", &["done"], &[2, 3, 4]);
    for call in ["compare records", "meet records"] {
        for which in ["first", "second"] {
            names.extend((1..=4).map(|number| format!("{call} refused {number} for the {which}")));
        }
    }
    names
}
