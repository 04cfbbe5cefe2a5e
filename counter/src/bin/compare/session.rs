//! A running driver: calls are sent on one thread and their answers held to the expected ones on another.

use std::io::{BufReader, BufWriter, Write};
use std::process::{Child, ChildStdin, ChildStdout, Command, Stdio};
use std::sync::mpsc::{sync_channel, Receiver, SyncSender};
use std::thread::JoinHandle;

use counter::answers::Comparison;
use counter::bytes::{record_from_bytes, record_size, rows_from_record};
use counter::calls::{Outcome, TableCall};
use counter::gen::prng::Prng;
use counter::gen::SEED;

use crate::expected::{expected, of_outcome, rows_bytes};
use crate::frames::{receive, send, Answer, Call, Request, ROWS};
use crate::kinds::Kinds;

/// A wrong answer to be planted, to see that it is noticed.
#[derive(Clone, Copy, Debug, PartialEq, Eq)]
pub enum Plant {
    Number,
    Out,
    Byte,
    Guard,
}

/// Turns a right answer into a wrong one; false if it has no place for it.
fn spoil(answer: &mut Answer, plant: Plant) -> bool {
    match plant {
        Plant::Number => answer.number ^= 1,
        Plant::Out => answer.outs[1] ^= 1,
        Plant::Guard => answer.guarded = false,
        Plant::Byte => match answer.first.last_mut() {
            Some(byte) => *byte ^= 1,
            None => return false,
        },
    }
    true
}

/// A call on its way: the kinds it counts for, and what is to come back.
struct Sent {
    kinds: [usize; 2],
    request: Request,
    expected: Answer,
}

/// A call whose answer was not the expected one.
pub struct Wrong {
    pub kinds: [usize; 2],
    pub text: String,
}

fn hex(bytes: &[u8]) -> String {
    bytes.iter().map(|byte| format!("{byte:02x}")).collect()
}

fn told(sent: &Sent, found: &Answer) -> String {
    let side = |answer: &Answer| {
        format!(
            "number {} outs {:?} guards {} first {} second {}",
            answer.number,
            answer.outs,
            if answer.guarded { "whole" } else { "BROKEN" },
            hex(&answer.first),
            hex(&answer.second)
        )
    };
    format!(
        "{:?}\n  on        first {} second {} outs {:?}\n  expected  {}\n  found     {}",
        sent.request.call,
        hex(&sent.request.first),
        hex(&sent.request.second),
        sent.request.olds,
        side(&sent.expected),
        side(found)
    )
}

/// Reads answers until the last call is answered.
fn hold(from: ChildStdout, calls: Receiver<Sent>, mut plant: Option<Plant>) -> Vec<Wrong> {
    let mut from = BufReader::with_capacity(1 << 16, from);
    let mut wrong = Vec::new();
    for sent in calls {
        let mut found = match receive(&mut from, &sent.request) {
            Ok(answer) => answer,
            Err(error) => {
                let text = format!("the driver broke off: {error}; {:?}", sent.request.call);
                let kinds = sent.kinds;
                wrong.push(Wrong { kinds, text });
                break;
            }
        };
        if plant.is_some_and(|plant| spoil(&mut found, plant)) {
            plant = None;
        }
        if found != sent.expected {
            let (kinds, text) = (sent.kinds, told(&sent, &found));
            wrong.push(Wrong { kinds, text });
        }
    }
    wrong
}

pub struct Session {
    driver: Child,
    to: BufWriter<ChildStdin>,
    sent: SyncSender<Sent>,
    holder: JoinHandle<Vec<Wrong>>,
    pub kinds: Kinds,
    /// What the calls made now count for, beside their answers.
    kind: usize,
    prng: Prng,
    /// The table that the driver keeps.
    table: Vec<u8>,
    calls: usize,
}

impl Session {
    pub fn start(command: &[String], kinds: Kinds, plant: Option<Plant>) -> Session {
        let mut driver = Command::new(&command[0])
            .args(&command[1..])
            .stdin(Stdio::piped())
            .stdout(Stdio::piped())
            .spawn()
            .unwrap_or_else(|error| panic!("{}: {error}", command[0]));
        let to = BufWriter::with_capacity(1 << 16, driver.stdin.take().expect("piped"));
        let from = driver.stdout.take().expect("piped");
        let (sent, calls) = sync_channel(4096);
        let holder = std::thread::spawn(move || hold(from, calls, plant));
        Session {
            driver,
            to,
            sent,
            holder,
            kinds,
            kind: 0,
            prng: Prng::new(SEED),
            table: Vec::new(),
            calls: 0,
        }
    }

    /// The calls that follow are of this kind.
    pub fn kind(&mut self, name: &str) {
        self.kind = self.kinds.place(name);
    }

    fn request(&mut self, call: Call, first: Vec<u8>, kept: bool, second: Vec<u8>) -> Request {
        let mask = call.out_mask();
        let olds = [self.prng.bits() & mask, self.prng.bits() & mask];
        Request {
            call,
            first,
            kept,
            second,
            olds,
        }
    }

    fn ask(&mut self, request: Request, answer: Answer, name: &str) {
        let kinds = [self.kind, self.kinds.place(name)];
        self.kinds.note(kinds);
        self.calls += 1;
        let _ = send(&mut self.to, &request);
        let expected = answer;
        // A holder that has given up has said why.
        let _ = self.sent.send(Sent {
            kinds,
            request,
            expected,
        });
    }

    /// One call on two buffers.
    pub fn call(&mut self, call: Call, first: &[u8], second: &[u8]) -> Answer {
        let request = self.request(call, first.to_vec(), false, second.to_vec());
        let (answer, name) = expected(&request);
        self.ask(request, answer.clone(), &name);
        answer
    }

    /// One call on a table.
    pub fn on(&mut self, table: &[u8], call: TableCall) -> Answer {
        self.call(Call::Table(call), table, &[])
    }

    /// One reading; the rows' room holds anything before.
    pub fn read(&mut self, record: &[u8]) -> Answer {
        let room: Vec<u8> = (0..ROWS).map(|_| self.prng.byte()).collect();
        self.call(Call::ReadRows, record, &room)
    }

    /// Lends a table that the driver keeps from call to call.
    pub fn keep(&mut self, table: Vec<u8>) {
        self.table = table;
        let request = self.request(
            Call::Table(TableCall::Check),
            self.table.clone(),
            false,
            vec![],
        );
        let (answer, name) = expected(&request);
        self.ask(request, answer, &name);
    }

    pub fn kept(&self) -> &[u8] {
        &self.table
    }

    /// One call on the kept table; gives the number.
    pub fn next(&mut self, call: TableCall) -> u8 {
        let request = self.request(Call::Table(call), self.table.clone(), true, vec![]);
        let (answer, name) = expected(&request);
        self.table = answer.first.clone();
        let number = answer.number;
        self.ask(request, answer, &name);
        number
    }

    /// A comparison of the kept table's copies, held to what version vectors say.
    pub fn compared(&mut self, a: usize, b: usize, order: Comparison) {
        let call = Call::Table(TableCall::Compare(a, b));
        let request = self.request(call, self.table.clone(), true, vec![]);
        let answer = of_outcome(&request, Outcome::Compared(order), self.table.clone());
        let call = if a == b {
            "compare with itself"
        } else {
            "compare"
        };
        let name = format!("{call} {}", order.name());
        self.ask(request, answer, &name);
    }

    /// Every call on a well-formed table and on its records as loose ones.
    pub fn every_call(&mut self, n: usize, table: &[u8]) {
        self.on(table, TableCall::Check);
        self.on(table, TableCall::Superfluous);
        self.on(table, TableCall::Fresh(n));
        for a in 0..n {
            self.on(table, TableCall::Update(a));
            self.on(table, TableCall::Lend(a));
            for b in 0..n {
                self.on(table, TableCall::Meet(a, b));
                self.on(table, TableCall::Compare(a, b));
            }
        }
        let records: Vec<&[u8]> = table.chunks(record_size(n)).collect();
        for record in &records {
            self.call(Call::CheckRecord, record, &[]);
            self.read(record);
            if let Ok(record) = record_from_bytes(record) {
                let rows = rows_from_record(&record);
                let room: Vec<u8> = (0..record_size(n)).map(|_| self.prng.byte()).collect();
                let (n, own) = (rows.n, rows.own);
                self.call(Call::WriteRows { n, own }, &room, &rows_bytes(&rows));
            }
            for other in &records {
                self.call(Call::CompareRecords, record, other);
                self.call(Call::MeetRecords, record, other);
            }
        }
    }

    /// Every call on bytes that may be no table.
    pub fn table_calls(&mut self, n: usize, bytes: &[u8]) {
        self.on(bytes, TableCall::Check);
        self.on(bytes, TableCall::Superfluous);
        self.on(bytes, TableCall::Update(n - 1));
        self.on(bytes, TableCall::Meet(0, n - 1));
        self.on(bytes, TableCall::Compare(0, n - 1));
        self.on(bytes, TableCall::Compare(1, 1));
        self.on(bytes, TableCall::Lend(n - 1));
    }

    /// Every call on bytes that may be no record, beside a well-formed one of another number.
    pub fn record_calls(&mut self, bytes: &[u8], beside: &[u8]) {
        self.call(Call::CheckRecord, bytes, &[]);
        self.read(bytes);
        for (first, second) in [(bytes, beside), (beside, bytes)] {
            self.call(Call::CompareRecords, first, second);
            self.call(Call::MeetRecords, first, second);
        }
    }

    /// Ends the driver; gives the report, the wrong answers and the number of calls.
    pub fn end(mut self) -> (Kinds, Vec<Wrong>, usize) {
        let _ = self.to.flush();
        drop(self.to);
        drop(self.sent);
        let mut wrong = self.holder.join().expect("the holder ends");
        let status = self.driver.wait().expect("the driver ends");
        if !status.success() {
            let (kinds, text) = ([self.kind, self.kind], format!("the driver: {status}"));
            wrong.push(Wrong { kinds, text });
        }
        (self.kinds, wrong, self.calls)
    }
}
