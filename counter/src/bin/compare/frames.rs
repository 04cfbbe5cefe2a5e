//! The frames that c/driver.c speaks: one call with its buffers, and its answer.

use std::io::{self, Read, Write};

use counter::calls::TableCall;

/// Every call of document 01.
#[derive(Clone, Copy, Debug, PartialEq, Eq)]
pub enum Call {
    Table(TableCall),
    CheckRecord,
    CompareRecords,
    MeetRecords,
    ReadRows,
    WriteRows { n: usize, own: usize },
}

/// Rows are passed in the second buffer: 64 lengths, 512 cells.
pub const ROWS: usize = 64 + 512;

/// Added to the call where the first buffer is as the last call left it.
const KEPT: u8 = 0x80;

impl Call {
    /// The driver's number for the call, and the call's numbers.
    fn coded(self) -> (u8, usize, usize) {
        match self {
            Call::Table(TableCall::Fresh(n)) => (1, n, 0),
            Call::Table(TableCall::Check) => (2, 0, 0),
            Call::Table(TableCall::Update(i)) => (3, i, 0),
            Call::Table(TableCall::Meet(a, b)) => (4, a, b),
            Call::Table(TableCall::Compare(a, b)) => (5, a, b),
            Call::Table(TableCall::Lend(i)) => (6, i, 0),
            Call::Table(TableCall::Superfluous) => (7, 0, 0),
            Call::CheckRecord => (8, 0, 0),
            Call::CompareRecords => (9, 0, 0),
            Call::MeetRecords => (10, 0, 0),
            Call::ReadRows => (11, 0, 0),
            Call::WriteRows { n, own } => (12, n, own),
        }
    }

    /// What an out-parameter of this call can hold: a byte, or a number of the machine's width.
    pub fn out_mask(self) -> u64 {
        match self {
            Call::Table(TableCall::Lend(_)) | Call::ReadRows => u64::MAX,
            _ => 0xFF,
        }
    }
}

/// One call as it is sent.
#[derive(Clone, Debug)]
pub struct Request {
    pub call: Call,
    pub first: Vec<u8>,
    /// The driver has the first buffer from the call before.
    pub kept: bool,
    pub second: Vec<u8>,
    /// What the out-parameters hold beforehand.
    pub olds: [u64; 2],
}

/// What came of it.
#[derive(Clone, Debug, PartialEq, Eq)]
pub struct Answer {
    pub number: u8,
    /// Nothing beside the buffers and the out-parameters was written.
    pub guarded: bool,
    pub outs: [u64; 2],
    pub first: Vec<u8>,
    pub second: Vec<u8>,
}

pub fn send(to: &mut impl Write, request: &Request) -> io::Result<()> {
    let (code, x, y) = request.call.coded();
    to.write_all(&[if request.kept { code | KEPT } else { code }])?;
    for number in [x as u64, y as u64, request.olds[0], request.olds[1]] {
        to.write_all(&number.to_le_bytes())?;
    }
    for length in [request.first.len(), request.second.len()] {
        to.write_all(&(length as u32).to_le_bytes())?;
    }
    if !request.kept {
        to.write_all(&request.first)?;
    }
    to.write_all(&request.second)
}

/// The answer to a request: its buffers are as long as those sent.
pub fn receive(from: &mut impl Read, request: &Request) -> io::Result<Answer> {
    let mut head = [0; 18];
    from.read_exact(&mut head)?;
    let number_at = |at: usize| u64::from_le_bytes(head[at..at + 8].try_into().expect("8 bytes"));
    let mut first = vec![0; request.first.len()];
    from.read_exact(&mut first)?;
    let mut second = vec![0; request.second.len()];
    from.read_exact(&mut second)?;
    Ok(Answer {
        number: head[0],
        guarded: head[1] == 1,
        outs: [number_at(2), number_at(10)],
        first,
        second,
    })
}
