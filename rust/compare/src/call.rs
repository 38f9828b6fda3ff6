//! The calls of a list, and what either side answers.

use cementoad_sys::{Clock, Created, Detailed, NO_REFUSAL, Reading, Received, Request, Updated, Written};

/// A call with its arguments: word, backstop and now of a creation, else what the boundary takes beside the clock. That
/// is as the call before left it. `Take` is no call: the list goes on with a clock made up by hand, or with none.
/// `ReadRow` is a call for each slip.
#[derive(Clone, Debug)]
pub enum Call {
    Take(Clock),
    Create(u8, i64, i64),
    Read(i64),
    Details(i64),
    Update(Request, i64),
    Started,
    ReadSlip(Vec<u8>),
    ReadSingleSlip(Vec<u8>),
    ReadRow(Vec<u8>),
    WriteSlip(Request, Vec<u8>),
    SlipLength(Request),
}

/// All that comes back. A lent buffer comes back whole. A row of slips gives its requests, the refusal at which it
/// stops, and how many bytes are left.
#[derive(Clone, Debug, PartialEq, Eq)]
pub enum Answer {
    Taken,
    Created(Created),
    Read(Reading),
    Detailed(Detailed),
    Updated(Updated),
    Started(bool),
    Received(Received),
    Row(Vec<Request>, u8, usize),
    Written(Written, Vec<u8>),
    Length(usize),
}

impl Answer {
    /// The refusal's number, 0 where there is none.
    pub fn refusal(&self) -> u8 {
        match self {
            Answer::Created(created) => created.refusal,
            Answer::Read(reading) => reading.refusal,
            Answer::Detailed(detailed) => detailed.refusal,
            Answer::Updated(updated) => updated.refusal,
            Answer::Received(received) => received.refusal,
            Answer::Row(_, refusal, _) => *refusal,
            Answer::Written(written, _) => written.refusal,
            Answer::Taken | Answer::Started(_) | Answer::Length(_) => NO_REFUSAL,
        }
    }
}
