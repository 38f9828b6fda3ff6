//! Runs a list of calls on both sides at once, and says where they differ or break a promise.

use cementoad_sys::*;

use crate::call::{Answer, Call};
use crate::convert::or_else;
use crate::demands::Witness;
use crate::is_clock::{PARTS, failing};
use crate::met::Met;
use crate::{library, second_side};

/// A list under way.
pub struct Run<'a> {
    met: &'a mut Met,
    /// The clock that the last call left; zeros where there is none.
    pub clock: Clock,
    /// None beside a clock that is made up.
    witness: Option<Witness>,
}

impl<'a> Run<'a> {
    pub fn new(met: &'a mut Met) -> Self {
        Run { met, clock: Clock::default(), witness: None }
    }

    /// Makes one call on both sides. The answer is the one that both give, or what is wrong with it.
    pub fn step(&mut self, call: &Call) -> Result<Answer, String> {
        let before = self.clock;
        let (library, second) = (library::answer(call, before), second_side::answer(call, before));
        if library != second {
            return Err(format!("the answers differ:\n      library: {library:?}\n      second:  {second:?}"));
        }
        if library.refusal() == NOT_A_CLOCK && self.witness.is_some() {
            return Err(format!("255 on a clock that creation gave: {before:?}"));
        }
        self.met.count(call, &before, library.refusal());
        if let (Call::Update(request, now), Some(witness)) = (call, &mut self.witness) {
            witness.hears(request, *now, library.refusal() == NO_REFUSAL);
        }
        self.check(call, &library)?;
        if let Some(witness) = &self.witness {
            witness.runs_beside(&self.clock)?;
        }
        Ok(library)
    }

    fn check(&mut self, call: &Call, answer: &Answer) -> Result<(), String> {
        match (call, answer) {
            (Call::ReadRow(bytes), Answer::Row(requests, refusal, rest)) => check_row(bytes, requests, *refusal, *rest),
            _ if answer.refusal() != NO_REFUSAL => self.refused(call, answer),
            (Call::Take(clock), _) => {
                (self.clock, self.witness) = (*clock, None);
                Ok(())
            }
            (&Call::Create(word, backstop, now), Answer::Created(created)) => {
                (self.clock, self.witness) = (created.clock, Some(Witness::created(word, backstop, now)));
                self.check_clock()
            }
            (&Call::Read(now), Answer::Read(reading)) => self.read(now, reading.value),
            (&Call::Update(_, now), Answer::Updated(updated)) => self.updated(now, updated.clock),
            (Call::ReadSlip(bytes), Answer::Received(received)) => {
                check_rewritten(bytes.get(..received.length).unwrap_or_default(), &[received.request])
            }
            (Call::ReadSingleSlip(bytes), Answer::Received(received)) => check_rewritten(bytes, &[received.request]),
            (Call::WriteSlip(request, before), Answer::Written(written, after)) => {
                check_read_back(request, before, after, written.length)
            }
            (Call::SlipLength(request), Answer::Length(length)) => check_length(*request, *length),
            _ => Ok(()),
        }
    }

    /// Demand 1: all that a refused call answers is zeros, or what was handed in, and it writes nothing. A row that
    /// stops is none: it keeps its requests.
    fn refused(&mut self, call: &Call, answer: &Answer) -> Result<(), String> {
        let (clock, refusal) = (self.clock, answer.refusal());
        let alone = match call {
            Call::Create(..) => Answer::Created(Created { clock: Clock::default(), refusal }),
            Call::Read(_) => Answer::Read(Reading { refusal, value: 0 }),
            Call::Details(_) => Answer::Detailed(Detailed { refusal, details: Details::default() }),
            Call::Update(..) => Answer::Updated(Updated { clock, refusal }),
            Call::ReadSlip(_) | Call::ReadSingleSlip(_) => {
                Answer::Received(Received { request: Request::default(), length: 0, refusal })
            }
            Call::WriteSlip(_, buffer) => Answer::Written(Written { length: 0, refusal }, buffer.clone()),
            Call::Take(_) | Call::Started | Call::ReadRow(_) | Call::SlipLength(_) => Answer::Taken,
        };
        if let Call::Create(..) = call {
            (self.clock, self.witness) = (Clock::default(), None);
        }
        if *answer == alone { Ok(()) } else { Err(format!("demand 1: more than a refusal: {answer:?}")) }
    }

    /// What is promised of a reading also on a clock that is made up: it is not below the backstop, and in the range,
    /// above which an i64 holds nothing.
    fn read(&mut self, now: i64, value: i64) -> Result<(), String> {
        if value < self.clock.backstop.max(0) {
            return Err(format!("the reading {value} is below the backstop or outside 0..END"));
        }
        self.witness.as_mut().map_or(Ok(()), |witness| witness.reads(now, value))
    }

    /// What an update leaves of a clock is a clock.
    fn updated(&mut self, now: i64, after: Clock) -> Result<(), String> {
        let before = std::mem::replace(&mut self.clock, after);
        self.check_clock()?;
        self.witness.as_mut().map_or(Ok(()), |witness| witness.updated(now, &before, &after))
    }

    fn check_clock(&self) -> Result<(), String> {
        let failing = failing(&self.clock);
        let told = |&part: &usize| Err(format!("no clock, it fails '{}': {:?}", PARTS[part].0, self.clock));
        failing.first().map_or(Ok(()), told)
    }
}

/// Demand 2: accepted slips are rewritten byte for byte, one after another, and each has two bytes or more. Their
/// unflagged arguments are 0.
fn check_rewritten(mut bytes: &[u8], requests: &[Request]) -> Result<(), String> {
    for request in requests {
        let length = cementoad_slip_length(*request).min(bytes.len());
        let (slip, behind) = bytes.split_at(length);
        let rewritten = library::write_slip(*request, &vec![0xAA; length]);
        let alike = rewritten == Answer::Written(Written { length, refusal: NO_REFUSAL }, slip.to_vec());
        if length < 2 || !alike || *request != or_else(request, &Request::default()) {
            return Err(format!("demand 2: the slip is rewritten otherwise: {rewritten:?}"));
        }
        bytes = behind;
    }
    if bytes.is_empty() { Ok(()) } else { Err(format!("demand 2: bytes are lost: {bytes:?}")) }
}

/// 02, R-5: a row ends where its bytes do, or stops at a slip that is refused, from which on the bytes are left. Of the
/// slips before it demand 2 holds.
fn check_row(bytes: &[u8], requests: &[Request], refusal: u8, rest: usize) -> Result<(), String> {
    let (used, rest) = bytes.split_at(bytes.len().saturating_sub(rest));
    let ends = rest.is_empty() && refusal == NO_REFUSAL;
    let stops = !rest.is_empty() && refusal != NO_REFUSAL && read_slip(rest).refusal == refusal;
    if ends || stops { check_rewritten(used, requests) } else { Err(format!("R-5: {refusal} told, {rest:?} left")) }
}

/// Demand 2: a written slip reads back as the same request, by its word but for the version (02, R-11) and its flagged
/// arguments, alone and with other bytes behind it. It has the length that is told of it, and nothing behind it is
/// touched.
fn check_read_back(asked: &Request, before: &[u8], after: &[u8], length: usize) -> Result<(), String> {
    let slip = after.get(..length).unwrap_or(after);
    let read = [read_single_slip(slip), read_slip(&[slip, &[0xAA; 3]].concat())];
    let request = or_else(&read[0].request, &Request::default());
    let same = cementoad::Request::from(request).is_same_request(&(*asked).into());
    let alike = read == [Received { request, length, refusal: NO_REFUSAL }; 2];
    if same && alike && length == cementoad_slip_length(*asked) && after.get(length..) == before.get(length..) {
        return Ok(());
    }
    Err(format!("demand 2: the slip reads back otherwise: {read:?}"))
}

/// The length that is told of a request's slip is the one that writing answers, given room.
fn check_length(request: Request, length: usize) -> Result<(), String> {
    let written = write_slip(request, &mut [0; LONGEST_SLIP]);
    if written.length == length {
        Ok(())
    } else {
        Err(format!("{length} bytes are told, but writing answers {written:?}"))
    }
}
