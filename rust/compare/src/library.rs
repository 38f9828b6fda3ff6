//! The library's side: the archive's own functions, and Rust's iterator over them for slips in a row.

use cementoad::Slips;
use cementoad_sys::{self as sys, Clock, NO_REFUSAL, Request};

use crate::call::{Answer, Call};

pub fn answer(call: &Call, clock: Clock) -> Answer {
    match *call {
        Call::Take(_) => Answer::Taken,
        Call::Create(word, backstop, now) => Answer::Created(sys::cementoad_create(word, backstop, now)),
        Call::Read(now) => Answer::Read(sys::cementoad_read(clock, now)),
        Call::Details(now) => Answer::Detailed(sys::cementoad_get_details(clock, now)),
        Call::Update(request, now) => Answer::Updated(sys::cementoad_update(clock, request, now)),
        Call::Started => Answer::Started(sys::cementoad_is_started(clock)),
        Call::ReadSlip(ref bytes) => Answer::Received(sys::read_slip(bytes)),
        Call::ReadSingleSlip(ref bytes) => Answer::Received(sys::read_single_slip(bytes)),
        Call::ReadRow(ref bytes) => read_row(bytes),
        Call::WriteSlip(request, ref buffer) => write_slip(request, buffer),
        Call::SlipLength(request) => Answer::Length(sys::cementoad_slip_length(request)),
    }
}

/// Reads on until the iterator ends.
fn read_row(bytes: &[u8]) -> Answer {
    let (mut requests, mut refusal) = (Vec::new(), NO_REFUSAL);
    let mut slips = Slips::new(bytes);
    for slip in slips.by_ref() {
        match slip {
            Ok(request) => requests.push(Request::from(&request)),
            Err(refused) => refusal = refused.number(),
        }
    }
    Answer::Row(requests, refusal, slips.rest().len())
}

/// How many bytes stand before and behind the lent buffer, which nothing may touch.
const MARGIN: usize = 32;
const FILLING: u8 = 0xC3;

/// Lends the middle of a longer buffer, so that a byte that is touched outside of what was lent is found as well.
pub fn write_slip(request: Request, buffer: &[u8]) -> Answer {
    let mut whole = [&[FILLING; MARGIN], buffer, &[FILLING; MARGIN]].concat();
    let lent = MARGIN..MARGIN + buffer.len();
    let written = sys::write_slip(request, &mut whole[lent.clone()]);
    let untouched = |(at, &byte)| lent.contains(&at) || byte == FILLING;
    assert!(whole.iter().enumerate().all(untouched), "the library wrote outside of the lent buffer: {request:?}");
    Answer::Written(written, whole[lent].to_vec())
}
