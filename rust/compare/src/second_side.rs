//! The second program's side: its clocks in the boundary's widths, behind the boundary's own test.

use cementoad_sys::{Clock, Created, Detailed, NO_REFUSAL, NOT_A_CLOCK, Reading, Received, Updated, Written};

use crate::call::{Answer, Call};
use crate::convert::{narrow, narrow_clock, narrow_details, narrow_request, wide_clock, wide_request};
use crate::is_clock::is_clock;

pub fn answer(call: &Call, clock: Clock) -> Answer {
    let held = is_clock(&clock).then(|| wide_clock(&clock));
    match (call, held) {
        (Call::Take(_), _) => Answer::Taken,
        (&Call::Create(word, backstop, now), _) => {
            let (refusal, clock) = second::create(word, backstop, now);
            Answer::Created(Created { clock: clock.map_or_else(Clock::default, |clock| narrow_clock(&clock)), refusal })
        }
        (&Call::Read(now), held) => {
            let (refusal, value) = held.map_or((NOT_A_CLOCK, 0), |held| second::read(&held, now));
            Answer::Read(Reading { refusal, value: narrow(value, i64::MAX) })
        }
        (&Call::Details(now), held) => {
            let zeros = second::Details::default();
            let (refusal, details) = held.map_or((NOT_A_CLOCK, zeros), |held| second::details(&held, now));
            Answer::Detailed(Detailed { refusal, details: narrow_details(&details) })
        }
        (Call::Update(request, now), Some(held)) => {
            let (refusal, after) = second::update(&held, &wide_request(request), *now);
            Answer::Updated(Updated { clock: narrow_clock(&after), refusal })
        }
        (Call::Update(..), None) => Answer::Updated(Updated { clock, refusal: NOT_A_CLOCK }),
        (Call::Started, held) => Answer::Started(held.is_some_and(|held| held.line.is_some())),
        (Call::ReadSlip(bytes), _) => {
            let (refusal, request, rest) = second::read_slip(bytes);
            received(refusal, &request, bytes.len() - rest.len())
        }
        (Call::ReadSingleSlip(bytes), _) => {
            let (refusal, request) = second::read_single_slip(bytes);
            received(refusal, &request, if refusal == NO_REFUSAL { bytes.len() } else { 0 })
        }
        (Call::ReadRow(bytes), _) => {
            let (refusal, requests, rest) = second::read_row(bytes);
            Answer::Row(requests.iter().map(narrow_request).collect(), refusal, rest.len())
        }
        (Call::WriteSlip(request, buffer), _) => {
            let mut buffer = buffer.clone();
            let (refusal, length) = second::write_slip(&wide_request(request), &mut buffer);
            Answer::Written(Written { length, refusal }, buffer)
        }
        (Call::SlipLength(request), _) => Answer::Length(second::slip_length(&wide_request(request))),
    }
}

fn received(refusal: u8, request: &second::Request, length: usize) -> Answer {
    Answer::Received(Received { request: narrow_request(request), length, refusal })
}
