//! Requests, lines and clocks in the boundary's types and in the second program's own.

use cementoad_sys::{Clock, Details, ERROR, Line, RATE, REFERENCE, Request, SYNTHETIC, VERSION_3};

/// The request in the second program's own type.
pub fn wide_request(request: &Request) -> second::Request {
    let &Request { word, synthetic, reference, rate, error } = request;
    second::Request { word, synthetic, reference, rate, error }
}

/// The second program's request in the boundary's type.
pub fn narrow_request(request: &second::Request) -> Request {
    let &second::Request { word, synthetic, reference, rate, error } = request;
    Request { word, synthetic, reference, rate, error }
}

/// The time at which the request's new line begins: its reference, if that is flagged, else now.
pub fn point(request: &Request, now: i64) -> i64 {
    if request.word & REFERENCE != 0 { request.reference } else { now }
}

/// Whether the word has version 3.
pub fn is_version_3(word: u64) -> bool {
    word >> 58 == VERSION_3 >> 58
}

/// How many times, synthetic and reference, the word flags.
pub fn times(word: u64) -> usize {
    [SYNTHETIC, REFERENCE].iter().filter(|&flag| word & flag != 0).count()
}

/// The bit at which a slip of this word has what follows so many of its times.
pub fn behind_times(word: u64, count: usize) -> usize {
    16 + count * second::time_width(word)
}

/// The request with the arguments that it doesn't flag taken from another.
pub fn or_else(request: &Request, other: &Request) -> Request {
    let pick = |flag: u64| if request.word & flag != 0 { request } else { other };
    let (synthetic, reference) = (pick(SYNTHETIC).synthetic, pick(REFERENCE).reference);
    Request { word: request.word, synthetic, reference, rate: pick(RATE).rate, error: pick(ERROR).error }
}

fn wide_line(line: &Line) -> second::Line {
    second::Line {
        reference: line.reference.into(),
        synthetic: line.synthetic.into(),
        remainder: line.remainder.into(),
        rate: line.rate.into(),
    }
}

/// A clock of the boundary in the second program's own type.
pub fn wide_clock(clock: &Clock) -> second::Clock {
    second::Clock {
        word: clock.word,
        backstop: clock.backstop.into(),
        latest: clock.latest.into(),
        line: (clock.started == 1).then(|| wide_line(&clock.line)),
        error: clock.error.into(),
        generation: clock.generation.into(),
    }
}

/// An error bound that nobody hands in.
const NO_BOUND: u64 = 0x5A5A_5A5A_5A5A_5A5A;

/// A number of the boundary's width, or where it doesn't fit, as it may in a wrong version, one that is no answer.
pub fn narrow<T: TryFrom<i128>>(wide: i128, other: T) -> T {
    T::try_from(wide).unwrap_or(other)
}

fn narrow_line(line: &second::Line) -> Line {
    Line {
        reference: narrow(line.reference, i64::MAX),
        synthetic: narrow(line.synthetic, i64::MAX),
        remainder: narrow(line.remainder, u32::MAX),
        rate: narrow(line.rate, i32::MAX),
    }
}

pub fn narrow_clock(clock: &second::Clock) -> Clock {
    Clock {
        line: clock.line.map_or_else(Line::default, |line| narrow_line(&line)),
        backstop: narrow(clock.backstop, i64::MAX),
        latest: narrow(clock.latest, i64::MAX),
        error: narrow(clock.error, NO_BOUND),
        generation: narrow(clock.generation, u32::MAX),
        word: clock.word,
        started: clock.line.is_some().into(),
    }
}

pub fn narrow_details(details: &second::Details) -> Details {
    Details {
        started: details.started,
        line: narrow_line(&details.line),
        error: narrow(details.error, NO_BOUND),
        generation: narrow(details.generation, u32::MAX),
        latest: narrow(details.latest, i64::MAX),
        word: details.word,
        backstop: narrow(details.backstop, i64::MAX),
        now: narrow(details.now, i64::MAX),
    }
}

/// The line's value at a time.
pub fn value(line: &Line, time: i64) -> i128 {
    second::value(&wide_line(line), time.into())
}

/// Where the line stands at a time, in millionths.
pub fn exact(line: &Line, time: i64) -> i128 {
    second::exact(&wide_line(line), time.into())
}
