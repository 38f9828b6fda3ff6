//! Lists written from 01 and 02: the worked cases, each refusal just inside and just outside, the orders of checks that
//! can be seen, effects that are easily got wrong, and slips, single ones and rows. Each call that is refused has its
//! number beside it, and some calls are told by their whole answer.

use cementoad_sys::*;

use crate::call::Answer;
use crate::call::Call::{self, Create, Details, Read, SlipLength, Started, Take, Update};
use crate::convert::or_else;
use crate::numbers::WORDS;

const PLAIN: u8 = 0;
const STEADY: u8 = MONOTONIC | CONTINUOUS;

/// The slips of case 12: a clock is set to 1500, and trimmed by -23.
const SET: &[u8] = b"\x0A\0\0\0\0\0\0\0\x2E\xE0";
const TRIM: &[u8] = b"\x08\x80\x7A\x20";
/// A slip that flags nothing.
const BARE: &[u8] = b"\x08\0";
/// Version 3 slips that set a clock: to the first value that needs it, and, though version 2 would do, to the last that
/// doesn't.
const LATE: &[u8] = b"\x0E\0\x40\0\0\0\0\0\0\0";
const NEEDLESS: &[u8] = b"\x0E\0\x3F\xFF\xFF\xFF\xFF\xFF\xFF\xFE";

/// A call with its refusal's number, 0 where it is accepted, and with its whole answer where that is told.
pub struct Step {
    pub call: Call,
    pub refusal: u8,
    pub answer: Option<Answer>,
}

impl From<Call> for Step {
    fn from(call: Call) -> Step {
        Step { call, refusal: NO_REFUSAL, answer: None }
    }
}

/// Lists by their names.
type Lists = Vec<(&'static str, Vec<Step>)>;

/// Lists as rows: a name, then calls, with their numbers where they are refused.
macro_rules! lists {
    ($($name:literal: $($call:expr $(=> $refusal:literal)?),+;)+) => {
        vec![$(($name, vec![$(Step { $(refusal: $refusal,)? ..Step::from($call) }),+])),+]
    };
}

pub fn fixed_lists() -> Lists {
    let clocks = [worked_cases(), creations(), readings(), requests_refused(), lines_refused(), orders(), effects()];
    let values = [sums_past_64_bits(), remainders_kept(), remainders_judged(), many_changes()];
    let read = [slip, single_slip, row].map(slips_read);
    let slips = [ends_of_slips(), rows_to_their_end(), rows_that_stop(), slips_written(), versions_of_slips()];
    clocks.into_iter().chain(values).chain(read).chain(slips).chain([each_bit()]).flatten().collect()
}

fn answers(call: Call, answer: Answer) -> Step {
    Step { call, refusal: NO_REFUSAL, answer: Some(answer) }
}

fn reads(now: i64, value: i64) -> Step {
    answers(Read(now), Answer::Read(Reading { refusal: NO_REFUSAL, value }))
}

fn is_started(started: bool) -> Step {
    answers(Started, Answer::Started(started))
}

/// The details of a clock of this word and backstop, with this line (R0, S0, the remainder, a) and latest time. At
/// generation 1 no update has started it.
fn tells(kind: (u8, i64), now: i64, line: (i64, i64, u32, i32), error: u64, generation: u32, latest: i64) -> Step {
    let (word, backstop) = kind;
    let line = Line { reference: line.0, synthetic: line.1, remainder: line.2, rate: line.3 };
    let started = word == AUTO_START || generation != 1;
    let details = cementoad_sys::Details { started, line, error, generation, latest, word, backstop, now };
    answers(Details(now), Answer::Detailed(Detailed { refusal: NO_REFUSAL, details }))
}

/// The request is written as these bytes.
fn writes(request: Request, bytes: &[u8]) -> Step {
    let written = Written { length: bytes.len(), refusal: NO_REFUSAL };
    answers(write(request, bytes.len()), Answer::Written(written, bytes.to_vec()))
}

/// The reading takes this request off so many bytes.
fn takes(call: Call, request: Request, length: usize) -> Step {
    answers(call, Answer::Received(Received { request, length, refusal: NO_REFUSAL }))
}

/// The row of these parts gives these requests, then this refusal, 0 at its end, and leaves so many bytes.
fn gives(parts: &[&[u8]], requests: &[Request], refusal: u8, rest: usize) -> Step {
    let answer = Answer::Row(requests.to_vec(), refusal, rest);
    Step { refusal, ..answers(row(&parts.concat()), answer) }
}

fn slip(bytes: &[u8]) -> Call {
    Call::ReadSlip(bytes.to_vec())
}

fn single_slip(bytes: &[u8]) -> Call {
    Call::ReadSingleSlip(bytes.to_vec())
}

fn row(bytes: &[u8]) -> Call {
    Call::ReadRow(bytes.to_vec())
}

fn write(request: Request, size: usize) -> Call {
    Call::WriteSlip(request, vec![0xA5; size])
}

fn word(word: u64) -> Request {
    Request { word, ..Request::default() }
}

fn set(synthetic: i64) -> Request {
    Request { synthetic, ..word(VERSION_2 | SYNTHETIC) }
}

/// The request with a version 3 word.
fn newer(request: Request) -> Request {
    Request { word: request.word | VERSION_3, ..request }
}

fn rate(rate: i32) -> Request {
    Request { rate, ..word(VERSION_2 | RATE) }
}

fn error(error: u64) -> Request {
    Request { error, ..word(VERSION_2 | ERROR) }
}

/// The request with a reference as well.
fn at(reference: i64, request: Request) -> Request {
    Request { reference, word: request.word | REFERENCE, ..request }
}

/// The request with a rate as well.
fn with(rate: i32, request: Request) -> Request {
    Request { rate, word: request.word | RATE, ..request }
}

/// The request with an error bound as well.
fn within(error: u64, request: Request) -> Request {
    Request { error, word: request.word | ERROR, ..request }
}

/// The request of version 2 with its unflagged arguments outside their ranges.
fn junk(request: Request) -> Request {
    or_else(&request, &Request { word: 0, synthetic: -1, reference: END, rate: 1001, error: 7 })
}

fn worked_cases() -> Lists {
    let all = Request { word: VERSION_2 | (15 * ERROR), synthetic: 1, reference: 2, rate: 3, error: 4 };
    lists! {
        "case 1": Create(PLAIN, 0, 0), Update(set(1500), 100), reads(350, 1750);
        "case 2": Create(PLAIN, 0, 0), Update(set(1500), 100), Update(rate(-23), 1_000_100),
            reads(1_000_100, 1_001_500), reads(2_000_100, 2_001_477);
        "case 3": Create(MONOTONIC | AUTO_START, 0, 0), Update(at(1_000_000_000, rate(100)), 2_000_000_000),
            reads(2_000_000_000, 2_000_100_000);
        "case 4": Create(MONOTONIC | AUTO_START, 0, 0), Update(at(1_000_000_000, rate(-100)), 2_000_000_000) => 14,
            Update(at(3_000_000_000, rate(-100)), 2_000_000_000), reads(2_000_000_000, 2_000_100_000);
        "case 5": Create(PLAIN, 0, 0), Update(with(1, at(10, set(10))), 9), reads(9, 8), reads(10, 10);
        "case 6": Create(PLAIN, 0, 0), Update(with(-1, set(0)), 0), Update(rate(-1), 1), Update(rate(-1), 2),
            reads(3, 2);
        "case 7": Create(PLAIN, 0, 0), Update(with(1001, set(1500)), 100) => 6, Update(with(1000, set(1500)), 100),
            Create(PLAIN, 0, 0), Update(with(-1001, set(1500)), 100) => 6, Update(with(-1000, set(1500)), 100);
        "case 8": Create(PLAIN, 1000, 0), Update(set(999), 0) => 13, Update(set(1000), 0);
        "case 9": Create(AUTO_START, 5, 4) => 17, Create(AUTO_START, 5, 5);
        "case 10": Create(PLAIN, 0, 0), Update(newer(set(END)), 0), reads(0, END), Read(1) => 12;
        "case 11": Create(MONOTONIC, 10, 0), Update(set(20), 0), reads(0, 20), Update(set(5), 0) => 13;
        "case 12": writes(set(1500), SET), writes(rate(-23), TRIM);
        "four arguments that differ":
            writes(all, b"\x0B\xC0\0\0\0\0\0\0\0\x08\0\0\0\0\0\0\0\x9F\x58\0\0\0\0\0\0\0\x20");
        "case 13": Create(PLAIN, 0, 0), Update(at(5, error(1)), 10) => 7, Update(set(9), 10),
            Update(at(5, error(1)), 10) => 7, Create(STEADY | AUTO_START, 0, 0), Update(at(5, error(1)), 10) => 7,
            Update(at(10, rate(1)), 10) => 9, Create(STEADY, 0, 0), Update(at(5, error(1)), 10) => 7;
        "case 14": Create(MONOTONIC, 5, 10), Update(set(40), 20), reads(30, 50), Update(set(50), 30),
            Update(set(49), 30) => 14;
    }
}

fn creations() -> Lists {
    lists! {
        "create 1": Create(PLAIN, 0, i64::MIN) => 1, Create(PLAIN, 0, -1) => 1, Create(PLAIN, 0, 0),
            Create(PLAIN, 0, VERSION_2_END + 1), Create(PLAIN, 0, END);
        "create 16": Create(PLAIN, i64::MIN, 0) => 16, Create(PLAIN, -1, 0) => 16, Create(PLAIN, 0, 0),
            Create(PLAIN, VERSION_2_END + 1, 0), Create(PLAIN, END, 0);
        "create 17": Create(AUTO_START, 1, 0) => 17, Create(AUTO_START, 0, 0), Create(AUTO_START, END, END),
            Create(AUTO_START, END, END - 1) => 17, Create(PLAIN, END, END - 1);
        "create in order": Create(1, 0, -1) => 1, Create(CONTINUOUS | 1, 0, 0) => 3, Create(CONTINUOUS, -1, 0) => 15,
            Create(AUTO_START, 1, -1) => 1;
        "no clock": Create(1, 0, 0) => 3, Read(0) => 255, Details(0) => 255, Read(-1) => 255, is_started(false),
            Update(set(1), 0) => 255;
    }
}

fn readings() -> Lists {
    lists! {
        "read 1": Create(PLAIN, 7, 0), Read(i64::MIN) => 1, Read(-1) => 1, reads(0, 7), reads(END, 7),
            is_started(false);
        "details 1": Create(MONOTONIC, 7, 0), Details(i64::MIN) => 1, Details(-1) => 1, Details(0), Details(END);
        "read and details 2": Create(PLAIN, 0, 10), Read(9) => 2, Details(9) => 2, Read(10), Details(10),
            Update(set(5), 20), Update(set(-1), 30) => 5, Read(19) => 2, Details(19) => 2, Read(20), Details(20),
            is_started(true);
        "the backstop END": Create(PLAIN, END, 0), reads(END, END);
        "read 12 behind 2 and not in details": Create(PLAIN, 0, 0), Update(newer(set(END)), 0), Update(error(3), 10),
            Read(5) => 2, Read(10) => 12, Details(10), Details(9) => 2;
        "an automatic start to the end": Create(AUTO_START, 0, 0), reads(VERSION_2_END + 1, VERSION_2_END + 1),
            reads(END, END);
        "read and details in order": Create(PLAIN, 0, 10), Read(-1) => 1, Details(-1) => 1;
    }
}

/// Rules 1 to 11 and 22, before any line is drawn.
fn requests_refused() -> Lists {
    lists! {
        "update 1": Create(PLAIN, 0, 0), Update(set(0), -1) => 1, Update(set(0), i64::MIN) => 1, Update(set(0), END),
            Update(set(0), -1) => 1;
        "update 2": Create(PLAIN, 0, 10), Update(set(0), 9) => 2, Update(set(0), 10), Update(error(1), 20),
            Update(set(0), 19) => 2, Update(set(0), 20);
        "update 4": Create(PLAIN, 0, 0), Update(junk(word(VERSION_2)), 0) => 4, Update(set(1), 0),
            Update(word(VERSION_2), 0) => 4, Update(error(0), 0);
        "update 5 synthetic": Create(PLAIN, 0, 0), Update(set(i64::MIN), 0) => 5, Update(set(-1), 0) => 5,
            Update(set(VERSION_2_END + 1), 0) => 5, Update(set(END), 0) => 5, Update(set(VERSION_2_END), 0),
            Update(junk(set(0)), 0), Update(junk(rate(1)), 0), Update(junk(error(1)), 0);
        "update 5 reference": Create(PLAIN, 0, 0), Update(at(-1, set(5)), 10) => 5,
            Update(at(VERSION_2_END + 1, set(VERSION_2_END)), 10) => 5, Update(at(END, set(5)), 10) => 5,
            Update(at(0, set(5)), 10), Update(at(VERSION_2_END, set(VERSION_2_END)), 10),
            Update(at(-1, rate(5)), 10) => 5;
        "update 5 of version 3": Create(PLAIN, 0, 0), Update(newer(set(i64::MIN)), 0) => 5,
            Update(newer(set(-1)), 0) => 5, Update(newer(set(0)), 0), Update(newer(set(VERSION_2_END + 1)), 0),
            Update(newer(set(END)), 0), Update(newer(at(-1, set(END))), 10) => 5,
            Update(newer(at(VERSION_2_END + 1, set(END))), 10), Update(newer(at(END, set(END))), 10),
            Update(newer(or_else(&error(1), &at(-1, set(-1)))), 10);
        "update 6": Create(PLAIN, 0, 0), Update(with(900, set(5)), 0), Update(with(1001, set(5)), 0) => 6,
            Update(rate(1000), 0), Update(rate(i32::MIN), 0) => 6, Update(rate(i32::MAX), 0) => 6,
            Create(PLAIN, 0, 0), Update(with(-900, set(5)), 0), Update(with(-1001, set(5)), 0) => 6,
            Update(rate(-1000), 0);
        "update 7": Create(PLAIN, 0, 0), Update(set(100), 10), Update(at(5, word(VERSION_2)), 10) => 7,
            Update(at(5, error(1)), 10) => 7, Update(at(5, rate(1)), 10), Update(at(5, set(1)), 10);
        "update 8": Create(PLAIN, 0, 0), Update(rate(1), 0) => 8, Update(error(1), 0) => 8,
            Update(at(0, rate(1)), 0) => 8, Update(set(1), 0), Update(rate(1), 0), Update(error(1), 0),
            Create(AUTO_START, 0, 0), Update(rate(1), 0);
        "update 9": Create(STEADY, 0, 0), Update(at(10, set(5)), 10) => 9, Update(set(5), 10),
            Update(at(10, rate(1)), 10) => 9, Update(rate(1), 10), Create(MONOTONIC, 0, 0), Update(at(10, set(5)), 10);
        "update 10": Create(STEADY, 0, 0), Update(with(1, set(5)), 10), Update(set(100), 20) => 10,
            Update(error(1), 20), Create(STEADY | AUTO_START, 0, 0), Update(set(100), 20) => 10;
        "update 11": Create(MONOTONIC, 0, 0), Update(with(3, set(5)), 0), Update(with(3, set(50)), 0) => 11,
            Update(set(50), 0), Update(rate(-3), 0), Create(PLAIN, 0, 0), Update(set(5), 0), Update(with(3, set(1)), 0);
        "update 22 from 0": Create(AUTO_START, 0, 0), Update(rate(201), 0) => 22, Update(rate(-201), 0) => 22,
            Update(rate(200), 0), Create(PLAIN, 0, 0), Update(set(5), 0), Update(rate(201), 0) => 22,
            Update(rate(-201), 0) => 22, Update(rate(-200), 0);
        "update 22 from the present rate": Create(PLAIN, 0, 0), Update(with(100, set(5)), 0),
            Update(rate(301), 0) => 22, Update(rate(-101), 0) => 22, Update(rate(-100), 0), Update(rate(101), 0) => 22,
            Update(rate(-300), 0), Create(STEADY, 0, 0), Update(with(1000, set(5)), 0), Update(rate(799), 0) => 22,
            Update(rate(800), 0);
        "update 22 with a value": Create(PLAIN, 0, 0), Update(with(-1000, set(5)), 0),
            Update(with(-799, set(5)), 0) => 22, Update(at(5, with(-799, set(5))), 0) => 22,
            Update(with(-800, set(5)), 0);
        "update 22 only of a flagged rate": Create(PLAIN, 0, 0), Update(with(800, set(5)), 0), Update(set(6), 0),
            Update(error(1), 0), Update(junk(set(7)), 0), Update(junk(error(1)), 0);
    }
}

/// Rules 12 to 14, for the new line.
fn lines_refused() -> Lists {
    let late = |synthetic| newer(set(synthetic));
    lists! {
        "update 12 S0 below 0": Create(PLAIN, 0, 0), Update(at(10, set(0)), 10), Update(at(9, rate(0)), 10) => 12,
            Update(at(10, rate(0)), 10);
        "update 12 S0 above END": Create(PLAIN, 0, 0), Update(late(END - 1), 0), Update(at(2, rate(0)), 0) => 12,
            Update(at(1, rate(0)), 0);
        "update 12 value": Create(PLAIN, 0, 0), Update(at(9, late(END)), 10) => 12, Update(at(10, late(END)), 10),
            Update(at(11, late(END)), 10);
        "update 12 only a new line": Create(PLAIN, 0, 0), Update(late(END), 0), Update(rate(0), 1) => 12,
            Update(error(1), 1), Update(rate(0), 1) => 12, Update(late(END), 1);
        "update 12 a wide product": Create(PLAIN, 0, 0), Update(with(900, set(0)), 0),
            Update(at(0, rate(1000)), END) => 12, Create(PLAIN, 0, 0), Update(with(-900, set(0)), 0),
            Update(at(0, rate(-1000)), END), reads(END, 9_214_148_664_817_921_031);
        "update 13 set": Create(PLAIN, 1000, 0), Update(at(11, set(1000)), 10) => 13, Update(at(9, set(999)), 10),
            Update(at(10, set(999)), 10) => 13, Update(at(10, set(1000)), 10);
        "update 13 rate": Create(PLAIN, 1000, 0), Update(set(1000), 0), Update(at(1000, rate(200)), 0) => 13,
            Update(at(1, rate(1)), 0) => 13, Update(at(1, rate(0)), 0), Update(at(1, rate(-1)), 0);
        "update 14 set": Create(MONOTONIC, 0, 0), Update(set(50), 100), Update(set(59), 110) => 14,
            Update(set(60), 110), Update(at(111, set(60)), 110) => 14, Update(at(109, set(59)), 110),
            Create(PLAIN, 0, 0), Update(set(50), 100), Update(set(0), 110), Create(MONOTONIC, 0, 0),
            Update(late(END), 0), Update(late(END), 1) => 14;
        "update 14 rate": Create(MONOTONIC | AUTO_START, 0, 0), Update(at(11, rate(1)), 10) => 14,
            Update(at(9, rate(-1)), 10) => 14, Update(at(11, rate(-1)), 10);
    }
}

/// Sums that would come out in the range if they wrapped: the value at END of the line from END at 0 with the rate 1000,
/// which is 2^64 and 9,223,372,036,854,773 more; 2^64 itself, beside the last that a u64 holds; and the value at 0 of
/// the line from 0 at END.
fn sums_past_64_bits() -> Lists {
    let fast = |reference, synthetic| newer(with(1000, at(reference, set(synthetic))));
    lists! {
        "read 12 past 64 bits": Create(PLAIN, 0, 0), Update(fast(0, END), 0), Read(END) => 12, Details(END),
            Create(PLAIN, 0, 0), Update(fast(0, 9_214_148_664_817_921_034), 0), Read(END) => 12;
        "update 12 a value past 64 bits": Create(PLAIN, 0, 0), Update(fast(0, END), END) => 12,
            Update(fast(0, 9_214_148_664_817_921_033), END) => 12,
            Update(fast(0, 9_214_148_664_817_921_034), END) => 12;
        "update 12 S0 past 64 bits": Create(PLAIN, 0, 0), Update(fast(0, END), 0),
            Update(newer(at(END, rate(1000))), 0) => 12, Create(PLAIN, 0, 0), Update(fast(END, 0), END),
            Update(at(0, rate(1000)), END) => 12;
        "update 13 past 64 bits": Create(PLAIN, 0, 0), Update(fast(END, 0), 0) => 13;
        "update 14 past 64 bits": Create(MONOTONIC, 0, 0), Update(fast(0, END), 0), Update(newer(set(END)), END) => 14;
    }
}

/// Calls to which two checks apply.
fn orders() -> Lists {
    let (unversioned, last) = (Request { word: SYNTHETIC, ..set(-1) }, newer(set(END)));
    lists! {
        "update in order before the start": Create(PLAIN, 0, 10), Update(set(1), -1) => 1, Update(word(0), 9) => 2,
            Update(word(0), 10) => 3, Update(unversioned, 10) => 3, Update(word(VERSION_2), 10) => 4,
            Update(with(1001, set(-1)), 10) => 5, Update(at(-1, error(1)), 10) => 5, Update(rate(1001), 10) => 6,
            Update(at(1, error(1)), 10) => 7;
        "update in order on a continuous clock": Create(STEADY, 0, 0), Update(at(1, error(1)), 10) => 7,
            Update(at(1, rate(1)), 10) => 8, Update(set(5), 10), Update(at(10, set(20)), 10) => 9,
            Update(with(1, set(20)), 10) => 10, Update(at(1, error(1)), 10) => 7;
        "11 before 12": Create(MONOTONIC, 0, 0), Update(set(5), 10), Update(at(9, with(0, last)), 10) => 11;
        "12 before 13": Create(PLAIN, 1000, 0), Update(set(1000), 2000), Update(at(0, rate(-200)), 2000) => 12;
        "6 and 11 before 22": Create(MONOTONIC | AUTO_START, 0, 0), Update(rate(1001), 10) => 6,
            Update(with(201, set(50)), 10) => 11;
        "22 before 12": Create(PLAIN, 0, 0), Update(last, 0), Update(rate(200), 1) => 12,
            Update(rate(201), 1) => 22;
        "22 before 13": Create(PLAIN, 1000, 0), Update(set(1000), 0), Update(at(1000, rate(200)), 0) => 13,
            Update(at(1000, rate(201)), 0) => 22;
        "22 before 14": Create(MONOTONIC | AUTO_START, 0, 0), Update(at(0, rate(-200)), 5000) => 14,
            Update(at(0, rate(-201)), 5000) => 22;
    }
}

/// Accepted updates whose effect is easily got wrong, and what details then tell.
fn effects() -> Lists {
    let unknown = UNKNOWN_ERROR;
    let aged = Clock { generation: u32::MAX, started: 1, ..Clock::default() };
    lists! {
        "before a start and behind an automatic one": Create(STEADY, 7, 0), is_started(false),
            tells((STEADY, 7), 3, (0, 0, 0, 0), unknown, 1, 0), Create(PLAIN, 0, 0), is_started(false),
            tells((PLAIN, 0), 3, (0, 0, 0, 0), unknown, 1, 0), Create(AUTO_START, 0, 5), is_started(true),
            tells((AUTO_START, 0), 6, (0, 0, 0, 0), unknown, 1, 5);
        "a set keeps the old rate": Create(PLAIN, 0, 0), Update(with(7, set(5)), 10),
            tells((PLAIN, 0), 11, (10, 5, 0, 7), unknown, 2, 10), Update(set(6), 20),
            tells((PLAIN, 0), 21, (20, 6, 0, 7), unknown, 3, 20), Update(with(8, set(6)), 20),
            tells((PLAIN, 0), 20, (20, 6, 0, 8), unknown, 4, 20);
        "an equal line raises the generation": Create(PLAIN, 0, 0), Update(set(0), 0), Update(set(0), 0),
            tells((PLAIN, 0), 0, (0, 0, 0, 0), unknown, 3, 0), Update(junk(rate(0)), 0),
            tells((PLAIN, 0), 0, (0, 0, 0, 0), unknown, 4, 0);
        "the error bound alone raises the generation": Create(PLAIN, 0, 0), Update(error(5), 0) => 8,
            tells((PLAIN, 0), 0, (0, 0, 0, 0), unknown, 1, 0), Update(set(0), 0), Update(junk(error(5)), 9),
            tells((PLAIN, 0), 9, (0, 0, 0, 0), 5, 3, 9), Update(error(5), 9),
            tells((PLAIN, 0), 9, (0, 0, 0, 0), 5, 4, 9), Update(junk(rate(1)), 9),
            tells((PLAIN, 0), 9, (9, 9, 0, 1), 5, 5, 9);
        "a line and an error bound raise it once": Create(PLAIN, 0, 0), Update(within(5, with(7, set(1))), 3),
            tells((PLAIN, 0), 3, (3, 1, 0, 7), 5, 2, 3);
        "the generation begins again at 0": Take(aged), Update(error(1), 0),
            tells((PLAIN, 0), 0, (0, 0, 0, 0), 1, 0, 0), Take(aged), Update(rate(0), 0),
            tells((PLAIN, 0), 0, (0, 0, 0, 0), 0, 0, 0);
        "a refused update leaves no trace": Create(PLAIN, 0, 0), Update(set(5), 0), Update(at(5, error(9)), 100) => 7,
            Update(error(1), 50), tells((PLAIN, 0), 60, (0, 5, 0, 0), 1, 3, 50);
        "a rate at another time keeps the value there": Create(PLAIN, 0, 0), Update(set(100), 10),
            Update(at(1000, rate(200)), 20), tells((PLAIN, 0), 20, (1000, 1090, 0, 200), unknown, 3, 20),
            reads(1000, 1090);
    }
}

/// What becomes of a line's remainder (02, R-7).
fn remainders_kept() -> Lists {
    let (unknown, plain, slow) = (UNKNOWN_ERROR, (PLAIN, 0), with(-1, set(0)));
    lists! {
        "a rate alone keeps the exact value": Create(PLAIN, 0, 0), Update(slow, 0),
            tells(plain, 0, (0, 0, 0, -1), unknown, 2, 0), Update(rate(-1), 1),
            tells(plain, 1, (1, 0, 999_999, -1), unknown, 3, 1), Update(rate(0), 3),
            tells(plain, 3, (3, 2, 999_997, 0), unknown, 4, 3), Update(rate(3), 4),
            tells(plain, 4, (4, 3, 999_997, 3), unknown, 5, 4), reads(4, 3), reads(5, 5), Update(rate(0), 5),
            tells(plain, 5, (5, 5, 0, 0), unknown, 6, 5);
        "a rate alone keeps the exact value before the reference": Create(PLAIN, 0, 0),
            Update(with(1, at(10, set(10))), 9), Update(at(9, rate(1)), 9),
            tells(plain, 9, (9, 8, 999_999, 1), unknown, 3, 9), reads(9, 8), reads(10, 10), Update(at(8, rate(-1)), 9),
            tells(plain, 9, (8, 7, 999_998, -1), unknown, 4, 9), reads(9, 8);
        "a remainder behind a wide product": Create(PLAIN, 0, 0), Update(slow, 0), Update(rate(-1), 1),
            reads(END, 9_223_362_813_482_738_952), Update(rate(0), END),
            tells(plain, END, (END, 9_223_362_813_482_738_952, 224_193, 0), unknown, 4, END);
        "a remainder behind an automatic start": Create(AUTO_START, 0, 5), Update(rate(1), 7), Update(rate(0), 8),
            tells((AUTO_START, 0), 8, (8, 8, 1, 0), unknown, 3, 8);
        "a value set clears the remainder": Create(PLAIN, 0, 0), Update(slow, 0), Update(rate(-1), 1),
            Update(set(7), 1), tells(plain, 1, (1, 7, 0, -1), unknown, 4, 1), Update(rate(0), 2),
            tells(plain, 2, (2, 7, 999_999, 0), unknown, 5, 2), Update(with(3, at(5, set(7))), 2),
            tells(plain, 2, (5, 7, 0, 3), unknown, 6, 2);
        "the error bound alone keeps the remainder": Create(PLAIN, 0, 0), Update(slow, 0), Update(rate(-1), 1),
            Update(error(5), 7), tells(plain, 7, (1, 0, 999_999, -1), 5, 4, 7), reads(7, 6);
    }
}

/// Rules 12 to 14 look at whole nanoseconds, rounded down.
fn remainders_judged() -> Lists {
    let (unknown, slow) = (UNKNOWN_ERROR, with(-1, set(0)));
    lists! {
        "update 12 S0 just below 0": Create(PLAIN, 0, 0), Update(with(1, at(10, set(10))), 9),
            Update(at(0, rate(1)), 9) => 12, Update(at(1, rate(1)), 9),
            tells((PLAIN, 0), 9, (1, 0, 999_991, 1), unknown, 3, 9), Update(at(0, rate(1)), 9) => 12;
        "update 12 S0 at 0 by the remainder": Create(PLAIN, 0, 0), Update(slow, 0), Update(rate(-1), 1),
            Update(at(0, rate(-1)), 1), tells((PLAIN, 0), 1, (0, 0, 0, -1), unknown, 4, 1);
        "update and read 12 END and a remainder": Create(PLAIN, 0, 0), Update(newer(with(-1, set(END))), 0),
            Update(rate(-1), 1), tells((PLAIN, 0), 1, (1, END, 999_999, -1), unknown, 3, 1), reads(1, END),
            Read(2) => 12, Update(rate(-1), 2) => 12;
        "update 13 just below the backstop": Create(PLAIN, 0, 0), Update(with(-1, at(1, set(0))), 0) => 13,
            Create(PLAIN, 1, 0), Update(with(-1, set(1)), 0), Update(at(1, rate(0)), 0) => 13,
            Update(at(1, rate(-1)), 0), tells((PLAIN, 1), 0, (1, 1, 999_999, -1), unknown, 3, 0);
        "update 14 less by millionths": Create(MONOTONIC, 0, 0), Update(slow, 0), Update(at(3, rate(0)), 2),
            tells((MONOTONIC, 0), 2, (3, 2, 999_997, 0), unknown, 3, 2), reads(2, 1), Update(set(1), 2),
            tells((MONOTONIC, 0), 2, (2, 1, 0, 0), unknown, 4, 2), Update(set(0), 2) => 14;
    }
}

/// A plain clock, started at 0 with the value 0 and this rate, and handed the same rate at 1, 2 and so on to 1000.
fn thousand_changes(same: i32) -> impl Iterator<Item = Step> {
    let start = [Create(PLAIN, 0, 0), Update(with(same, set(0)), 0)];
    let changes = (1..=1000).map(move |now| Update(rate(same), now));
    start.into_iter().chain(changes).map(Step::from)
}

/// Case 6 of 01, longer: what every change leaves adds up.
fn many_changes() -> Lists {
    let kept = |line| tells((PLAIN, 0), 1001, line, UNKNOWN_ERROR, 1002, 1000);
    let slow = thousand_changes(-1).chain([reads(1001, 1000), kept((1000, 999, 999_000, -1))]);
    let fast = thousand_changes(1000).chain([reads(1001, 1002), kept((1000, 1001, 0, 1000))]);
    vec![
        ("a thousand rate changes of a slow clock", slow.collect()),
        ("a thousand rate changes of a fast clock", fast.collect()),
    ]
}

/// What a slip on the front, a single slip and the first of a row are told alike.
fn slips_read(read: fn(&[u8]) -> Call) -> Lists {
    lists! {
        "slip 18": read(b"\x08") => 18, read(b"\x04") => 18, read(BARE), read(&SET[..9]) => 18, read(SET);
        "slip 6": read(b"\x08\x80\xFA\0"), read(b"\x08\x80\xFA\x20") => 6, read(b"\x08\x80\xFF\xE0") => 6,
            read(b"\x08\x80\0\0");
        "slip 19": read(b"\x08\x80\x7A\x21") => 19, read(b"\x08\x80\x7A\x30") => 19, read(TRIM);
        "slip in order": read(b"\x10") => 18, read(b"\x0A\x01") => 3, read(b"\x08\xC0\xFF\xE0") => 18,
            read(b"\x08\x80\xFF\xE1") => 6, read(b"\x08\x80\xFF\xE1\0") => 6, read(b"\x08\x80\x7A\x21\0") => 19;
        "slip 31": read(b"\x0C\0") => 31, read(b"\x0C\x80\x7A\x20") => 31, read(NEEDLESS) => 31, read(LATE),
            read(&two_times(0x3F, 0x7F)) => 31, read(&two_times(0x3F, 0xFF)), read(&two_times(0x7F, 0x7F));
        "slip 31 in order": read(b"\x0E\x01\x3F") => 3, read(&NEEDLESS[..9]) => 18, read(b"\x0C\x80\xFA\x20") => 6,
            read(b"\x0C\x80\x7A\x21") => 19, read(&[&NEEDLESS[..9], b"\xFF"].concat()) => 19,
            read(&[NEEDLESS, b"\0"].concat()) => 31;
    }
}

/// A version 3 slip of a value and a reference time, each 2^61 - 1, or 2^62 - 1 where its first byte says so: 7F and
/// not 3F for the value; for the time, which begins a bit earlier, FF and not 7F.
fn two_times(synthetic: u8, reference: u8) -> Vec<u8> {
    let ones = [0xFF; 6];
    [&[0x0F, 0, synthetic], &ones[..], &[0xFE, reference], &ones, &[0xFC]].concat()
}

/// No bytes at all, and bytes behind a slip.
fn ends_of_slips() -> Lists {
    let (one_more, two_more) = (&[BARE, b"\0"].concat(), &[TRIM, b"\xFF\xFF"].concat());
    lists! {
        "slip 18, no bytes": slip(b"") => 18, single_slip(b"") => 18;
        "slip 20": single_slip(one_more) => 20, single_slip(two_more) => 20, takes(single_slip(TRIM), rate(-23), 4);
        "slip with bytes behind": takes(slip(one_more), word(VERSION_2), 2), takes(slip(two_more), rate(-23), 4),
            takes(slip(TRIM), rate(-23), 4);
    }
}

fn rows_to_their_end() -> Lists {
    let late = newer(set(VERSION_2_END + 1));
    lists! {
        "row of no slips": gives(&[], &[], 0, 0);
        "row of one slip": gives(&[SET], &[set(1500)], 0, 0);
        "row of two slips": gives(&[SET, TRIM], &[set(1500), rate(-23)], 0, 0);
        "row of three slips": gives(&[TRIM, BARE, TRIM], &[rate(-23), word(VERSION_2), rate(-23)], 0, 0);
        "row of both versions": gives(&[LATE, TRIM, LATE], &[late, rate(-23), late], 0, 0);
    }
}

fn rows_that_stop() -> Lists {
    let (set, trim) = (set(1500), rate(-23));
    lists! {
        "row cut short": gives(&[SET, &TRIM[..3]], &[set], 18, 3), gives(&[SET, TRIM, b"\x08"], &[set, trim], 18, 1);
        "row with a refused slip": gives(&[SET, b"\x10\0", TRIM], &[set], 3, 6),
            gives(&[SET, b"\x0B\xC0", TRIM], &[set], 18, 6), gives(&[TRIM, b"\x08\x80\xFA\x20", TRIM], &[trim], 6, 8),
            gives(&[TRIM, b"\x08\x80\x7A\x21", TRIM], &[trim], 19, 8), gives(&[b"\x10\0", TRIM], &[], 3, 6),
            gives(&[TRIM, NEEDLESS, TRIM], &[trim], 31, 14), gives(&[b"\x0C\0", TRIM], &[], 31, 6);
    }
}

fn slips_written() -> Lists {
    let all = Request { error: u64::MAX, ..word(VERSION_2 | SYNTHETIC | REFERENCE | RATE | ERROR) };
    let late = newer(Request { reference: END, ..all });
    let unversioned = Request { word: SYNTHETIC, ..set(-1) };
    lists! {
        "write 3": write(word(0), 30) => 3, write(word(1 << 58), 30) => 3, write(word(4 << 58), 30) => 3,
            write(word(VERSION_2 | 1), 30) => 3, write(word(VERSION_3 | 1), 30) => 3,
            write(word(VERSION_2 | 1 << 53), 30) => 3, write(junk(word(VERSION_2)), 30);
        "write 5": write(set(-1), 30) => 5, write(set(VERSION_2_END + 1), 30) => 5, write(junk(set(0)), 30),
            write(junk(set(VERSION_2_END)), 30), write(at(-1, rate(1)), 30) => 5,
            write(at(VERSION_2_END + 1, rate(1)), 30) => 5, write(junk(at(0, rate(1))), 30),
            write(junk(at(VERSION_2_END, word(VERSION_2))), 30);
        "write 5 of version 3": write(newer(set(-1)), 30) => 5, write(newer(set(END)), 30),
            write(newer(at(i64::MIN, rate(1))), 30) => 5, write(newer(at(END, rate(1))), 30);
        "write 6": write(rate(1001), 30) => 6, write(rate(-1001), 30) => 6, write(junk(rate(1000)), 30),
            write(junk(rate(-1000)), 30);
        "write 21": write(word(VERSION_2), 1) => 21, write(word(VERSION_2), 2), write(set(1500), 0) => 21,
            write(set(1500), 9) => 21, write(set(1500), 10), write(set(1500), 11), write(all, 26) => 21, write(all, 27),
            write(newer(all), 26) => 21, write(newer(all), 27), write(late, 27) => 21, write(late, LONGEST_SLIP),
            write(late, LONGEST_SLIP + 13);
        "write in order": write(unversioned, 30) => 3, write(with(1001, set(-1)), 30) => 5, write(rate(1001), 0) => 6,
            write(set(-1), 0) => 5;
    }
}

/// Which version a slip is written in, whichever the word has, and what it then reads as (02, R-11).
fn versions_of_slips() -> Lists {
    let (last, late) = (VERSION_2_END, VERSION_2_END + 1);
    let four = Request { word: VERSION_3 | (15 * ERROR), synthetic: late + 1, reference: 2, rate: 3, error: 4 };
    let full = b"\x0F\xC0\x40\0\0\0\0\0\0\x02\0\0\0\0\0\0\0\x09\xF5\x80\0\0\0\0\0\0\x02\0";
    let ones = b"\x0A\0\xFF\xFF\xFF\xFF\xFF\xFF\xFF\xF8";
    let late_reference = b"\x0F\0\x3F\xFF\xFF\xFF\xFF\xFF\xFF\xFE\x80\0\0\0\0\0\0\0";
    let late_synthetic = b"\x0F\0\x40\0\0\0\0\0\0\0\x7F\xFF\xFF\xFF\xFF\xFF\xFF\xFC";
    let unflagged = Request { synthetic: END, reference: END, ..newer(rate(-23)) };
    lists! {
        "four arguments that differ, in version 3": writes(four, full), takes(slip(full), four, 28),
            takes(single_slip(full), four, 28);
        "version 3 where it is needed": writes(newer(set(late)), LATE), takes(slip(LATE), newer(set(late)), 10),
            writes(newer(set(END)), b"\x0E\0\xFF\xFF\xFF\xFF\xFF\xFF\xFF\xFE"),
            writes(newer(at(late, set(last))), late_reference),
            takes(slip(late_reference), newer(at(late, set(last))), 18),
            writes(newer(at(last, set(late))), late_synthetic),
            takes(slip(late_synthetic), newer(at(last, set(late))), 18);
        "version 2 where it will do": writes(newer(set(1500)), SET), writes(newer(rate(-23)), TRIM),
            writes(newer(word(VERSION_2)), BARE), writes(unflagged, TRIM), writes(set(last), ones),
            writes(newer(set(last)), ones), takes(slip(ones), set(last), 10);
    }
}

/// The lengths of every set of flags, with times that fit version 2 and with times that don't, and 0 where writing gets
/// 3, 5 or 6.
fn slip_lengths() -> impl Iterator<Item = Step> {
    let told = |request, length| answers(SlipLength(request), Answer::Length(length));
    let in_version_2 = [2, 10, 4, 12, 10, 18, 11, 19, 10, 18, 11, 19, 18, 26, 19, 27];
    let in_version_3 = [2, 10, 4, 12, 10, 18, 12, 20, 10, 18, 12, 20, 18, 26, 20, 28];
    let measured = in_version_2.into_iter().zip(in_version_3).zip(0..).flat_map(move |((shorter, longer), flags)| {
        let fits = word(VERSION_2 | flags << 54);
        let late = Request { synthetic: END, reference: END, ..fits };
        let of_late = if flags < 4 { shorter } else { 0 };
        let known = [told(fits, shorter), told(newer(fits), shorter), told(newer(late), longer), told(late, of_late)];
        known.into_iter().chain([told(word(flags << 54), 0), told(word(fits.word | 1), 0)])
    });
    let refused =
        [set(-1), newer(at(-1, set(1500))), rate(1001), with(-1001, set(END))].map(|request| told(request, 0));
    measured.chain(refused).chain([told(junk(set(1500)), 10)])
}

/// Every creation word; every version of an update word and of a slip's header, and every bit there that must be zero;
/// every length of a slip.
fn each_bit() -> Lists {
    let step = |call: Call, refusal| Step { refusal, ..call.into() };
    let created = (0..=255).map(|word| match word {
        64 | 96 => step(Create(word, 0, 0), 15),
        _ => step(Create(word, 0, 0), if WORDS.contains(&word) { 0 } else { 3 }),
    });
    let versions = (0..64).map(|version| {
        let refusal = if version == 2 || version == 3 { 0 } else { 3 };
        step(Update(word(version << 58 | ERROR), 10), refusal)
    });
    let zero_bits = [VERSION_2, VERSION_3]
        .into_iter()
        .flat_map(|version| (0..54).map(move |bit| step(Update(word(version | ERROR | 1 << bit), 10), 3)));
    let updated = [Create(AUTO_START, 0, 0).into()].into_iter().chain(versions).chain(zero_bits);
    let headers = [slip, single_slip].into_iter().flat_map(|read| {
        let versions = (0..64).map(move |version: u8| {
            let refusal = match version {
                2 => 0,
                3 => 31, // it flags no time
                _ => 3,
            };
            step(read(&[version << 2, 0]), refusal)
        });
        let zero_bits = (0..6).flat_map(move |bit| [8, 12].map(|version| step(read(&[version, 1 << bit]), 3)));
        versions.chain(zero_bits)
    });
    vec![
        ("create 3 and 15", created.collect()),
        ("update 3", updated.collect()),
        ("slip 3", headers.collect()),
        ("slip lengths", slip_lengths().collect()),
    ]
}
