//! The rival: the clock of the scope paper ('01', `01-scope.md`), as the requests ('02') that landed amend it, in plain
//! Rust, as one writes it without proofs.
//!
//! Numbers are 128 bits wide, so that no sum or product of what is handed in can overflow. A line keeps its remainder and
//! its rate as narrow as they are handed over: with wider ones a clock has 144 bytes in place of 128, which the compiler
//! copies by a call, and a refused update takes 3 ns more. The rules stand in the papers' order, refusals by their
//! numbers; a refusal of 0 is none. Clocks are trusted: each is one that creation and updates gave.

mod slip;

use cementoad_sys::{AUTO_START, CONTINUOUS, ERROR, MONOTONIC, RATE, REFERENCE, Request, SYNTHETIC, VERSION_2};
pub use slip::{read_single_slip, read_slip, slip_length, write_slip};

/// The end of the range of times and values (02, R-11).
const END: i128 = (1 << 63) - 1;
/// The end for a request and a slip of version 2.
const VERSION_2_END: i128 = (1 << 61) - 1;
/// The widest rate adjustment, in parts per million.
const MAX_RATE: i32 = 1000;
/// The widest step of the rate of a clock that runs (02, R-9).
const MAX_RATE_STEP: i64 = 200;
/// Parts in a whole, for rates; millionths in a nanosecond, for values.
const MILLION: i128 = 1_000_000;
/// The error bound that means unknown, all ones.
const UNKNOWN_ERROR: i128 = (1 << 64) - 1;
/// How many generations there are before they begin again at 0.
const GENERATIONS: i128 = 1 << 32;

/// A line (R0, S0, a), with the remainder in millionths that stands beside S0 (02, R-7).
#[derive(Clone, Copy, Debug, Default, PartialEq)]
pub struct Line {
    pub reference: i128,
    pub synthetic: i128,
    pub remainder: u32,
    pub rate: i32,
}

impl Line {
    /// What the line at t stands above S0, in millionths. S0 is left out to keep near quotients short.
    fn above(&self, t: i128) -> i128 {
        i128::from(self.remainder) + (t - self.reference) * (MILLION + i128::from(self.rate))
    }

    /// The value at t, rounded down also before the reference (01, 'The clock we sell').
    fn value(&self, t: i128) -> i128 {
        self.synthetic + self.above(t).div_euclid(MILLION)
    }

    /// The line of this rate that at the point stands where the old one does.
    fn turned(&self, point: i128, rate: i32) -> Line {
        let remainder = self.above(point).rem_euclid(MILLION) as u32;
        Line { reference: point, synthetic: self.value(point), remainder, rate }
    }
}

/// A clock. Its line is zeros before the start.
#[derive(Clone, Copy, Debug, Default, PartialEq)]
pub struct Clock {
    pub word: u8,
    pub backstop: i128,
    pub started: bool,
    pub line: Line,
    pub error: i128,
    pub generation: i128,
    /// The time of the latest accepted update, or of creation before any.
    pub latest: i128,
}

impl Clock {
    fn is(&self, bit: u8) -> bool {
        self.word & bit != 0
    }
}

/// What a clock tells of itself at now: all that it holds.
#[derive(Clone, Copy, Debug, Default, PartialEq)]
pub struct Details {
    pub clock: Clock,
    pub now: i128,
}

/// The arguments that a request flags; the others are ignored (01, 'The update word and its effect').
struct Asked {
    synthetic: Option<i128>,
    reference: Option<i128>,
    rate: Option<i32>,
    error: Option<i128>,
}

impl Asked {
    fn of(request: &Request) -> Asked {
        let flags = |flag| request.word & flag != 0;
        Asked {
            synthetic: flags(SYNTHETIC).then_some(request.synthetic.into()),
            reference: flags(REFERENCE).then_some(request.reference.into()),
            rate: flags(RATE).then_some(request.rate),
            error: flags(ERROR).then_some(request.error.into()),
        }
    }

    /// Whether a value or a time is flagged that is outside 0..end.
    fn is_outside(&self, end: i128) -> bool {
        let outside = |time| beyond(time, end);
        self.synthetic.is_some_and(outside) || self.reference.is_some_and(outside)
    }

    /// Refusal 5 of what this word flags: version 2 keeps its own end (02, R-11).
    fn value_outside(&self, word: u64) -> bool {
        self.is_outside(if is_version_2(word) { VERSION_2_END } else { END })
    }

    /// Refusal 6.
    fn rate_outside(&self) -> bool {
        self.rate.is_some_and(|rate| rate < -MAX_RATE || rate > MAX_RATE)
    }

    /// Refusal 22 of a clock that runs at this rate.
    fn wide_step(&self, from: i32) -> bool {
        self.rate.is_some_and(|rate| (i64::from(rate) - i64::from(from)).abs() > MAX_RATE_STEP)
    }
}

fn beyond(time: i128, end: i128) -> bool {
    time < 0 || time > end
}

fn outside(time: i128) -> bool {
    beyond(time, END)
}

/// Whether an update word that is not wrong has version 2, and not 3.
fn is_version_2(word: u64) -> bool {
    word >> 58 == VERSION_2 >> 58
}

/// Refusal 3 of an update word: its top six bits are neither 2 nor 3, or one of its 54 lowest bits is set.
fn wrong_word(word: u64) -> bool {
    word >> 59 != VERSION_2 >> 59 || word & (ERROR - 1) != 0
}

/// A check: where it applies, its number is the answer.
fn refuse(number: u8, applies: bool) -> Result<(), u8> {
    if applies { Err(number) } else { Ok(()) }
}

/// The refusal beside the value that is answered with it.
fn answer<T>(result: Result<T, u8>, refused: T) -> (u8, T) {
    match result {
        Ok(value) => (0, value),
        Err(refusal) => (refusal, refused),
    }
}

/// A new clock, or zeros.
pub fn create(word: u8, backstop: i64, now: i64) -> (u8, Clock) {
    answer(created(word, backstop.into(), now.into()), Clock::default())
}

/// Creation's refusals stand below the table of 01, 'When the clock says no'.
fn created(word: u8, backstop: i128, now: i128) -> Result<Clock, u8> {
    let started = word & AUTO_START != 0;
    refuse(1, outside(now))?;
    refuse(3, word & !(MONOTONIC | CONTINUOUS | AUTO_START) != 0)?;
    refuse(15, word & CONTINUOUS != 0 && word & MONOTONIC == 0)?;
    refuse(16, outside(backstop))?;
    refuse(17, started && backstop > now)?;
    Ok(Clock { word, backstop, started, line: Line::default(), error: UNKNOWN_ERROR, generation: 1, latest: now })
}

/// The clock's value at now, or 0.
pub fn read(clock: &Clock, now: i64) -> (u8, i128) {
    answer(value_read(clock, now.into()), 0)
}

fn value_read(clock: &Clock, now: i128) -> Result<i128, u8> {
    refuse(1, outside(now))?;
    refuse(2, now < clock.latest)?;
    let value = if clock.started { clock.line.value(now) } else { clock.backstop };
    refuse(12, value > END)?;
    Ok(value)
}

/// What the clock tells of itself at now, or zeros.
pub fn details(clock: &Clock, now: i64) -> (u8, Details) {
    answer(details_told(clock, now.into()), Details::default())
}

fn details_told(clock: &Clock, now: i128) -> Result<Details, u8> {
    refuse(1, outside(now))?;
    refuse(2, now < clock.latest)?;
    let line = if clock.started { clock.line } else { Line::default() };
    Ok(Details { clock: Clock { line, ..*clock }, now })
}

/// Whether the clock is started.
pub fn started(clock: &Clock) -> bool {
    clock.started
}

/// The clock as the request leaves it, or as it was.
pub fn update(clock: &Clock, request: &Request, now: i64) -> (u8, Clock) {
    answer(updated(clock, request.word, &Asked::of(request), now.into()), *clock)
}

/// The table of 01, 'When the clock says no', with R-9's row of 02, and then the effect. 12 to 14 speak of a line that
/// is replaced.
fn updated(clock: &Clock, word: u64, asked: &Asked, now: i128) -> Result<Clock, u8> {
    let sets = asked.synthetic.is_some();
    let refers = asked.reference.is_some();
    let rates = asked.rate.is_some();
    refuse(1, outside(now))?;
    refuse(2, now < clock.latest)?;
    refuse(3, wrong_word(word))?;
    refuse(4, !sets && !refers && !rates && asked.error.is_none())?;
    refuse(5, asked.value_outside(word))?;
    refuse(6, asked.rate_outside())?;
    refuse(7, refers && !sets && !rates)?;
    refuse(8, !clock.started && !sets)?;
    refuse(9, clock.is(CONTINUOUS) && refers)?;
    refuse(10, clock.is(CONTINUOUS) && clock.started && sets)?;
    refuse(11, clock.is(MONOTONIC) && clock.started && sets && rates)?;
    refuse(22, clock.started && asked.wide_step(clock.line.rate))?;
    let new = new_line(clock, asked, now);
    if let Some(line) = &new {
        let value = line.value(now);
        refuse(12, outside(line.synthetic) || value > END)?;
        refuse(13, value < clock.backstop)?;
        let falls = || value < clock.line.value(now);
        refuse(14, clock.is(MONOTONIC) && clock.started && falls())?;
    }
    Ok(effect(clock, asked, now, new))
}

/// The table of 01, 'The update word and its effect'; none where the line stays. The point is the paper's P, where a
/// rate alone keeps the old line's value to the millionth (02, R-7); the old rate is 0 before the start.
fn new_line(clock: &Clock, asked: &Asked, now: i128) -> Option<Line> {
    let point = asked.reference.unwrap_or(now);
    let old_rate = if clock.started { clock.line.rate } else { 0 };
    match (asked.synthetic, asked.rate) {
        (Some(synthetic), rate) => {
            Some(Line { reference: point, synthetic, remainder: 0, rate: rate.unwrap_or(old_rate) })
        }
        (None, Some(rate)) => Some(clock.line.turned(point, rate)),
        (None, None) => None,
    }
}

/// What 01 tells below that table, with every accepted update counted (02, R-2).
fn effect(clock: &Clock, asked: &Asked, now: i128, new: Option<Line>) -> Clock {
    Clock {
        word: clock.word,
        backstop: clock.backstop,
        started: clock.started || asked.synthetic.is_some(),
        line: new.unwrap_or(clock.line),
        error: asked.error.unwrap_or(clock.error),
        generation: (clock.generation + 1) % GENERATIONS,
        latest: now,
    }
}
