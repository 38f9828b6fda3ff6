//! Numbers and words, the line, creation, reading, details and update.

/// The last permitted time and value (02, R-11).
pub const END: i128 = (1 << 63) - 1;
/// The last one that a version 2 word and slip may carry: the end before R-11 of 02.
pub const VERSION_2_END: i128 = (1 << 61) - 1;
/// The widest rate adjustment either way, in parts per million.
pub const MAX_RATE: i128 = 1000;
/// The widest step of a running clock's rate either way (02, R-9).
const MAX_RATE_STEP: i128 = 200;
/// Parts in a whole, and millionths in a nanosecond.
pub const MILLION: i128 = 1_000_000;

// The bits of the creation word (01, Creation).
pub const MONOTONIC: u8 = 128;
pub const CONTINUOUS: u8 = 64;
pub const AUTO_START: u8 = 32;

// The update word, from its top: six bits of version, 2 or 3 (02, R-11), four flags, 54 bits that must be zero.
pub const VERSION_2: u64 = 2 << 58;
pub const VERSION_3: u64 = 3 << 58;
pub const VERSION: u64 = 63 << 58;
pub const SYNTHETIC: u64 = 1 << 57;
pub const REFERENCE: u64 = 1 << 56;
pub const RATE: u64 = 1 << 55;
pub const ERROR: u64 = 1 << 54;
const ZERO_BITS: u64 = (1 << 54) - 1;

/// The paper's (R0, S0, a), with the remainder in millionths that R-7 of 02 puts beside S0. The default, all zeros, is
/// the identity line.
#[derive(Clone, Copy, Debug, Default, PartialEq, Eq)]
pub struct Line {
    pub reference: i128,
    pub synthetic: i128,
    pub remainder: i128,
    pub rate: i128,
}

/// A clock as creation gave it and accepted updates carried it on.
#[derive(Clone, Copy, Debug, PartialEq, Eq)]
pub struct Clock {
    pub word: u8,
    pub backstop: i128,
    /// When the latest accepted update was made; the time of creation before any.
    pub latest: i128,
    /// None before the start.
    pub line: Option<Line>,
    pub error: i128,
    pub generation: i128,
}

/// What a clock tells of itself at a time.
#[derive(Clone, Copy, Debug, Default, PartialEq, Eq)]
pub struct Details {
    pub started: bool,
    pub line: Line,
    pub error: i128,
    pub generation: i128,
    pub latest: i128,
    pub word: u8,
    pub backstop: i128,
    pub now: i128,
}

/// An update's word and arguments, as handed in.
#[derive(Clone, Copy, Debug, Default, PartialEq, Eq)]
pub struct Request {
    pub word: u64,
    pub synthetic: i64,
    pub reference: i64,
    pub rate: i32,
    pub error: u64,
}

impl Request {
    /// Whether the word has this flag.
    pub(crate) fn has(&self, flag: u64) -> bool {
        self.word & flag != 0
    }

    /// P: the flagged reference time, else now (01, The update word).
    pub(crate) fn point(&self, now: i128) -> i128 {
        if self.has(REFERENCE) { i128::from(self.reference) } else { now }
    }
}

/// The line through a whole value at the reference time, with this rate.
fn set(reference: i128, synthetic: i128, rate: i128) -> Line {
    Line { reference, synthetic, remainder: 0, rate }
}

/// The line through a value in millionths at the reference time, with this rate (02, R-7).
fn through(reference: i128, exact: i128, rate: i128) -> Line {
    Line { reference, synthetic: exact.div_euclid(MILLION), remainder: exact.rem_euclid(MILLION), rate }
}

/// The line's value at t in millionths, never rounded.
pub fn exact(line: &Line, t: i128) -> i128 {
    line.synthetic * MILLION + line.remainder + (t - line.reference) * (MILLION + line.rate)
}

/// The line's value at t, rounded down also before the line's reference time, in the range or out of it.
pub fn value(line: &Line, t: i128) -> i128 {
    exact(line, t).div_euclid(MILLION)
}

/// Whether a time or value lies outside 0..end, both ends permitted.
fn beyond(time: i128, end: i128) -> bool {
    !(0..=end).contains(&time)
}

/// Whether a time or value lies outside 0..END.
fn outside(time: i128) -> bool {
    beyond(time, END)
}

/// The number of the first row that applies; 0 for none.
pub(crate) fn first(table: &[(u8, bool)]) -> u8 {
    table.iter().find(|row| row.1).map_or(0, |row| row.0)
}

/// Creates a clock (01, Creation, and the sentence on it below the table of refusals).
pub fn create(word: u8, backstop: i64, now: i64) -> (u8, Option<Clock>) {
    let (backstop, now) = (i128::from(backstop), i128::from(now));
    let monotonic = word & MONOTONIC != 0;
    let continuous = word & CONTINUOUS != 0;
    let auto_start = word & AUTO_START != 0;
    let refusal = first(&[
        (1, outside(now)),
        (3, word & !(MONOTONIC | CONTINUOUS | AUTO_START) != 0),
        (15, continuous && !monotonic),
        (16, outside(backstop)),
        (17, auto_start && backstop > now),
    ]);
    if refusal != 0 {
        return (refusal, None);
    }
    let clock = Clock {
        word,
        backstop,
        latest: now,
        line: auto_start.then_some(set(0, 0, 0)),
        error: i128::from(u64::MAX), // unknown
        generation: 1,
    };
    (0, Some(clock))
}

/// Reads the clock (01, Reading): the backstop before the start, then the line's value. Refused, it gives 0.
pub fn read(clock: &Clock, now: i64) -> (u8, i128) {
    let now = i128::from(now);
    let reading = clock.line.map_or(clock.backstop, |line| value(&line, now));
    let refusal = first(&[(1, outside(now)), (2, now < clock.latest), (12, reading > END)]);
    (refusal, if refusal == 0 { reading } else { 0 })
}

/// The clock's details (01, Details). Refused, it gives zeros.
pub fn details(clock: &Clock, now: i64) -> (u8, Details) {
    let now = i128::from(now);
    let refusal = first(&[(1, outside(now)), (2, now < clock.latest)]);
    if refusal != 0 {
        return (refusal, Details::default());
    }
    let details = Details {
        started: clock.line.is_some(),
        line: clock.line.unwrap_or_default(),
        error: clock.error,
        generation: clock.generation,
        latest: clock.latest,
        word: clock.word,
        backstop: clock.backstop,
        now,
    };
    (0, details)
}

/// The table of new lines (01, The update word and its effect); none where the line stays. A rate alone gives none
/// before the start, where there is no line to bend (rule 8 refuses it).
pub fn new_line(clock: &Clock, request: &Request, now: i128) -> Option<Line> {
    let p = request.point(now);
    let s = i128::from(request.synthetic);
    let new_a = i128::from(request.rate);
    let old_a = clock.line.unwrap_or_default().rate;
    match (request.has(SYNTHETIC), request.has(RATE)) {
        (true, false) => Some(set(p, s, old_a)),
        (false, true) => clock.line.map(|old| through(p, exact(&old, p), new_a)),
        (true, true) => Some(set(p, s, new_a)),
        (false, false) => None,
    }
}

/// Rule 3: a version that is not known, or a bit set that must be zero.
pub(crate) fn bad_word(word: u64) -> bool {
    let known = [VERSION_2, VERSION_3].contains(&(word & VERSION));
    !known || word & ZERO_BITS != 0
}

/// Whether a flagged synthetic value or reference time lies outside 0..end.
pub(crate) fn flags_outside(request: &Request, end: i128) -> bool {
    let bad_synthetic = request.has(SYNTHETIC) && beyond(i128::from(request.synthetic), end);
    let bad_reference = request.has(REFERENCE) && beyond(i128::from(request.reference), end);
    bad_synthetic || bad_reference
}

/// Rule 5: a flagged synthetic value or reference time outside the range, which ends sooner for a version 2 word.
pub(crate) fn bad_time(request: &Request) -> bool {
    let end = if request.word & VERSION == VERSION_2 { VERSION_2_END } else { END };
    flags_outside(request, end)
}

/// Rule 6: a flagged rate that is too slow or too fast.
pub(crate) fn bad_rate(request: &Request) -> bool {
    let rate = i128::from(request.rate);
    let slow = rate < -MAX_RATE;
    let fast = rate > MAX_RATE;
    request.has(RATE) && (slow || fast)
}

/// The table of refusals of an update (01, When the clock says no), with R-9's behind 11 (02). Where there is no line,
/// zeros stand in for it.
fn update_refusal(clock: &Clock, request: &Request, now: i128) -> u8 {
    let monotonic = clock.word & MONOTONIC != 0;
    let continuous = clock.word & CONTINUOUS != 0;
    let started = clock.line.is_some();
    let synthetic = request.has(SYNTHETIC);
    let reference = request.has(REFERENCE);
    let rate = request.has(RATE);
    let error = request.has(ERROR);
    let old = clock.line.unwrap_or_default();
    let step = i128::from(request.rate) - old.rate;
    let replaced = new_line(clock, request, now).is_some();
    let new = new_line(clock, request, now).unwrap_or_default();
    let new_value = value(&new, now);
    first(&[
        (1, outside(now)),
        (2, now < clock.latest),
        (3, bad_word(request.word)),
        (4, !synthetic && !reference && !rate && !error),
        (5, bad_time(request)),
        (6, bad_rate(request)),
        (7, reference && !synthetic && !rate),
        (8, !started && !synthetic),
        (9, continuous && reference),
        (10, continuous && started && synthetic),
        (11, monotonic && started && synthetic && rate),
        (22, started && rate && step.abs() > MAX_RATE_STEP),
        (12, replaced && (outside(new.synthetic) || new_value > END)),
        (13, replaced && new_value < clock.backstop),
        (14, replaced && monotonic && started && new_value < value(&old, now)),
    ])
}

/// Updates the clock: the new one, or the old one beside the refusal. Each that is accepted raises the generation by
/// one (02, R-2).
pub fn update(clock: &Clock, request: &Request, now: i64) -> (u8, Clock) {
    let now = i128::from(now);
    let refusal = update_refusal(clock, request, now);
    if refusal != 0 {
        return (refusal, *clock);
    }
    let mut after = *clock;
    if let Some(line) = new_line(clock, request, now) {
        after.line = Some(line);
    }
    if request.has(ERROR) {
        after.error = i128::from(request.error);
    }
    after.generation = (clock.generation + 1) % (1 << 32);
    after.latest = now;
    (0, after)
}
