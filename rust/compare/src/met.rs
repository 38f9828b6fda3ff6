//! What the calls met, and how often. What was not met a thousand times was not compared.

use std::collections::BTreeMap;
use std::ops::Range;

use cementoad_sys::*;
use second::{MILLION, called_for, new_line, read_row, slip_length};

use crate::call::Call;
use crate::convert::{behind_times, exact, is_version_3, point, times, value, wide_clock, wide_request};
use crate::is_clock::{PARTS, failing};

/// How often each is to be met.
pub const LEAST: u64 = 1000;

/// The kinds of calls, each with its refusals in the order in which they are tested; 18, which a slip is tested for
/// twice, as the second time. Clocks made up by hand stand last.
const KINDS: [(&str, &[u8]); 11] = [
    ("create", &[1, 3, 15, 16, 17]),
    ("read", &[255, 1, 2, 12]),
    ("details", &[255, 1, 2]),
    ("update", &[255, 1, 2, 3, 4, 5, 6, 7, 8, 9, 10, 11, 22, 12, 13, 14]),
    ("started", &[]),
    ("read slip", &[3, 18, 6, 19, 31]),
    ("read single slip", &[3, 18, 6, 19, 31, 20]),
    ("read row", &[3, 18, 6, 19, 31]),
    ("write slip", &[3, 5, 6, 21]),
    ("slip length", &[]),
    ("made up", &[]),
];
const MADE_UP: usize = 10;

/// Values from here on begin again at 0 where a sum is kept in a u64.
const WRAPPED: i128 = 1 << 64;

/// What was met: by kind and refusal; by kind, rule and what the rule compares, one below, equal and one above; and by
/// kind and what else there is.
pub struct Met {
    refusals: [[u64; 256]; KINDS.len()],
    comparisons: BTreeMap<(usize, u8, &'static str), [u64; 3]>,
    rows: BTreeMap<(usize, &'static str), u64>,
    /// Of the call that is looked at.
    kind: usize,
    refusal: u8,
}

impl Met {
    pub fn new() -> Self {
        let (comparisons, rows) = (BTreeMap::new(), BTreeMap::new());
        Met { refusals: [[0; 256]; KINDS.len()], comparisons, rows, kind: 0, refusal: NO_REFUSAL }
    }

    /// All calls.
    pub fn calls(&self) -> u64 {
        self.refusals[..MADE_UP].iter().flatten().sum()
    }

    /// Everything that is to be met, with how often it was.
    pub fn all(&self) -> impl Iterator<Item = (String, u64)> {
        let refusals = KINDS.iter().zip(&self.refusals).flat_map(|(&(name, refusals), counts)| {
            let count = move |refusal: &u8| (format!("{name} {refusal}"), counts[usize::from(*refusal)]);
            [0].iter().chain(refusals).map(count)
        });
        let comparisons = self.comparisons.iter().flat_map(|(&(kind, rule, what), counts)| {
            let sides = ["one below", "equal", "one above"].into_iter().zip(counts);
            sides.map(move |(side, &count)| (format!("{} {rule}, {what}, {side}", KINDS[kind].0), count))
        });
        let rows = self.rows.iter().map(|(&(kind, what), &count)| (format!("{}, {what}", KINDS[kind].0), count));
        refusals.chain(comparisons).chain(rows)
    }

    /// A call on this clock that both sides answered alike.
    pub fn count(&mut self, call: &Call, clock: &Clock, refusal: u8) {
        self.refusal = refusal;
        self.kind = match call {
            Call::Create(..) => 0,
            Call::Read(_) => 1,
            Call::Details(_) => 2,
            Call::Update(..) => 3,
            Call::Started => 4,
            Call::ReadSlip(_) => 5,
            Call::ReadSingleSlip(_) => 6,
            Call::ReadRow(_) => 7,
            Call::WriteSlip(..) => 8,
            Call::SlipLength(_) => 9,
            Call::Take(_) => MADE_UP,
        };
        self.refusals[self.kind][usize::from(refusal)] += 1;
        match *call {
            _ if refusal == NOT_A_CLOCK => {}
            Call::Create(word, backstop, now) => self.creation(word, backstop, now),
            Call::Read(now) => self.reading(clock, now),
            Call::Details(now) => self.details(clock, now),
            Call::Update(request, now) => {
                self.now(clock, now);
                self.arguments(&request);
                self.step(clock, &request);
                self.line(clock, &request, now);
                self.remainder(clock, &request, now);
            }
            Call::WriteSlip(request, ref buffer) => self.writing(&request, buffer.len() as i64),
            Call::ReadSlip(ref bytes) | Call::ReadSingleSlip(ref bytes) => self.slip(bytes),
            Call::ReadRow(ref bytes) => self.slips(read_row(bytes).1.len()),
            Call::Take(clock) => self.made_up(&clock),
            Call::SlipLength(request) => self.length(&request),
            Call::Started => {}
        }
    }

    /// Whether no check before this one applied.
    fn reaches(&self, rule: u8) -> bool {
        let place = |number| KINDS[self.kind].1.iter().position(|&refusal| refusal == number);
        self.refusal == NO_REFUSAL || place(rule) <= place(self.refusal)
    }

    fn compare(&mut self, rule: u8, what: &'static str, left: impl Into<i128>, right: impl Into<i128>) {
        if self.reaches(rule) {
            let counts = self.comparisons.entry((self.kind, rule, what)).or_default();
            let apart = left.into() - right.into();
            if apart.abs() <= 1 {
                counts[(apart + 1) as usize] += 1;
            }
        }
    }

    /// A time or value that is handed in, at both ends of the range. An i64 holds none above END.
    fn range(&mut self, rule: u8, what: [&'static str; 2], time: i64) {
        self.compare(rule, what[0], time, 0);
        self.row(what[1], time == END && self.reaches(rule));
    }

    fn row(&mut self, what: &'static str, is_met: bool) {
        *self.rows.entry((self.kind, what)).or_default() += u64::from(is_met);
    }

    fn creation(&mut self, word: u8, backstop: i64, now: i64) {
        self.range(1, ["now and 0", "now at END"], now);
        self.range(16, ["backstop and 0", "backstop at END"], backstop);
        if word & AUTO_START != 0 {
            self.compare(17, "backstop and now", backstop, now);
        }
    }

    fn now(&mut self, clock: &Clock, now: i64) {
        self.range(1, ["now and 0", "now at END"], now);
        self.compare(2, "now and latest", now, clock.latest);
    }

    fn reading(&mut self, clock: &Clock, now: i64) {
        self.now(clock, now);
        if clock.started == 1 && self.reaches(12) {
            let line = &clock.line;
            let (shown, early) = (value(line, now), now < line.reference);
            self.compare(12, "value and END", shown, END);
            self.row("a value past a u64", shown >= WRAPPED);
            self.row("before the reference", early);
            self.row("before the reference of a line with a remainder", early && line.remainder != 0);
            self.row("one more by the remainder", shown > value(&Line { remainder: 0, ..*line }, now));
            self.row("END and millionths", shown == END.into() && exact(line, now) > shown * MILLION);
        }
    }

    fn details(&mut self, clock: &Clock, now: i64) {
        self.now(clock, now);
        self.row("of a line with a remainder", self.refusal == NO_REFUSAL && clock.line.remainder != 0);
    }

    fn arguments(&mut self, request: &Request) {
        let newer = is_version_3(request.word);
        if request.word & SYNTHETIC != 0 {
            self.range(5, ["synthetic and 0", "synthetic at END"], request.synthetic);
            let what = ["synthetic and the end of version 2", "synthetic of version 3 and that end"];
            self.compare(5, what[usize::from(newer)], request.synthetic, VERSION_2_END);
        }
        if request.word & REFERENCE != 0 {
            self.range(5, ["reference and 0", "reference at END"], request.reference);
            let what = ["reference and the end of version 2", "reference of version 3 and that end"];
            self.compare(5, what[usize::from(newer)], request.reference, VERSION_2_END);
        }
        if request.word & RATE != 0 {
            self.compare(6, "rate and the least", request.rate, -MAX_RATE);
            self.compare(6, "rate and the widest", request.rate, MAX_RATE);
        }
    }

    /// Rule 22, and what is free of it.
    fn step(&mut self, clock: &Clock, request: &Request) {
        let step = i64::from(request.rate) - i64::from(clock.line.rate);
        let (running, rated) = (clock.started == 1, request.word & RATE != 0);
        let wide = self.refusal == NO_REFUSAL && step.abs() > MAX_RATE_STEP.into();
        if running && rated {
            self.compare(22, "step and the widest down", step, -MAX_RATE_STEP);
            self.compare(22, "step and the widest up", step, MAX_RATE_STEP);
        }
        self.row("a start beyond a step", wide && rated && !running);
        self.row("beyond a step, not flagged", wide && !rated && running);
    }

    /// Rules 12 to 14, and the rows of the effect table.
    fn line(&mut self, clock: &Clock, request: &Request, now: i64) {
        if !self.reaches(12) {
            return;
        }
        let taken = self.refusal == NO_REFUSAL;
        let new = new_line(&wide_clock(clock), &wide_request(request), now.into());
        if let Some(line) = new {
            let new_value = second::value(&line, now.into());
            self.compare(12, "S0 and 0", line.synthetic, 0);
            self.compare(12, "S0 and END", line.synthetic, END);
            self.compare(12, "value and END", new_value, END);
            self.row("S0 past a u64", line.synthetic >= WRAPPED);
            self.row("S0 below an i64", line.synthetic < i64::MIN.into());
            self.row("a value past a u64", new_value >= WRAPPED);
            self.row("a value below an i64", self.reaches(13) && new_value < i64::MIN.into());
            self.compare(13, "value and backstop", new_value, clock.backstop);
            if clock.word & MONOTONIC != 0 && clock.started == 1 {
                let old_value = value(&clock.line, now);
                let less = second::exact(&line, now.into()) < exact(&clock.line, now);
                self.compare(14, "new and old value", new_value, old_value);
                self.row("an old value past a u64", self.reaches(14) && old_value >= WRAPPED);
                self.row("an equal value, less in millionths", taken && less && new_value == old_value);
            }
            self.row("before the new reference", i128::from(now) < line.reference);
        }
        let flags = request.word & (SYNTHETIC | REFERENCE | RATE);
        self.row("synthetic", taken && flags == SYNTHETIC);
        self.row("synthetic at a reference", taken && flags == SYNTHETIC | REFERENCE);
        self.row("rate only", taken && flags == RATE);
        self.row("rate only at a reference", taken && flags == RATE | REFERENCE);
        self.row("synthetic and rate", taken && flags == SYNTHETIC | RATE);
        self.row("synthetic and rate at a reference", taken && flags == SYNTHETIC | RATE | REFERENCE);
        self.row("neither", taken && flags == 0);
        self.row("a start", taken && clock.started == 0);
        let last = taken && clock.generation == u32::MAX;
        self.row("a generation of 0", last && new.is_some());
        self.row("a generation of 0, by the error bound alone", last && new.is_none());
    }

    /// What becomes of a line with a remainder where an update is taken (02, R-7).
    fn remainder(&mut self, clock: &Clock, request: &Request, now: i64) {
        let (old, flags) = (&clock.line, request.word & (SYNTHETIC | RATE));
        let point = point(request, now);
        let taken = self.refusal == NO_REFUSAL && old.remainder != 0;
        let turned = taken && flags == RATE;
        let more = value(old, point) > value(&Line { remainder: 0, ..*old }, point);
        self.row("rate only, of a line with a remainder", turned);
        self.row("rate only, of a line with a remainder, before its reference", turned && point < old.reference);
        self.row("rate only, one more by the remainder", turned && more);
        self.row("a remainder cleared by a value", taken && flags & SYNTHETIC != 0);
        self.row("a remainder kept by the error bound", taken && flags == 0);
    }

    /// A slip to be written: the buffer's size beside its length.
    fn writing(&mut self, request: &Request, size: i64) {
        self.arguments(request);
        let length = slip_length(&wide_request(request));
        self.compare(21, "size and length", size, length as i64);
        if length == LONGEST_SLIP {
            self.compare(21, "size and the longest length", size, length as i64);
        }
        self.version(request, self.refusal == NO_REFUSAL);
    }

    fn length(&mut self, request: &Request) {
        let is_written = slip_length(&wide_request(request)) != 0;
        self.row("of a request that is not written", !is_written);
        self.version(request, is_written);
    }

    /// Which version the request's slip has, if it is written.
    fn version(&mut self, request: &Request, is_written: bool) {
        let past = [(SYNTHETIC, request.synthetic), (REFERENCE, request.reference)]
            .map(|(flag, time)| (request.word & flag != 0).then_some(time > VERSION_2_END));
        let (newer, needed) = (is_written && is_version_3(request.word), past.contains(&Some(true)));
        self.row("of version 3, as version 3", newer && needed);
        self.row("of version 3, as version 2", newer && !needed);
        self.row("one of two times past the end of version 2", newer && needed && past.contains(&Some(false)));
    }

    /// A slip with a header of a known version: its bytes beside its length, its rate field beside the widest, and of
    /// version 3 the later of its times beside the end of version 2.
    fn slip(&mut self, bytes: &[u8]) {
        let number = |at: Range<usize>| at.fold(0, |n, at| n << 1 | i64::from(bytes[at / 8] >> (7 - at % 8) & 1));
        if bytes.len() < 2 || self.refusal == 3 {
            return;
        }
        let word = (number(0..16) as u64) << 48;
        self.compare(18, "bytes and length", bytes.len() as i64, called_for(word) as i64);
        if self.refusal == 18 {
            return;
        }
        let behind = |count| behind_times(word, count);
        if word & RATE != 0 {
            let start = behind(times(word));
            self.compare(6, "rate field and 2000", number(start..start + 11), 2000);
        }
        if is_version_3(word) {
            let times: Vec<i64> = (0..times(word)).map(|nth| number(behind(nth)..behind(nth + 1))).collect();
            self.needless(&times);
        }
    }

    /// Refusal 31 of a version 3 slip with these times.
    fn needless(&mut self, times: &[i64]) {
        self.row("no time in version 3", times.is_empty() && self.reaches(31));
        if let (Some(&least), Some(&latest)) = (times.iter().min(), times.iter().max()) {
            self.compare(31, "the later time and the end of version 2", latest, VERSION_2_END);
            let mixed = least <= VERSION_2_END && latest > VERSION_2_END;
            self.row("one of two times past the end of version 2", mixed && self.reaches(31));
        }
    }

    /// A row of so many accepted slips.
    fn slips(&mut self, count: usize) {
        let taken = self.refusal == NO_REFUSAL;
        self.row("of no slips", taken && count == 0);
        self.row("of one slip", taken && count == 1);
        self.row("of several slips", taken && count > 1);
        self.row("stopped at its first slip", !taken && count == 0);
        self.row("stopped behind a slip", !taken && count > 0);
    }

    /// The edges of the boundary's test. A part of it is met where nothing else fails.
    fn made_up(&mut self, clock: &Clock) {
        let failing = failing(clock);
        self.row("a clock", failing.is_empty());
        for (part, (name, _)) in PARTS.iter().enumerate() {
            self.row(name, failing == [part]);
        }
        self.range(0, ["latest and 0", "latest at END"], clock.latest);
        self.range(0, ["backstop and 0", "backstop at END"], clock.backstop);
        if clock.started == 1 {
            self.range(0, ["reference and 0", "reference at END"], clock.line.reference);
            self.range(0, ["synthetic and 0", "synthetic at END"], clock.line.synthetic);
            self.compare(0, "remainder and 999,999", clock.line.remainder, 999_999);
            self.compare(0, "rate and the least", clock.line.rate, -MAX_RATE);
            self.compare(0, "rate and the widest", clock.line.rate, MAX_RATE);
            self.compare(0, "value and backstop", value(&clock.line, clock.latest), clock.backstop);
        }
    }
}
