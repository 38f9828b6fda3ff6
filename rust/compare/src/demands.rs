//! The customer's demands 2 and 3, as R-7 of 02 sharpens them, and the count that the generation keeps, held against
//! one clock's answers.

use cementoad_sys::{CONTINUOUS, Clock, MONOTONIC, Request};
use second::{Ideal, ideal_after, ideal_at_creation};

use crate::convert::{exact, wide_request};

/// What is remembered of one clock's history.
pub struct Witness {
    word: u8,
    backstop: i64,
    ideal: Option<Ideal>,
    /// How many updates were accepted.
    accepted: u32,
    /// The time of the latest accepted update or reading, and the latest reading since those times last fell.
    time: i64,
    reading: Option<i64>,
}

impl Witness {
    /// A new clock.
    pub fn created(word: u8, backstop: i64, now: i64) -> Self {
        Witness { word, backstop, ideal: ideal_at_creation(word), accepted: 0, time: now, reading: None }
    }

    /// A reading that is not refused.
    pub fn reads(&mut self, now: i64, reading: i64) -> Result<(), String> {
        if reading < self.backstop {
            return Err(format!("demand 2: the reading {reading} is below the backstop {}", self.backstop));
        }
        self.goes_to(now);
        let before = self.reading.replace(reading).unwrap_or(reading);
        if self.word & MONOTONIC != 0 && reading < before {
            return Err(format!("demand 2: the readings fell from {before} to {reading}"));
        }
        self.ideal.map_or(Ok(()), |ideal| beside(&ideal, reading.into(), now.into()))
    }

    /// Any update: its arguments, for the ideal line, and whether it was accepted.
    pub fn hears(&mut self, request: &Request, now: i64, accepted: bool) {
        self.ideal = ideal_after(self.ideal, &wide_request(request), now, accepted);
        self.accepted += u32::from(accepted);
    }

    /// An update that is not refused, with the clock before and after it. The two lines of a running continuous clock
    /// agree to the millionth, as the ideal ones do.
    pub fn updated(&mut self, now: i64, before: &Clock, after: &Clock) -> Result<(), String> {
        self.goes_to(now);
        let running = self.word & CONTINUOUS != 0 && before.started == 1;
        if running && exact(&before.line, now) != exact(&after.line, now) {
            return Err(format!("demand 2: the lines part at {now}: {before:?}, {after:?}"));
        }
        Ok(())
    }

    /// There is an ideal line exactly when the clock is started, so that demand 3 is never passed over; the clock keeps
    /// it (02, R-7). The generation is 1 and the number of accepted updates together (02, R-2).
    pub fn runs_beside(&self, clock: &Clock) -> Result<(), String> {
        if self.ideal.is_some() != (clock.started == 1) {
            return Err(format!("demand 3: the ideal line is {:?} beside {clock:?}", self.ideal));
        }
        if self.ideal.is_some_and(|ideal| !keeps(clock, &ideal)) {
            return Err(format!("R-7: the ideal line is {:?} beside {clock:?}", self.ideal));
        }
        if clock.generation != 1 + self.accepted {
            return Err(format!("R-2: {} updates were accepted, beside {clock:?}", self.accepted));
        }
        Ok(())
    }

    /// Where the times fall, readings before and after are not to be compared.
    fn goes_to(&mut self, now: i64) {
        if now < self.time {
            self.reading = None;
        }
        self.time = now;
    }
}

/// Demand 3 of a reading: its bound, and the equation that R-7 of 02 makes of it.
fn beside(ideal: &Ideal, reading: i128, now: i128) -> Result<(), String> {
    let value = ideal.value(now);
    if !ideal.bounds(reading, now) {
        return Err(format!("demand 3: the reading {reading} beside {ideal:?}, {value} there"));
    }
    if reading != ideal.reading(now) {
        return Err(format!("R-7: the reading {reading} is not {value} rounded down, beside {ideal:?}"));
    }
    Ok(())
}

/// Whether the clock's line stands where the ideal one does, at its reference and at a time that no clock has: two lines
/// that meet twice are one.
fn keeps(clock: &Clock, ideal: &Ideal) -> bool {
    let times = [clock.line.reference, i64::MIN];
    times.iter().all(|&time| exact(&clock.line, time) == ideal.value(time.into()))
}
