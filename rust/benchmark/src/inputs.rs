//! What the calls are made with: many different inputs of one sort, always the same ones.

use cementoad_sys::{
    AUTO_START, CONTINUOUS, END, ERROR, LONGEST_SLIP, MAX_RATE, MAX_RATE_STEP, MONOTONIC, RATE, REFERENCE, SYNTHETIC,
    VERSION_2, VERSION_2_END, VERSION_3,
};
use cementoad_sys::{Clock, Request, cementoad_create, cementoad_read, cementoad_slip_length, cementoad_update};

use self::Distance::{Far, Near};
use crate::rival;

/// How many inputs a row has: too many for the processor to learn in which order the refusals come, as it does with
/// 1024, and few enough to stay in its second cache.
pub const COUNT: usize = 8192;

/// All four arguments flagged.
pub const FULL: u64 = SYNTHETIC | REFERENCE | RATE | ERROR;
const PLAIN: u8 = 0;
/// The creation words without auto start.
const KINDS: [u8; 3] = [PLAIN, MONOTONIC, MONOTONIC | CONTINUOUS];
/// Bits of which each makes a good update word of version 2 a wrong one.
const WRONG_BITS: [u32; 5] = [59, 60, 0, 30, 53];
const WRONG_RATES: [i32; 4] = [1001, -1001, i32::MIN, i32::MAX];

/// How far now lies from a clock's reference.
#[derive(Clone, Copy)]
pub enum Distance {
    /// 1 ns to 10 ms, each length of the number as often as any.
    Near,
    /// Above 2^60 ns, with now near the end of version 2.
    Far,
}

/// A clock and a time.
pub type Asking = (Clock, i64);
/// A clock, a request and a time.
pub type Updating = (Clock, Request, i64);
/// A request, and the size of the buffer that it is to be written to.
pub type Writing = (Request, usize);

/// The bytes of a slip, or of what a damaged one became.
#[derive(Clone, Copy)]
pub struct Slip {
    bytes: [u8; 32],
    length: usize,
}

impl Slip {
    fn of(request: &Request) -> Slip {
        let mut bytes = [0; 32];
        let (refusal, length) = rival::write_slip(request, &mut bytes);
        assert_eq!(refusal, 0);
        Slip { bytes, length }
    }

    pub fn bytes(&self) -> &[u8] {
        &self.bytes[..self.length]
    }
}

/// Numbers that look drawn by chance and are the same in every run (SplitMix64).
pub struct Dice(pub u64);

impl Dice {
    fn any(&mut self) -> u64 {
        self.0 = self.0.wrapping_add(0x9E37_79B9_7F4A_7C15);
        let mixed = (self.0 ^ (self.0 >> 30)).wrapping_mul(0xBF58_476D_1CE4_E5B9);
        let mixed = (mixed ^ (mixed >> 27)).wrapping_mul(0x94D0_49BB_1331_11EB);
        mixed ^ (mixed >> 31)
    }

    /// A number from the first to the last, both among them.
    fn between(&mut self, first: i64, last: i64) -> i64 {
        let count = (i128::from(last) - i128::from(first) + 1) as u128;
        (i128::from(first) + (u128::from(self.any()) % count) as i128) as i64
    }

    fn of<T: Copy>(&mut self, choices: &[T]) -> T {
        choices[self.between(0, choices.len() as i64 - 1) as usize]
    }

    /// A time that no call may be made at.
    fn time_outside(&mut self) -> i64 {
        self.between(i64::MIN, -1)
    }

    /// A value that a version 2 request can't have.
    fn value_outside(&mut self) -> i64 {
        let (first, last) = self.of(&[(VERSION_2_END + 1, END), (i64::MIN, -1)]);
        self.between(first, last)
    }

    /// A request of version 2 that a slip can hold and that flags these arguments. The others are not zero either.
    fn request(&mut self, flags: u64) -> Request {
        self.request_between(VERSION_2 | flags, 0, VERSION_2_END)
    }

    /// A request of version 3 that flags these arguments, with times past the end of version 2.
    fn late_request(&mut self, flags: u64) -> Request {
        self.request_between(VERSION_3 | flags, VERSION_2_END + 1, END)
    }

    /// A request of this word that a slip can hold, with its times from the first to the last.
    fn request_between(&mut self, word: u64, first: i64, last: i64) -> Request {
        Request {
            word,
            synthetic: self.between(first, last),
            reference: self.between(first, last),
            rate: self.between((-MAX_RATE).into(), MAX_RATE.into()) as i32,
            error: self.any(),
        }
    }

    /// A rate that the running clock takes.
    fn rate_within_a_step(&mut self, clock: &Clock) -> i32 {
        let first = (clock.line.rate - MAX_RATE_STEP).max(-MAX_RATE);
        let last = (clock.line.rate + MAX_RATE_STEP).min(MAX_RATE);
        self.between(first.into(), last.into()) as i32
    }

    /// A rate that is too far from the running clock's, on the side that has more room.
    fn rate_beyond_a_step(&mut self, clock: &Clock) -> i32 {
        let (first, last) = match clock.line.rate {
            rate @ ..0 => (rate + MAX_RATE_STEP + 1, MAX_RATE),
            rate => (-MAX_RATE, rate - MAX_RATE_STEP - 1),
        };
        self.between(first.into(), last.into()) as i32
    }

    /// A clock of this word whose line begins at this time. Half are set to the value then; half were, up to a second
    /// before, and are trimmed then, which leaves their lines a remainder.
    fn begun(&mut self, word: u8, value: i64, start: i64) -> Clock {
        let trimmed = self.of(&[false, true]);
        let first = if trimmed { start - self.between(1, 1_000_000_000) } else { start };
        let new = created(word, self.between(1, value), first);
        let clock = updated(new, set(value, self.request(SYNTHETIC | RATE)), first);
        if !trimmed {
            return clock;
        }
        let rate = self.rate_within_a_step(&clock);
        updated(clock, Request { rate, ..self.request(RATE) }, start)
    }

    /// A running clock of one of these words, and a time to ask it at. Half of them had their error bound updated since
    /// their line began.
    fn running(&mut self, words: &[u8], distance: Distance) -> Asking {
        let (start, value, now) = match distance {
            Near => {
                let start = self.between(1 << 40, 1 << 50);
                let longest = self.of(&[10, 1_000, 100_000, 10_000_000]);
                let value = self.between(1 << 60, (1 << 60) + (1 << 59));
                (start, value, start + self.between(1, longest))
            }
            Far => {
                let (start, value) = (self.between(1 << 56, 1 << 59), self.between(1, 1 << 50));
                (start, value, self.between(VERSION_2_END - (1 << 50), VERSION_2_END))
            }
        };
        let word = self.of(words);
        let mut clock = self.begun(word, value, start);
        if self.of(&[false, true]) {
            clock = updated(clock, self.request(ERROR), self.between(start, now));
        }
        (clock, now)
    }

    fn many<T>(&mut self, mut one: impl FnMut(&mut Dice) -> T) -> Vec<T> {
        (0..COUNT).map(|_| one(self)).collect()
    }
}

fn created(word: u8, backstop: i64, now: i64) -> Clock {
    let created = cementoad_create(word, backstop, now);
    assert_eq!(created.refusal, 0);
    created.clock
}

fn updated(clock: Clock, request: Request, now: i64) -> Clock {
    let updated = cementoad_update(clock, request, now);
    assert_eq!(updated.refusal, 0);
    updated.clock
}

/// The request with another value to set.
fn set(synthetic: i64, request: Request) -> Request {
    Request { synthetic, ..request }
}

// ---- creations, readings and details

/// A word, a backstop and a time that make a clock.
pub fn creations(dice: &mut Dice) -> Vec<(u8, i64, i64)> {
    dice.many(|dice| {
        let now = dice.between(0, END);
        (dice.of(&KINDS) | dice.of(&[0, AUTO_START]), dice.between(0, now), now)
    })
}

/// Running clocks of every kind.
pub fn askings(dice: &mut Dice, distance: Distance) -> Vec<Asking> {
    dice.many(|dice| {
        let (clock, now) = dice.running(&KINDS, distance);
        assert_eq!(cementoad_read(clock, now).refusal, 0);
        let passed = now - clock.line.reference;
        assert!(match distance {
            Near => (1..=10_000_000).contains(&passed),
            Far => passed > 1 << 60,
        });
        (clock, now)
    })
}

/// Clocks before their start.
pub fn resting(dice: &mut Dice) -> Vec<Asking> {
    dice.many(|dice| {
        let latest = dice.between(0, END);
        let clock = created(dice.of(&KINDS), dice.between(0, END), latest);
        (clock, dice.between(latest, END))
    })
}

/// Readings that are refused with 1, 2 or 12.
pub fn refused_readings(dice: &mut Dice) -> Vec<Asking> {
    dice.many(|dice| {
        let (clock, _) = dice.running(&KINDS, Near);
        let refusal = dice.of(&[1, 2, 12]);
        let now = match refusal {
            1 => dice.time_outside(),
            2 => dice.between(0, clock.latest - 1),
            // A near clock reads 2^60 or more soon after its start, so it is above END well before END.
            _ => dice.between(END - (1 << 50), END),
        };
        assert_eq!(cementoad_read(clock, now).refusal, refusal);
        (clock, now)
    })
}

// ---- updates

/// The update, which is answered with this refusal.
fn answered(refusal: u8, clock: Clock, request: Request, now: i64) -> Updating {
    assert_eq!(cementoad_update(clock, request, now).refusal, refusal);
    (clock, request, now)
}

/// Accepted sets of a value.
pub fn sets(dice: &mut Dice, distance: Distance) -> Vec<Updating> {
    dice.many(|dice| {
        let (clock, now) = dice.running(&[PLAIN, MONOTONIC], distance);
        let value = cementoad_read(clock, now).value + dice.between(0, 1_000_000);
        answered(0, clock, set(value, dice.request(SYNTHETIC)), now)
    })
}

/// Accepted changes of the rate alone.
pub fn rates(dice: &mut Dice, distance: Distance) -> Vec<Updating> {
    dice.many(|dice| {
        let (clock, now) = dice.running(&KINDS, distance);
        let rate = dice.rate_within_a_step(&clock);
        answered(0, clock, Request { rate, ..dice.request(RATE) }, now)
    })
}

/// Updates that are refused with 1 to 11 or 22, before any line is drawn.
pub fn refused_requests(dice: &mut Dice) -> Vec<Updating> {
    dice.many(|dice| {
        let refusal = dice.of(&[1, 2, 3, 4, 5, 6, 7, 8, 9, 10, 11, 22]);
        let (words, flags): (&[u8], u64) = match refusal {
            4 => (&KINDS, 0),
            5 => (&KINDS, SYNTHETIC),
            7 => (&KINDS, REFERENCE | ERROR),
            9 => (&[MONOTONIC | CONTINUOUS], REFERENCE | RATE),
            10 => (&[MONOTONIC | CONTINUOUS], SYNTHETIC),
            11 => (&[MONOTONIC], SYNTHETIC | RATE),
            _ => (&KINDS, RATE),
        };
        let (mut clock, mut now) = dice.running(words, Near);
        let mut request = dice.request(flags);
        match refusal {
            1 => now = dice.time_outside(),
            2 => now = dice.between(0, clock.latest - 1),
            3 => request.word ^= 1 << dice.of(&WRONG_BITS),
            5 => request.synthetic = dice.value_outside(),
            6 => request.rate = dice.of(&WRONG_RATES),
            8 => clock = created(clock.word, 1, clock.latest),
            22 => request.rate = dice.rate_beyond_a_step(&clock),
            _ => {}
        }
        answered(refusal, clock, request, now)
    })
}

/// Updates that are refused with 12, 13 or 14, for their new line.
pub fn refused_lines(dice: &mut Dice, distance: Distance) -> Vec<Updating> {
    dice.many(|dice| {
        let refusal = dice.of(&[12, 13, 14]);
        let words: &[u8] = if refusal == 14 { &[MONOTONIC] } else { &[PLAIN, MONOTONIC] };
        let (clock, now) = dice.running(words, distance);
        let request = match refusal {
            12 => Request {
                synthetic: END - dice.between(0, 1_000),
                reference: now - dice.between(10_000, 1_000_000),
                ..dice.late_request(SYNTHETIC | REFERENCE)
            },
            13 => set(dice.between(0, clock.backstop - 1), dice.request(SYNTHETIC)),
            _ => {
                let value = cementoad_read(clock, now).value;
                set(dice.between(clock.backstop, value - 1), dice.request(SYNTHETIC))
            }
        };
        answered(refusal, clock, request, now)
    })
}

// ---- slips

/// Requests with these arguments flagged, each with a buffer for the longest slip.
pub fn writings(dice: &mut Dice, flags: u64) -> Vec<Writing> {
    dice.many(|dice| (dice.request(flags), LONGEST_SLIP))
}

/// Requests of version 3 with all arguments flagged, each with a buffer for the longest slip.
pub fn late_writings(dice: &mut Dice) -> Vec<Writing> {
    dice.many(|dice| (dice.late_request(FULL), LONGEST_SLIP))
}

/// Slips with these arguments flagged.
pub fn slips(dice: &mut Dice, flags: u64) -> Vec<Slip> {
    dice.many(|dice| Slip::of(&dice.request(flags)))
}

/// Slips of version 3 with all arguments flagged.
pub fn late_slips(dice: &mut Dice) -> Vec<Slip> {
    dice.many(|dice| Slip::of(&dice.late_request(FULL)))
}

/// Flags of a slip that can be refused with this number.
fn slip_flags(dice: &mut Dice, refusal: u8) -> u64 {
    match refusal {
        5 => dice.of(&[FULL, SYNTHETIC]),
        6 => dice.of(&[FULL, RATE]),
        _ => dice.of(&[FULL, SYNTHETIC, RATE]),
    }
}

/// Requests that are refused with 3, 5, 6 or 21.
pub fn refused_writings(dice: &mut Dice) -> Vec<Writing> {
    dice.many(|dice| {
        let refusal = dice.of(&[3, 5, 6, 21]);
        let flags = slip_flags(dice, refusal);
        let mut request = dice.request(flags);
        let mut size = LONGEST_SLIP;
        match refusal {
            3 => request.word ^= 1 << dice.of(&WRONG_BITS),
            5 => request.synthetic = dice.value_outside(),
            6 => request.rate = dice.of(&WRONG_RATES),
            _ => size = dice.between(0, cementoad_slip_length(request) as i64 - 1) as usize,
        }
        let buffer = &mut [0; LONGEST_SLIP][..size];
        assert_eq!(rival::write_slip(&request, buffer).0, refusal);
        (request, size)
    })
}

/// Slips that are refused with 3, 6, 18 or 19.
pub fn refused_slips(dice: &mut Dice) -> Vec<Slip> {
    dice.many(|dice| {
        let refusal = dice.of(&[3, 6, 18, 19]);
        let flags = slip_flags(dice, refusal);
        let mut slip = Slip::of(&dice.request(flags));
        match (refusal, flags) {
            (3, _) => slip.bytes[0] ^= dice.of(&[8, 16, 128]),
            // The rate field, all ones, from bit 138 on or from bit 16 on.
            (6, FULL) => {
                slip.bytes[17] |= 0x3F;
                slip.bytes[18] |= 0xF8;
            }
            (6, _) => slip.bytes[2] = 0xFF,
            (18, _) => slip.length = dice.between(0, slip.length as i64 - 1) as usize,
            _ => slip.bytes[slip.length - 1] ^= 1,
        }
        assert_eq!(rival::read_slip(slip.bytes()).0, refusal);
        slip
    })
}
