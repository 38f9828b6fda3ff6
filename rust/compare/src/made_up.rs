//! Clocks made up by hand: sound ones, and ones at an edge of the boundary's test.

use cementoad_sys::{AUTO_START, CONTINUOUS, Clock, END, Line, UNKNOWN_ERROR};

use crate::convert::value;
use crate::numbers::{Rng, WORDS, clamp};

/// A clock for a list to begin with: most with one field at an edge, now and then with anything in it.
pub fn clock(rng: &mut Rng) -> Clock {
    if rng.percent(10) {
        return anything(rng);
    }
    let clock = if rng.percent(40) { resting(rng) } else { running(rng) };
    (0..rng.pick(&[0, 1, 1, 1, 1, 1, 1, 1, 2])).fold(clock, |clock, _| at_edge(rng, clock))
}

/// A clock before its start.
fn resting(rng: &mut Rng) -> Clock {
    let word = rng.pick(&WORDS) & !AUTO_START;
    let (backstop, latest) = (rng.inside(END), rng.inside(END));
    Clock { word, backstop, latest, error: UNKNOWN_ERROR, generation: 1, ..Clock::default() }
}

/// A started clock. Its line begins before the latest time, at it or behind it.
fn running(rng: &mut Rng) -> Clock {
    let word = rng.pick(&WORDS);
    let (latest, mut line) = if rng.percent(35) { far(rng) } else { near(rng) };
    if value(&line, latest) < 0 {
        line.reference = latest;
    }
    let by_start = if word & AUTO_START != 0 { latest } else { END };
    let highest = clamp(value(&line, latest)).min(by_start);
    let backstop = rng.pick(&[0, highest, highest / 2]);
    let generation = rng.pick(&[0, 1, 2, u32::MAX, u32::MAX - 1]);
    Clock { line, backstop, latest, error: rng.error(), generation, word, started: 1 }
}

/// A latest time, and a line for it.
fn near(rng: &mut Rng) -> (i64, Line) {
    let latest = rng.inside(END);
    let reference = latest.saturating_add(rng.pick(&[-1, 0, 1]) * rng.up_to_bits(62)).max(0);
    let (synthetic, remainder, rate) = (rng.inside(END), rng.sound_remainder(), rng.sound_rate());
    (latest, Line { reference, synthetic, remainder, rate })
}

/// The same near END, with the widest sums: of a quick line from the last value at 0, or from 0 at the last time.
fn far(rng: &mut Rng) -> (i64, Line) {
    let (latest, reference, rate) = (END - rng.up_to_bits(40), rng.pick(&[0, END, END]), rng.sound_rate().abs());
    (latest, Line { reference, synthetic: END - reference, remainder: rng.sound_remainder(), rate })
}

/// The clock with one field at an edge, just inside or just outside.
fn at_edge(rng: &mut Rng, clock: Clock) -> Clock {
    let Clock { line, backstop, latest, word, .. } = clock;
    let end = rng.pick(&[-1, -1, 0, 1, END - 1, END]);
    let reference = rng.pick(&[0, line.reference]);
    let one: i32 = rng.pick(&[1, -1]);
    let remainder = rng.pick(&[999_999, 1_000_000, u32::MAX]);
    let at_latest = clamp(value(&line, latest));
    match rng.below(15) {
        0 => Clock { started: rng.pick(&[0, 1, 2, 3, 128, 255]), ..clock },
        1 => Clock { latest: end, ..clock },
        2 => Clock { word: word | 1 << rng.below(5), ..clock },
        3 => Clock { word: (word | CONTINUOUS) & rng.pick(&[255, 127]), ..clock },
        4 => Clock { backstop: end, ..clock },
        5 => Clock { word: word | AUTO_START, latest: backstop.saturating_sub(rng.pick(&[0, 1])), ..clock },
        6 | 12 => Clock { line: Line { reference: end, ..line }, backstop: 0, ..clock },
        7 | 13 => Clock { line: Line { reference, synthetic: end, ..line }, backstop: 0, ..clock },
        8 => Clock { line: Line { remainder, ..line }, backstop: 0, ..clock },
        9 => Clock { line: Line { rate: one * rng.pick(&[1000, 1001]), ..line }, backstop: 0, ..clock },
        10 => Clock { backstop: at_latest.saturating_add(rng.pick(&[-1, 0, 1])), ..clock },
        11 => Clock { error: rng.pick(&[0, u64::MAX - 1]), ..clock },
        _ => Clock { generation: rng.pick(&[0, 2, u32::MAX]), ..clock },
    }
}

fn anything(rng: &mut Rng) -> Clock {
    let line = Line { reference: rng.edge(), synthetic: rng.edge(), remainder: rng.remainder(), rate: rng.rate() };
    let (backstop, latest, error, generation) = (rng.edge(), rng.edge(), rng.error(), rng.any() as u32);
    Clock { line, backstop, latest, error, generation, word: rng.any() as u8, started: rng.pick(&[0, 1, 1, 2, 255]) }
}
