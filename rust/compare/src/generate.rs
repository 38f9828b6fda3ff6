//! Makes calls that lean on the edges, for the clock as it stands.

use cementoad_sys::*;
use second::MILLION;

use crate::call::Call;
use crate::convert::{behind_times, is_version_3, point, times, value, wide_request};
use crate::made_up;
use crate::numbers::{Rng, clamp};

/// What a list begins with: a creation, most to be accepted, or a clock made up by hand.
pub fn beginning(rng: &mut Rng) -> Call {
    if rng.percent(20) {
        return Call::Take(made_up::clock(rng));
    }
    let stray = if rng.percent(10) { 1 << rng.below(5) } else { 0 };
    let word = (rng.below(8) as u8 * 32) | stray;
    let now = if rng.percent(10) { rng.edge() } else { rng.pick(&[0, 1]) * rng.up_to_bits(45) };
    let backstop = match rng.below(10) {
        0 => rng.edge(),
        1..=3 => now.saturating_add(rng.nudge()),
        4..=6 => 0,
        7 => rng.end() - rng.up_to_bits(30),
        _ => rng.up_to_bits(45),
    };
    Call::Create(word, backstop, now)
}

/// The next call of a list.
pub fn call(rng: &mut Rng, clock: &Clock) -> Call {
    match rng.below(1000) {
        0..=269 => slip_call(rng),
        270..=279 => Call::SlipLength(slip_request(rng)),
        280..=499 => Call::Read(time(rng, clock, 50)),
        500..=559 => Call::Details(time(rng, clock, 50)),
        560..=579 => Call::Started,
        580..=581 if clock.started == 1 => Call::Take(Clock { generation: u32::MAX, ..*clock }),
        _ => {
            let now = time(rng, clock, 20);
            Call::Update(request(rng, clock, now), now)
        }
    }
}

/// A time for a call. So many in a hundred go far ahead, after which the clock's life is soon over.
fn time(rng: &mut Rng, clock: &Clock, far: u64) -> i64 {
    let ahead = match rng.below(20) {
        0..=5 => rng.below(4) as i64,
        6..=12 => rng.up_to_bits(36),
        13..=14 => 0,
        15 => -1 - rng.up_to_bits(20) * rng.pick(&[0, 1]),
        16 => 1,
        17 if rng.percent(far) => return rng.edge(),
        18 if rng.percent(far) => rng.up_to_bits(63),
        19 if rng.percent(far) => return time_of(&clock.line, END).saturating_add(rng.nudge()),
        _ => rng.up_to_bits(20),
    };
    clock.latest.saturating_add(ahead)
}

/// The time at which the line comes to the value, or near it.
fn time_of(line: &Line, value: i64) -> i64 {
    let distance = (i128::from(value) - i128::from(line.synthetic)) * MILLION;
    clamp(i128::from(line.reference) + distance / (MILLION + i128::from(line.rate)).max(1))
}

/// An update's word and arguments, for the clock at that time. Arguments that are not flagged are anything.
fn request(rng: &mut Rng, clock: &Clock, now: i64) -> Request {
    let word = if rng.percent(4) { word(rng) } else { version(rng) | flags(rng, clock) };
    let flagged = |rng: &mut Rng, flag: u64| word & flag != 0 || rng.percent(50);
    let rate = if word & RATE != 0 { rate(rng, clock) } else { rng.rate() };
    let error = rng.error();
    let reference = if flagged(rng, REFERENCE) { reference(rng, clock, now, end_of(word)) } else { rng.edge() };
    let new_rate = if word & RATE != 0 { rate } else { clock.line.rate };
    let unset = Request { word, synthetic: 0, reference, rate, error };
    let from = Line { reference: point(&unset, now), rate: new_rate, ..Line::default() };
    let synthetic = if flagged(rng, SYNTHETIC) { synthetic(rng, clock, now, &from, end_of(word)) } else { rng.edge() };
    Request { synthetic, ..unset }
}

/// What is flagged: every combination, but more often one that the clock might accept.
fn flags(rng: &mut Rng, clock: &Clock) -> u64 {
    let any = rng.below(16) << 54;
    if rng.percent(30) {
        any
    } else if clock.started == 0 {
        any | SYNTHETIC
    } else if clock.word & CONTINUOUS != 0 {
        rng.pick(&[RATE, RATE, RATE | ERROR, ERROR])
    } else if clock.word & MONOTONIC != 0 {
        rng.pick(&[RATE, SYNTHETIC, 0]) | rng.pick(&[0, REFERENCE]) | rng.pick(&[0, ERROR])
    } else {
        any | rng.pick(&[RATE, SYNTHETIC])
    }
}

/// A version that is known.
fn version(rng: &mut Rng) -> u64 {
    rng.pick(&[VERSION_2, VERSION_3])
}

/// The end of the times that this word may flag.
fn end_of(word: u64) -> i64 {
    if is_version_3(word) { END } else { VERSION_2_END }
}

/// Any flags, most with another version or a bit set that must be zero.
fn word(rng: &mut Rng) -> u64 {
    let (flags, any) = (rng.below(16) << 54, rng.any());
    let (other, stray) = (rng.below(64) << 58, version(rng) | 1 << rng.below(54));
    let versions = [0, 1, 2, 3, 4].map(|version| flags | version << 58);
    rng.pick(&[versions.as_slice(), &[flags | other, flags | stray, 0, u64::MAX, any]].concat())
}

/// Most rates for a clock that runs are a step that it takes, or at the edge of that.
fn rate(rng: &mut Rng, clock: &Clock) -> i32 {
    if clock.started == 0 || rng.percent(10) {
        return rng.rate();
    }
    let inside = rng.below(2 * MAX_RATE_STEP as u64 + 1) as i32 - MAX_RATE_STEP;
    let edge = rng.pick(&[-1, 1]) * (MAX_RATE_STEP + rng.pick(&[-1, 0, 1]));
    let step = rng.pick(&[inside, inside, inside, inside, inside, inside, edge]);
    clock.line.rate.saturating_add(step).clamp(-MAX_RATE, MAX_RATE)
}

/// A reference near now, at an end of what the word may flag, across the range from the old one, or where the old line
/// is at an end of the range.
fn reference(rng: &mut Rng, clock: &Clock, now: i64, end: i64) -> i64 {
    match rng.below(18) {
        0 => rng.edge(),
        1 => rng.inside(end),
        2..=3 => rng.pick(&[0, end]),
        4..=5 => now.saturating_add(rng.nudge()),
        6..=8 => now.saturating_add(rng.up_to_bits(40)).min(end),
        9..=10 => time_of(&clock.line, 0).saturating_add(rng.nudge()),
        11 => time_of(&clock.line, END).saturating_add(rng.nudge()),
        12..=14 => END.saturating_sub(clock.line.reference),
        _ => now.saturating_sub(rng.up_to_bits(40)).max(0),
    }
}

/// A value that brings the new line, at now, near to what the checks look at. The line is drawn from 0 there.
fn synthetic(rng: &mut Rng, clock: &Clock, now: i64, from: &Line, end: i64) -> i64 {
    let old = if clock.started == 0 { clock.backstop.into() } else { value(&clock.line, now) };
    let aim = match rng.below(20) {
        0 => return rng.edge(),
        1..=2 => return rng.inside(end),
        3..=6 => i128::from(clock.backstop) + i128::from(rng.nudge()),
        7..=10 => old + i128::from(rng.nudge()),
        11 => i128::from(end) + i128::from(rng.nudge()),
        12 => i128::from(end - rng.up_to_bits(40)),
        13 => rng.nudge().into(),
        14..=15 => return rng.pick(&[0, end]),
        _ => old + i128::from(rng.up_to_bits(40)),
    };
    clamp(aim - value(from, now))
}

// ---- slips

fn slip_call(rng: &mut Rng) -> Call {
    match rng.below(8) {
        0 | 1 => Call::ReadSlip(joined(rng, &[1, 2])),
        2 => Call::ReadSingleSlip(slip_bytes(rng)),
        3 => Call::ReadRow(joined(rng, &[0, 1, 2, 3, 4, 5])),
        _ => slip_writing(rng),
    }
}

/// A request to be written, now and then one that is refused.
fn slip_request(rng: &mut Rng) -> Request {
    let word = if rng.percent(10) { word(rng) } else { version(rng) | rng.below(16) << 54 };
    let time = |rng: &mut Rng| if rng.percent(80) { rng.inside(end_of(word)) } else { rng.edge() };
    let (synthetic, reference) = (time(rng), time(rng));
    Request { word, synthetic, reference, rate: rng.rate(), error: rng.error() }
}

fn slip_writing(rng: &mut Rng) -> Call {
    let request = slip_request(rng);
    let length = second::slip_length(&wide_request(&request));
    let (less, more, any) = (length.saturating_sub(1), length + rng.below(14) as usize, rng.below(41) as usize);
    let size = rng.pick(&[length, length, length, less, less, length + 1, more, any]);
    let first = rng.any() as u8;
    let filling = |at| first.wrapping_add((at as u8).wrapping_mul(37));
    Call::WriteSlip(request, (0..size).map(filling).collect())
}

/// The bytes of slips one after another, as many as one of the counts.
fn joined(rng: &mut Rng, counts: &[usize]) -> Vec<u8> {
    (0..rng.pick(counts)).flat_map(|_| slip_bytes(rng)).collect()
}

/// A slip's bytes, whole, damaged or anything at all.
fn slip_bytes(rng: &mut Rng) -> Vec<u8> {
    if rng.percent(5) {
        return (0..rng.below(30)).map(|_| rng.any() as u8).collect();
    }
    let word = version(rng) | rng.below(16) << 54;
    let (synthetic, reference) = (slip_time(rng, word), slip_time(rng, word));
    // Often the widest, one bit from what is refused.
    let rate = rng.sound_rate();
    let rate = rng.pick(&[rate, rate, rate, MAX_RATE]);
    let request = Request { word, synthetic, reference, rate, error: rng.error() };
    let mut bytes = second::packed(&wide_request(&request));
    for _ in 0..rng.pick(&[0, 0, 0, 1, 1, 1, 2]) {
        damage(rng, &mut bytes, word);
    }
    bytes
}

/// A time for a slip of this word; of version 3 often one that needs it, or is at the edge of that.
fn slip_time(rng: &mut Rng, word: u64) -> i64 {
    let (inside, near, high) = (rng.inside(end_of(word)), VERSION_2_END + rng.nudge(), END - rng.up_to_bits(61));
    if is_version_3(word) { rng.pick(&[inside, near, high]) } else { inside }
}

/// Damages a slip that has this word in one way.
fn damage(rng: &mut Rng, bytes: &mut Vec<u8>, word: u64) {
    let bits = 8 * bytes.len() as u64;
    match rng.below(8) {
        0 | 1 => flip(bytes, rng.below(bits + 1)),
        2 => flip(bytes, rng.below(16)),
        3 => bytes.truncate(bytes.len().saturating_sub(1 + rng.below(2) as usize)),
        4 => bytes.truncate(rng.below(bytes.len() as u64 + 1) as usize),
        5 => bytes.extend((0..1 + rng.below(3)).map(|_| rng.pick(&[0, 1, 255]))),
        // The last bits: padding, in many slips.
        6 => flip(bytes, bits.saturating_sub(1 + rng.below(7))),
        _ if word & RATE != 0 => {
            let (start, any) = (behind_times(word, times(word)) as u64, rng.below(11));
            flip(bytes, start + rng.pick(&[10, 10, any]));
        }
        _ => {}
    }
}

/// Turns a bit, where there is one.
fn flip(bytes: &mut [u8], bit: u64) {
    if let Some(byte) = bytes.get_mut((bit / 8) as usize) {
        *byte ^= 0x80 >> (bit % 8);
    }
}
