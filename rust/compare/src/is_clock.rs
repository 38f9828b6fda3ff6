//! The boundary's own test of what it is handed for a clock: what fails gets 255, before every other number.

use cementoad_sys::{AUTO_START, CONTINUOUS, Clock, END, Line, MAX_RATE, MONOTONIC, UNKNOWN_ERROR};

use crate::convert::value;

/// A part of the test: its name, and whether a clock passes it.
type Part = (&'static str, fn(&Clock) -> bool);

pub const PARTS: [Part; 15] = [
    ("the started byte is 0 or 1", |clock| clock.started <= 1),
    // Creation would take word and backstop at the latest time: not 1, 3, 15, 16 or 17.
    ("the latest time is inside", |clock| inside(clock.latest)),
    ("the word is known", |clock| clock.word & !(MONOTONIC | CONTINUOUS | AUTO_START) == 0),
    ("continuous is monotonic", |clock| clock.word & CONTINUOUS == 0 || clock.word & MONOTONIC != 0),
    ("the backstop is inside", |clock| inside(clock.backstop)),
    ("auto start is not before the backstop", |clock| clock.word & AUTO_START == 0 || clock.latest >= clock.backstop),
    // Once it is started. The value may be above END.
    ("the reference is inside", |clock| rests(clock) || inside(clock.line.reference)),
    ("the synthetic is inside", |clock| rests(clock) || inside(clock.line.synthetic)),
    ("the remainder is below a million", |clock| rests(clock) || clock.line.remainder < 1_000_000),
    ("the rate is inside", |clock| rests(clock) || (-MAX_RATE..=MAX_RATE).contains(&clock.line.rate)),
    ("the value at the latest time is not below the backstop", |clock| {
        rests(clock) || value(&clock.line, clock.latest) >= clock.backstop.into()
    }),
    // Before the start all is as creation leaves it.
    ("auto start is started", |clock| !rests(clock) || clock.word & AUTO_START == 0),
    ("the line before the start is zeros", |clock| !rests(clock) || clock.line == Line::default()),
    ("the error bound before the start is unknown", |clock| !rests(clock) || clock.error == UNKNOWN_ERROR),
    ("the generation before the start is 1", |clock| !rests(clock) || clock.generation == 1),
];

pub fn is_clock(clock: &Clock) -> bool {
    PARTS.iter().all(|(_, passes)| passes(clock))
}

/// The parts that a clock fails, by their numbers in the table.
pub fn failing(clock: &Clock) -> Vec<usize> {
    (0..PARTS.len()).filter(|&part| !PARTS[part].1(clock)).collect()
}

fn inside(time: i64) -> bool {
    (0..=END).contains(&time)
}

fn rests(clock: &Clock) -> bool {
    clock.started == 0
}
