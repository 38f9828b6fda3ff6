//! The rows of the table: an operation, its inputs, and how each side is called and timed.

use std::fmt::Debug;
use std::hint::black_box;
use std::rc::Rc;
use std::time::Instant;

use cementoad_sys::{self as ffi, LONGEST_SLIP, RATE, Request, SYNTHETIC};

use crate::inputs::{self, Asking, COUNT, Dice, Distance::*, FULL, Slip, Updating, Writing};
use crate::{baseline, rival};

/// Goes over a row's inputs as often as told, and answers the nanoseconds a call.
pub type Side = Box<dyn FnMut(usize) -> f64>;

pub struct Row {
    pub name: String,
    pub library: Side,
    pub plain: Side,
    /// The reader by bits, where slips are read.
    pub by_bits: Option<Side>,
}

/// The rows, in the table's order.
pub fn rows() -> Vec<Row> {
    let dice = &mut Dice(1);
    vec![
        loop_alone("no call: the loop alone"),
        empty("empty call: the length of a request that has no slip"),
        started("started, which tests the clock", inputs::askings(dice, Near)),
        creation("creation", inputs::creations(dice)),
        reading("reading, before the start", inputs::resting(dice)),
        reading("reading, near", inputs::askings(dice, Near)),
        reading("reading, far", inputs::askings(dice, Far)),
        reading("reading, refused (1, 2, 12)", inputs::refused_readings(dice)),
        details("details", inputs::askings(dice, Near)),
        update("update: set, near", inputs::sets(dice, Near)),
        update("update: set, far", inputs::sets(dice, Far)),
        update("update: rate only, near", inputs::rates(dice, Near)),
        update("update: rate only, far", inputs::rates(dice, Far)),
        update("update, refused (1 to 11, 22)", inputs::refused_requests(dice)),
        update("update, refused (12 to 14), near", inputs::refused_lines(dice, Near)),
        update("update, refused (12 to 14), far", inputs::refused_lines(dice, Far)),
        slip_reading("slip reading: all four fields, 27 bytes", inputs::slips(dice, FULL)),
        slip_reading("slip reading: all four fields, version 3, 28 bytes", inputs::late_slips(dice)),
        slip_reading("slip reading: set, 10 bytes", inputs::slips(dice, SYNTHETIC)),
        slip_reading("slip reading: rate, 4 bytes", inputs::slips(dice, RATE)),
        slip_reading("slip reading, refused (3, 6, 18, 19)", inputs::refused_slips(dice)),
        single_slip_reading("slip reading, single: all four fields, 27 bytes", inputs::slips(dice, FULL)),
        row_reading("slip reading, 16 in a row: all four fields, 432 bytes a call", inputs::slips(dice, FULL)),
        slip_writing("slip writing: all four fields, 27 bytes", inputs::writings(dice, FULL)),
        slip_writing("slip writing: all four fields, version 3, 28 bytes", inputs::late_writings(dice)),
        slip_writing("slip writing: set, 10 bytes", inputs::writings(dice, SYNTHETIC)),
        slip_writing("slip writing: rate, 4 bytes", inputs::writings(dice, RATE)),
        slip_writing("slip writing, refused (3, 5, 6, 21)", inputs::refused_writings(dice)),
    ]
}

/// A row of inputs, as each side takes them, on all of which the sides answered alike. `widened` gives the library's
/// answer in the rival's numbers.
fn row<L: 'static, P: 'static, A, B: PartialEq + Debug>(
    name: &str,
    inputs: impl IntoIterator<Item = (L, P)>,
    mut library: impl FnMut(&L) -> A + 'static,
    mut plain: impl FnMut(&P) -> B + 'static,
    widened: impl Fn(A) -> B,
) -> Row {
    let (library_inputs, plain_inputs): (Vec<L>, Vec<P>) = inputs.into_iter().unzip();
    assert_eq!(library_inputs.len(), COUNT);
    for (left, right) in library_inputs.iter().zip(&plain_inputs) {
        assert_eq!(widened(library(left)), plain(right), "{name}");
    }
    Row {
        name: name.into(),
        library: Box::new(move |passes| time(&library_inputs, passes, &mut library)),
        plain: Box::new(move |passes| time(&plain_inputs, passes, &mut plain)),
        by_bits: None,
    }
}

/// The nanoseconds a call. The compiler knows nothing of an input, and each answer is stored in whole.
fn time<I, O>(inputs: &[I], passes: usize, mut call: impl FnMut(&I) -> O) -> f64 {
    let start = Instant::now();
    for _ in 0..passes {
        for input in black_box(inputs) {
            let answer = call(black_box(input));
            black_box(&answer);
        }
    }
    start.elapsed().as_nanos() as f64 / (passes * inputs.len()) as f64
}

/// What the loop takes, and what is in every other number as well.
fn loop_alone(name: &str) -> Row {
    let alone = |&word: &usize| word;
    row(name, [(0, 0); COUNT], alone, alone, |word| word)
}

fn empty(name: &str) -> Row {
    row(
        name,
        [(Request::default(), Request::default()); COUNT],
        |request| ffi::cementoad_slip_length(*request),
        rival::slip_length,
        |length| length,
    )
}

fn creation(name: &str, inputs: Vec<(u8, i64, i64)>) -> Row {
    row(
        name,
        inputs.into_iter().map(|input| (input, input)),
        |&(word, backstop, now)| ffi::cementoad_create(word, backstop, now),
        |&(word, backstop, now)| rival::create(word, backstop, now),
        |created| (created.refusal, created.clock.into()),
    )
}

/// A clock and a time, as each side takes them.
fn sides((clock, now): Asking) -> (Asking, (rival::Clock, i64)) {
    ((clock, now), (clock.into(), now))
}

fn started(name: &str, inputs: Vec<Asking>) -> Row {
    row(
        name,
        inputs.into_iter().map(sides),
        |(clock, _)| ffi::cementoad_is_started(*clock),
        |(clock, _)| rival::started(clock),
        |started| started,
    )
}

fn reading(name: &str, inputs: Vec<Asking>) -> Row {
    row(
        name,
        inputs.into_iter().map(sides),
        |(clock, now)| ffi::cementoad_read(*clock, *now),
        |(clock, now)| rival::read(clock, *now),
        |reading| (reading.refusal, reading.value.into()),
    )
}

fn details(name: &str, inputs: Vec<Asking>) -> Row {
    row(
        name,
        inputs.into_iter().map(sides),
        |(clock, now)| ffi::cementoad_get_details(*clock, *now),
        |(clock, now)| rival::details(clock, *now),
        |detailed| (detailed.refusal, detailed.details.into()),
    )
}

fn update(name: &str, inputs: Vec<Updating>) -> Row {
    let sides = |(clock, request, now): Updating| ((clock, request, now), (clock.into(), request, now));
    row(
        name,
        inputs.into_iter().map(sides),
        |(clock, request, now)| ffi::cementoad_update(*clock, *request, *now),
        |(clock, request, now)| rival::update(clock, request, *now),
        |updated| (updated.refusal, updated.clock.into()),
    )
}

/// What was received, as the rival answers it.
fn answer(received: ffi::Received) -> (u8, Request, usize) {
    (received.refusal, received.request, received.length)
}

fn slip_reading(name: &str, inputs: Vec<Slip>) -> Row {
    let row = row(
        name,
        inputs.iter().map(|&slip| (slip, slip)),
        |slip| ffi::read_slip(slip.bytes()),
        |slip| rival::read_slip(slip.bytes()),
        answer,
    );
    let by_bits = |slip: &Slip| baseline::read_slip(slip.bytes());
    for slip in &inputs {
        assert_eq!(answer(by_bits(slip)), rival::read_slip(slip.bytes()), "{name}");
    }
    Row { by_bits: Some(Box::new(move |passes| time(&inputs, passes, by_bits))), ..row }
}

fn single_slip_reading(name: &str, inputs: Vec<Slip>) -> Row {
    row(
        name,
        inputs.into_iter().map(|slip| (slip, slip)),
        |slip| ffi::read_single_slip(slip.bytes()),
        |slip| rival::read_single_slip(slip.bytes()),
        answer,
    )
}

/// A call reads 16 of the slips, one after another, to the end of their bytes. A pass goes over each slip 16 times. The
/// sides are compared slip by slip.
fn row_reading(name: &str, inputs: Vec<Slip>) -> Row {
    let joined = |slips: &[Slip]| slips.iter().flat_map(Slip::bytes).copied().collect();
    let rows: Vec<Rc<[u8]>> = inputs.chunks(16).map(joined).collect();
    for bytes in &rows {
        let [mut left, mut right] = [Vec::new(), Vec::new()];
        slips_in(bytes, ffi::read_slip, |received| {
            left.push(answer(*received));
            received.length
        });
        slips_in(bytes, rival::read_slip, |received| {
            right.push(*received);
            received.2
        });
        assert_eq!(left, right, "{name}");
    }
    row(
        name,
        rows.iter().cycle().take(COUNT).map(|bytes| (bytes.clone(), bytes.clone())),
        |bytes| slips_in(bytes, ffi::read_slip, |received| received.length),
        |bytes| slips_in(bytes, rival::read_slip, |received| received.2),
        |count| count,
    )
}

/// How many slips there are before the end, or before one that is refused. Each answer is stored in whole.
fn slips_in<A>(mut rest: &[u8], read: impl Fn(&[u8]) -> A, mut length: impl FnMut(&A) -> usize) -> usize {
    let mut count = 0;
    while !rest.is_empty() {
        match length(black_box(&read(rest))) {
            0 => break,
            used => rest = &rest[used..],
        }
        count += 1;
    }
    count
}

/// Each side has one buffer, filled with zeros once and not cleared between calls. What the sides write is compared in
/// buffers without zeros, where a byte that is cleared shows.
fn slip_writing(name: &str, inputs: Vec<Writing>) -> Row {
    for (request, size) in &inputs {
        let [mut left, mut right] = [[0xA5; LONGEST_SLIP]; 2];
        ffi::write_slip(*request, &mut left[..*size]);
        rival::write_slip(request, &mut right[..*size]);
        assert_eq!(left, right, "{name}");
    }
    let mut library_buffer = [0; LONGEST_SLIP];
    let mut plain_buffer = [0; LONGEST_SLIP];
    row(
        name,
        inputs.into_iter().map(|input| (input, input)),
        move |(request, size)| ffi::write_slip(*request, &mut black_box(&mut library_buffer)[..*size]),
        move |(request, size)| rival::write_slip(request, &mut black_box(&mut plain_buffer)[..*size]),
        |written| (written.refusal, written.length),
    )
}

#[cfg(test)]
mod tests {
    use super::*;
    use ffi::{REFERENCE, VERSION_2};

    /// A row is made only where all sides answer alike on all of its inputs.
    #[test]
    fn all_sides_answer_alike() {
        assert_eq!(rows().len(), 28);
    }

    /// No row has bytes behind a single slip.
    #[test]
    fn bytes_left_over_are_refused_alike() {
        for slip in inputs::slips(&mut Dice(1), FULL) {
            let bytes = [slip.bytes(), &[0]].concat();
            assert_eq!(answer(ffi::read_single_slip(&bytes)), rival::read_single_slip(&bytes));
        }
    }

    /// No row has a version 3 slip that version 2 would hold, as it does any rate.
    #[test]
    fn needless_versions_are_refused_alike() {
        for slip in inputs::slips(&mut Dice(1), RATE) {
            let bytes = [&[slip.bytes()[0] | 4], &slip.bytes()[1..]].concat();
            assert_eq!(rival::read_slip(&bytes).0, 31);
            assert_eq!(answer(ffi::read_slip(&bytes)), rival::read_slip(&bytes));
        }
    }

    /// What the quickest of some passes took.
    fn quickest(side: &mut Side) -> f64 {
        (0..20).map(|_| side(1)).fold(f64::INFINITY, f64::min)
    }

    /// At most half the time of bit by bit (02, R-3).
    #[test]
    fn full_slips_are_read_in_half_the_time() {
        let mut row = slip_reading("full slips", inputs::slips(&mut Dice(1), FULL));
        let by_bits = quickest(&mut row.by_bits.expect("the reader by bits"));
        assert!(2.0 * quickest(&mut row.library) <= by_bits);
    }

    /// Our own mark is lower, 0.6, and for a release (docs/PERFORMANCE.md): here plain Rust also tests for overflow.
    #[test]
    fn full_slips_are_written_no_slower_than_by_plain_rust() {
        let mut row = slip_writing("full slips", inputs::writings(&mut Dice(1), FULL));
        assert!(quickest(&mut row.library) <= quickest(&mut row.plain));
    }

    /// Updates both sides' clock and reads it up to 4000.
    fn alike(clock: ffi::Clock, request: Request) -> ffi::Clock {
        let (library, plain) = (ffi::cementoad_update(clock, request, 0), rival::update(&clock.into(), &request, 0));
        assert_eq!((library.refusal, library.clock.into()), plain);
        for now in 0..=4000 {
            let reading = ffi::cementoad_read(library.clock, now);
            assert_eq!((reading.refusal, reading.value.into()), rival::read(&plain.1, now));
        }
        library.clock
    }

    /// No row has a time before the line's reference, where a value is rounded away from 0. Turned there, most lines
    /// have a remainder.
    #[test]
    fn both_sides_read_alike_before_the_reference() {
        for rate in [-1000, -1, 0, 1, 1000] {
            let word = VERSION_2 | SYNTHETIC | REFERENCE | RATE;
            let set = Request { word, synthetic: 5000, reference: 4000, rate, error: 0 };
            let turn = Request { word: VERSION_2 | REFERENCE | RATE, reference: 3999, ..set };
            alike(alike(ffi::cementoad_create(0, 0, 0).clock, set), turn);
        }
    }
}
