//! Draws a clock that is trimmed again and again, as SVG: the ideal, the library's readings, and those by the old rule,
//! which kept no remainder (02, R-7).

use cementoad::{Clock, Refusal, Request};

/// Parts in a whole, and millionths in a nanosecond.
const MILLION: i64 = 1_000_000;
/// The rate of the start and of every trim, in parts per million.
const RATE: i32 = -1;
/// The times of the trims, in nanoseconds.
const TRIMS: [i64; 10] = [5, 10, 15, 20, 25, 30, 35, 40, 45, 50];
/// The time of the last reading.
const LAST: i64 = 60;

// The place of 0 at 0 in the picture, the size of a nanosecond either way, and where labels begin, in dots.
const LEFT: i64 = 56;
const BOTTOM: i64 = 462;
const WIDE: i64 = 9;
const HIGH: i64 = 7;
const LABELS: i64 = 626;
const SMALL: &str = r##"font-size="11" fill="#444""##;

/// The ideal at t, in millionths (01, The ideal line). A trim to the same rate does not bend it.
fn ideal(t: i64) -> i64 {
    t * (MILLION + i64::from(RATE))
}

/// The library's reading at each time. It panics where one is not the ideal rounded down (02, R-7).
fn new_readings() -> Result<Vec<i64>, Refusal> {
    let mut clock = Clock::create(0, 0, 0)?;
    clock.update(&Request::new().synthetic(0).rate(RATE), 0)?;
    let read = |t| {
        if TRIMS.contains(&t) {
            clock.update(&Request::new().rate(RATE), t)?;
        }
        let reading = clock.read(t)?;
        assert_eq!(reading, ideal(t).div_euclid(MILLION), "the reading at {t} ns is not the ideal rounded down");
        Ok(reading)
    };
    (0..=LAST).map(read).collect()
}

/// The old rule's reading at each time (01, The clock we sell). A trim begins a new line at the whole value.
fn old_readings() -> Vec<i64> {
    let (mut reference, mut synthetic) = (0, 0);
    let read = |t: i64| {
        let reading = synthetic + ((t - reference) * (MILLION + i64::from(RATE))).div_euclid(MILLION);
        if TRIMS.contains(&t) {
            (reference, synthetic) = (t, reading);
        }
        reading
    };
    (0..=LAST).map(read).collect()
}

fn x(t: i64) -> i64 {
    LEFT + t * WIDE
}

/// The place of a value in millionths, to the nearest dot.
fn y(millionths: i64) -> i64 {
    BOTTOM - (millionths * HIGH + MILLION / 2) / MILLION
}

fn text(x: i64, y: i64, style: &str, words: &str) {
    println!(r#"<text x="{x}" y="{y}" {style}>{words}</text>"#);
}

/// The pieces of a path, five in a row: in a staircase those from one trim to the next.
fn rows(pieces: &[String]) -> String {
    pieces.chunks(5).map(|row| row.concat()).collect::<Vec<_>>().join("\n")
}

/// Prints the axes, and a mark at each trim with a faint line from there to the ideal.
fn axes() {
    println!(r##"<path fill="none" stroke="#333" d="M{LEFT} {}V{BOTTOM}H{}"/>"##, y(LAST * MILLION), x(LAST));
    for n in (0..=LAST).step_by(10) {
        text(x(n), BOTTOM + 17, &format!(r#"text-anchor="middle" {SMALL}"#), &n.to_string());
        text(LEFT - 7, y(n * MILLION) + 4, &format!(r#"text-anchor="end" {SMALL}"#), &n.to_string());
    }
    text(x(LAST / 2), BOTTOM + 40, r#"text-anchor="middle""#, "now, ns");
    text(14, 24, r#"text-anchor="start""#, "reading, ns");
    let lines = rows(&TRIMS.map(|t| format!("M{} {BOTTOM}V{}", x(t), y(ideal(t)))));
    println!(r##"<path stroke="#999" stroke-dasharray="1 3" d="{lines}"/>"##);
    let marks = rows(&TRIMS.map(|t| format!("M{} {BOTTOM}l-4-9h8z", x(t))));
    println!(r##"<path fill="#333" d="{marks}"/>"##);
    text(x(TRIMS[9]) + 9, BOTTOM - 4, SMALL, "trims");
}

fn in_ns(millionths: i64) -> String {
    format!("{}.{:06} ns", millionths / MILLION, millionths % MILLION)
}

/// Prints a name beside the end of a curve, by so many dots lower, and small lines under it.
fn label(millionths: i64, lower: i64, name: &str, lines: &[&str]) {
    let (end, place) = (y(millionths), y(millionths) + lower);
    println!(r##"<path stroke="#555" d="M{} {end}L{} {place}"/>"##, x(LAST) + 4, LABELS - 6);
    text(LABELS, place + 5, r#"font-weight="bold""#, name);
    for (n, line) in (1..).zip(lines) {
        text(LABELS, place + 5 + 15 * n, SMALL, line);
    }
}

/// Prints readings as a staircase with a label. A reading is the tread that ends at its time, since the value of a
/// clock that is a little slow rises just behind a whole time.
fn staircase(readings: &[i64], style: &str, lower: i64, name: &str, remark: &str) {
    let treads: Vec<_> = readings.windows(2).map(|pair| format!("v{}h{WIDE}", (pair[0] - pair[1]) * HIGH)).collect();
    println!(r#"<path fill="none" stroke-width="2" {style} d="M{LEFT} {BOTTOM}{}"/>"#, rows(&treads));
    let last = readings[readings.len() - 1];
    let behind = format!("{} behind,", in_ns(ideal(LAST) - last * MILLION));
    label(last * MILLION, lower, &format!("{name}: {last} ns"), &[&behind, remark]);
}

fn main() -> Result<(), Refusal> {
    let (new, old) = (new_readings()?, old_readings());
    println!(r#"<svg xmlns="http://www.w3.org/2000/svg" viewBox="0 0 800 520" width="800" height="520""#);
    println!(r#"  font-family="sans-serif" font-size="13">"#);
    println!("<title>A clock trimmed again and again: its readings by the new rule and by the old one</title>");
    println!(r##"<rect width="800" height="520" fill="#fff"/>"##);
    text(92, 72, r#"font-weight="bold" font-size="15""#, "A clock trimmed again and again");
    text(92, 91, SMALL, "Slow by one part per million; each trim sets that rate again");
    axes();
    staircase(&old, r##"stroke="#b5402a" stroke-dasharray="4 2""##, 0, "old rule", "remainder lost at each trim");
    staircase(&new, r##"stroke="#1f5fa8""##, 8, "new rule", "remainder kept");
    println!(r##"<path stroke="#000" d="M{LEFT} {BOTTOM}L{} {}"/>"##, x(LAST), y(ideal(LAST)));
    label(ideal(LAST), -12, &format!("ideal: {}", in_ns(ideal(LAST))), &[]);
    println!("</svg>");
    Ok(())
}
