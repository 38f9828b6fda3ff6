//! The ideal line, in millionths of a nanosecond and never rounded (01, The ideal line).

use crate::clock::{AUTO_START, MILLION, RATE, Request, SYNTHETIC};

/// The line through W millionths at Q with the rate B, and the count K of demand 3.
#[derive(Clone, Copy, Debug, PartialEq, Eq)]
pub struct Ideal {
    pub q: i128,
    pub w: i128,
    pub b: i128,
    pub k: i128,
}

impl Ideal {
    /// The value at t, in millionths.
    pub fn value(&self, t: i128) -> i128 {
        self.w + (t - self.q) * (MILLION + self.b)
    }

    /// What a started clock reads at now: the ideal value, rounded down (02, R-7).
    pub fn reading(&self, now: i128) -> i128 {
        self.value(now).div_euclid(MILLION)
    }

    /// Demand 3 of one reading at now, in the customer's words: not above the ideal value, and behind it by less than
    /// a nanosecond for each that K counts. R-7 of 02 allows one, whatever K is.
    pub fn bounds(&self, reading: i128, now: i128) -> bool {
        let behind = self.value(now) - reading * MILLION;
        behind >= 0 && behind <= 999_999 * self.k
    }
}

/// The line with this Q, W, B and K.
fn drawn(q: i128, w: i128, b: i128, k: i128) -> Ideal {
    Ideal { q, w, b, k }
}

/// The line of an accepted creation: value 0 set at 0 by an automatic start, none otherwise.
pub fn ideal_at_creation(word: u8) -> Option<Ideal> {
    (word & AUTO_START != 0).then_some(drawn(0, 0, 0, 1))
}

/// The line after an update with these arguments, accepted or not.
pub fn ideal_after(ideal: Option<Ideal>, request: &Request, now: i64, accepted: bool) -> Option<Ideal> {
    if !accepted {
        return ideal;
    }
    let p = request.point(i128::from(now));
    let s = i128::from(request.synthetic);
    let new_b = i128::from(request.rate);
    let old_b = ideal.map_or(0, |old| old.b);
    match (request.has(SYNTHETIC), request.has(RATE)) {
        (true, false) => Some(drawn(p, s * MILLION, old_b, 1)),
        (true, true) => Some(drawn(p, s * MILLION, new_b, 1)),
        (false, true) => ideal.map(|old| drawn(p, old.value(p), new_b, old.k + 1)),
        (false, false) => ideal,
    }
}

#[cfg(test)]
mod tests {
    use super::*;

    /// K, and the value and the reading one nanosecond later, where the rate -1 is set again at 1, 2 and so on.
    fn trimmed(last: i64) -> (i128, i128, i128) {
        let request = |word| Request { word, rate: -1, ..Request::default() };
        let start = ideal_after(None, &request(SYNTHETIC | RATE), 0, true);
        let ideal = (1..=last).fold(start, |ideal, now| ideal_after(ideal, &request(RATE), now, true)).unwrap();
        let later = i128::from(last) + 1;
        (ideal.k, ideal.value(later), ideal.reading(later))
    }

    /// Case 6 of 01, as it is and longer. Since R-7 of 02 no reading tells K.
    #[test]
    fn each_rate_change_is_counted() {
        assert_eq!(trimmed(2), (3, 2_999_997, 2));
        assert_eq!(trimmed(1000), (1001, 1_000_998_999, 1000));
    }
}
