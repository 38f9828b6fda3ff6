//! Numbers that lists are made of: edges, and numbers that look random.

use cementoad_sys::{END, VERSION_2_END};

/// The creation words that there are.
pub const WORDS: [u8; 6] = [0, 32, 128, 160, 192, 224];

/// As near as 64 bits come.
pub fn clamp(number: i128) -> i64 {
    number.clamp(i64::MIN.into(), i64::MAX.into()) as i64
}

/// Numbers that look random, the same for the same seed (splitmix64).
pub struct Rng {
    state: u64,
}

impl Rng {
    /// The numbers of one list.
    pub fn new(seed: u64, list: u64) -> Self {
        let mut rng = Rng { state: seed };
        rng.state = rng.any() ^ list;
        rng
    }

    /// Any number.
    pub fn any(&mut self) -> u64 {
        self.state = self.state.wrapping_add(0x9E37_79B9_7F4A_7C15);
        let mut z = self.state;
        z = (z ^ (z >> 30)).wrapping_mul(0xBF58_476D_1CE4_E5B9);
        z = (z ^ (z >> 27)).wrapping_mul(0x94D0_49BB_1331_11EB);
        z ^ (z >> 31)
    }

    /// A number below the limit.
    pub fn below(&mut self, limit: u64) -> u64 {
        self.any() % limit
    }

    pub fn percent(&mut self, percent: u64) -> bool {
        self.below(100) < percent
    }

    pub fn pick<T: Copy>(&mut self, choices: &[T]) -> T {
        choices[self.below(choices.len() as u64) as usize]
    }

    /// A number of at most so many bits, small ones as often as large ones.
    pub fn up_to_bits(&mut self, bits: u64) -> i64 {
        let width = self.below(bits + 1);
        (self.any() & ((1u64 << width) - 1)) as i64
    }

    /// -1, 0 or 1, now and then more.
    pub fn nudge(&mut self) -> i64 {
        self.pick(&[-1, 0, 0, 1, -1, 0, 1, 2, -2, 10])
    }

    /// A time or value at an edge, in the range or not.
    pub fn edge(&mut self) -> i64 {
        let end = self.end();
        let (any, near, past) = (self.any() as i64, end - self.up_to_bits(40), end.saturating_add(1));
        self.pick(&[any, any, near, near, i64::MIN, i32::MAX.into(), -1, 0, 1, end - 1, end, past])
    }

    /// The end of one version.
    pub fn end(&mut self) -> i64 {
        self.pick(&[VERSION_2_END, END])
    }

    /// A time or value in 0..end, where the end of one version is meant, whose bits are all ones.
    pub fn inside(&mut self, end: i64) -> i64 {
        let (any, low) = (self.any() as i64 & end, self.up_to_bits(60));
        self.pick(&[0, 1, end, end - 1, any, any, any, low, low, low, low, low, low, low, low])
    }

    /// A rate, most within its range.
    pub fn rate(&mut self) -> i32 {
        if self.percent(12) { self.pick(&[1001, -1001, i32::MIN, i32::MAX]) } else { self.sound_rate() }
    }

    pub fn sound_rate(&mut self) -> i32 {
        let any = self.below(2001) as i32 - 1000;
        self.pick(&[0, 1, -1, 999, -999, 1000, -1000, 23, any, any, any, any, any, any])
    }

    /// A remainder, most below a million.
    pub fn remainder(&mut self) -> u32 {
        let any = self.any() as u32;
        if self.percent(12) { self.pick(&[1_000_000, u32::MAX, any]) } else { self.sound_remainder() }
    }

    pub fn sound_remainder(&mut self) -> u32 {
        let any = self.below(1_000_000) as u32;
        self.pick(&[0, 1, 999_998, 999_999, any, any, any, any])
    }

    pub fn error(&mut self) -> u64 {
        let (any, small) = (self.any(), self.up_to_bits(62) as u64);
        self.pick(&[0, 1, u64::MAX, u64::MAX - 1, 1 << 63, any, any, small, small, small])
    }
}
