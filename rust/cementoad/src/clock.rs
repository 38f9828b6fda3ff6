//! Clocks, and what they tell of themselves.

use crate::archive::check_archive;
use crate::refusal::check;
use crate::{Details, Refusal, Request, ffi};

/// A clock that creation gave and accepted updates carried on. It can be had in no other way.
///
/// It is a plain value of 56 bytes. It is not `Copy`, so that an update can't be lost on a copy by accident.
///
/// ```
/// use cementoad::{Clock, Request};
///
/// // A plain clock, set to 1500 at 100 ns: it reads 1750 at 350.
/// let mut clock = Clock::create(0, 0, 0)?;
/// clock.update(&Request::new().synthetic(1500), 100)?;
/// assert_eq!(clock.read(350), Ok(1750));
///
/// // Slowed down by 23 parts per million, it loses 23 ns in a millisecond.
/// clock.update(&Request::new().rate(-23), 1_000_100)?;
/// assert_eq!(clock.read(1_000_100), Ok(1_001_500));
/// assert_eq!(clock.read(2_000_100), Ok(2_001_477));
/// # Ok::<(), cementoad::Refusal>(())
/// ```
#[derive(Clone, Debug, PartialEq, Eq, Hash)]
pub struct Clock {
    raw: ffi::Clock,
}

impl Clock {
    /// The end of the range of times and values, 2^63 - 1.
    pub const END: i64 = ffi::END;

    /// The end for the value and the reference time of a version 2 request, 2^61 - 1. [`Request::version_3`] has those
    /// that lie past it.
    pub const VERSION_2_END: i64 = ffi::VERSION_2_END;

    /// The widest rate adjustment, in parts per million.
    pub const MAX_RATE: i32 = ffi::MAX_RATE;

    /// The widest step of a running clock's rate, either way, in parts per million. A start may have any permitted
    /// rate.
    pub const MAX_RATE_STEP: i32 = ffi::MAX_RATE_STEP;

    /// The error bound that means unknown.
    pub const UNKNOWN_ERROR: u64 = ffi::UNKNOWN_ERROR;

    /// The bit of a creation word for a clock whose readings never fall while the times don't.
    pub const MONOTONIC: u8 = ffi::MONOTONIC;

    /// The bit of a creation word for a clock whose line is never broken. It asks for `MONOTONIC` too.
    pub const CONTINUOUS: u8 = ffi::CONTINUOUS;

    /// The bit of a creation word for a clock that starts at creation, as the line from 0 at 0.
    pub const AUTO_START: u8 = ffi::AUTO_START;

    /// A new clock, or refusal 1, 3, 15, 16 or 17. The word is made of `MONOTONIC`, `CONTINUOUS` and `AUTO_START`, or
    /// is 0; without `AUTO_START` the clock isn't started.
    ///
    /// ```
    /// use cementoad::{Clock, Refusal};
    ///
    /// assert_eq!(Clock::create(Clock::AUTO_START, 5, 4), Err(Refusal::BackstopAhead));
    /// assert!(Clock::create(Clock::AUTO_START, 5, 5)?.started());
    /// assert_eq!(Clock::create(1, 0, 0), Err(Refusal::WordWrong));
    /// # Ok::<(), Refusal>(())
    /// ```
    pub fn create(word: u8, backstop: i64, now: i64) -> Result<Clock, Refusal> {
        check_archive();
        let created = ffi::cementoad_create(word, backstop, now);
        check(created.refusal)?;
        Ok(Clock { raw: created.clock })
    }

    /// The clock's value at now, which is the backstop before the start and later the line's, rounded down; or refusal
    /// 1, 2 or 12.
    ///
    /// ```
    /// use cementoad::{Clock, Refusal, Request};
    ///
    /// let mut clock = Clock::create(0, 0, 0)?;
    /// clock.update(&Request::version_3().synthetic(Clock::END), 0)?;
    /// assert_eq!(clock.read(0), Ok(Clock::END));
    /// assert_eq!(clock.read(1), Err(Refusal::LineOutside));
    /// # Ok::<(), Refusal>(())
    /// ```
    pub fn read(&self, now: i64) -> Result<i64, Refusal> {
        let reading = ffi::cementoad_read(self.raw, now);
        check(reading.refusal)?;
        Ok(reading.value)
    }

    /// Alters the clock at now as the request says; or refusal 1 to 14 or 22, which leaves the clock unaltered.
    ///
    /// ```
    /// use cementoad::{Clock, Refusal, Request};
    ///
    /// let mut clock = Clock::create(Clock::MONOTONIC, 0, 0)?;
    /// clock.update(&Request::new().synthetic(1500), 100)?;
    /// // At 350 the clock reads 1750, and may be set to that but not to less.
    /// assert_eq!(clock.update(&Request::new().synthetic(1749), 350), Err(Refusal::MonotonicBack));
    /// assert_eq!(clock.update(&Request::new().synthetic(1750), 350), Ok(()));
    /// // Running at 0, it may be trimmed by up to 200.
    /// assert_eq!(clock.update(&Request::new().rate(900), 350), Err(Refusal::RateStep));
    /// assert_eq!(clock.update(&Request::new().rate(90), 350), Ok(()));
    /// # Ok::<(), Refusal>(())
    /// ```
    pub fn update(&mut self, request: &Request, now: i64) -> Result<(), Refusal> {
        let updated = ffi::cementoad_update(self.raw, request.into(), now);
        check(updated.refusal)?;
        self.raw = updated.clock;
        Ok(())
    }

    /// What the clock tells of itself at now; or refusal 1 or 2.
    ///
    /// ```
    /// use cementoad::{Clock, Request};
    ///
    /// let mut clock = Clock::create(0, 0, 0)?;
    /// assert_eq!(clock.details(0)?.generation, 1);
    /// assert_eq!(clock.details(0)?.error_bound(), None);
    ///
    /// clock.update(&Request::new().synthetic(1500).error(40), 100)?;
    /// let details = clock.details(350)?;
    /// assert_eq!((details.line.reference, details.line.synthetic), (100, 1500));
    /// assert_eq!((details.generation, details.latest, details.now), (2, 100, 350));
    /// assert_eq!(details.error_bound(), Some(40));
    ///
    /// clock.update(&Request::new().error(50), 400)?; // each accepted update raises the generation
    /// assert_eq!(clock.details(400)?.generation, 3);
    ///
    /// // Slowed down by one part per million at 400, the clock stands a millionth under 1801 at 401. A change of the
    /// // rate keeps what is above the whole nanosecond as the line's remainder.
    /// clock.update(&Request::new().rate(-1), 400)?;
    /// clock.update(&Request::new().rate(0), 401)?;
    /// let line = clock.details(401)?.line;
    /// assert_eq!((line.synthetic, line.remainder), (1800, 999_999));
    /// # Ok::<(), cementoad::Refusal>(())
    /// ```
    pub fn details(&self, now: i64) -> Result<Details, Refusal> {
        let detailed = ffi::cementoad_get_details(self.raw, now);
        check(detailed.refusal)?;
        Ok(detailed.details)
    }

    /// Whether the clock is started.
    ///
    /// ```
    /// use cementoad::{Clock, Request};
    ///
    /// let mut clock = Clock::create(0, 0, 0)?;
    /// assert!(!clock.started());
    /// clock.update(&Request::new().synthetic(0), 0)?;
    /// assert!(clock.started());
    /// # Ok::<(), cementoad::Refusal>(())
    /// ```
    pub fn started(&self) -> bool {
        ffi::cementoad_is_started(self.raw)
    }
}
