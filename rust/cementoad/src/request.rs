//! Requests for an update, and their slips.

use std::hash::{Hash, Hasher};

use crate::archive::check_archive;
use crate::refusal::check;
use crate::{Refusal, ffi};

/// The bits of an update word that hold its version.
const VERSION: u64 = 63 << 58;

/// What an update is to change. It is built by naming that; what isn't named stays as it is.
///
/// Two requests are equal when they have the same word and the same flagged arguments. An argument that isn't flagged
/// is ignored. [`is_same_request`](Request::is_same_request) leaves out the word's version as well, which a slip
/// chooses for itself.
///
/// ```
/// use cementoad::{Clock, Request};
///
/// // At 9 a plain clock is set to be 10 at 10, and to gain one part per million from there on.
/// let mut clock = Clock::create(0, 0, 0)?;
/// clock.update(&Request::new().synthetic(10).reference(10).rate(1), 9)?;
/// assert_eq!(clock.read(9), Ok(8));
/// assert_eq!(clock.read(10), Ok(10));
/// # Ok::<(), cementoad::Refusal>(())
/// ```
///
/// Naming an argument gives a new request. One that is dropped is a mistake, and the compiler warns:
///
/// ```compile_fail
/// #![deny(unused_must_use)]
/// let request = cementoad::Request::new();
/// request.rate(-23);
/// ```
#[must_use = "naming an argument gives a new request and leaves the old one as it was"]
#[derive(Clone, Copy, Debug)]
pub struct Request {
    raw: ffi::Request,
}

impl Request {
    /// The older version of an update word, its top six bits.
    pub const VERSION_2: u64 = ffi::VERSION_2;

    /// The newer version of an update word, for a value or a reference time past
    /// [`Clock::VERSION_2_END`](crate::Clock::VERSION_2_END).
    pub const VERSION_3: u64 = ffi::VERSION_3;

    /// The flag of the value to set.
    pub const SYNTHETIC: u64 = ffi::SYNTHETIC;

    /// The flag of the reference time at which the new line has its value.
    pub const REFERENCE: u64 = ffi::REFERENCE;

    /// The flag of the rate adjustment.
    pub const RATE: u64 = ffi::RATE;

    /// The flag of the error bound.
    pub const ERROR: u64 = ffi::ERROR;

    /// The bytes of the longest slip.
    pub const LONGEST_SLIP: usize = ffi::LONGEST_SLIP;

    /// A request of version 2 that flags nothing yet.
    pub const fn new() -> Request {
        Request::bare(Request::VERSION_2)
    }

    /// A request of version 3 that flags nothing yet, for a value and a reference time past the end of version 2.
    ///
    /// ```
    /// use cementoad::{Clock, Refusal, Request};
    ///
    /// let late = Clock::VERSION_2_END + 1;
    /// let mut clock = Clock::create(0, 0, 0)?;
    /// assert_eq!(clock.update(&Request::new().synthetic(late), 100), Err(Refusal::ValueOutside));
    /// clock.update(&Request::version_3().synthetic(late), 100)?;
    /// assert_eq!(clock.read(100), Ok(late));
    /// # Ok::<(), Refusal>(())
    /// ```
    pub const fn version_3() -> Request {
        Request::bare(Request::VERSION_3)
    }

    /// Sets the clock to this value, in nanoseconds; past [`Clock::VERSION_2_END`](crate::Clock::VERSION_2_END) it needs
    /// [`version_3`](Request::version_3).
    pub const fn synthetic(mut self, value: i64) -> Request {
        self.raw.synthetic = value;
        self.flag(Request::SYNTHETIC)
    }

    /// Has the new line go through its value at this reference time, in nanoseconds, and not at now. It has the end
    /// that a value has.
    pub const fn reference(mut self, time: i64) -> Request {
        self.raw.reference = time;
        self.flag(Request::REFERENCE)
    }

    /// Sets the clock's rate adjustment to this, in parts per million.
    pub const fn rate(mut self, rate: i32) -> Request {
        self.raw.rate = rate;
        self.flag(Request::RATE)
    }

    /// Notes this error bound, in nanoseconds.
    pub const fn error(mut self, bound: u64) -> Request {
        self.raw.error = bound;
        self.flag(Request::ERROR)
    }

    /// The update word: the version and the flags.
    pub const fn word(&self) -> u64 {
        self.raw.word
    }

    /// The value to set, if it is flagged.
    pub fn flagged_synthetic(&self) -> Option<i64> {
        self.flags(Request::SYNTHETIC).then_some(self.raw.synthetic)
    }

    /// The reference time, if it is flagged.
    pub fn flagged_reference(&self) -> Option<i64> {
        self.flags(Request::REFERENCE).then_some(self.raw.reference)
    }

    /// The rate adjustment, if it is flagged.
    pub fn flagged_rate(&self) -> Option<i32> {
        self.flags(Request::RATE).then_some(self.raw.rate)
    }

    /// The error bound, if it is flagged.
    pub fn flagged_error(&self) -> Option<u64> {
        self.flags(Request::ERROR).then_some(self.raw.error)
    }

    /// Whether the other is the same request, whichever of the two versions each has: their words are equal but for
    /// that, and their flagged arguments are equal. One of a version that isn't known is not the same as any, not even as
    /// itself.
    ///
    /// ```
    /// use cementoad::Request;
    ///
    /// let (older, newer) = (Request::new().rate(-23), Request::version_3().rate(-23));
    /// assert!(older.is_same_request(&newer));
    /// assert_ne!(older, newer);
    /// assert!(!older.is_same_request(&newer.error(40)));
    /// ```
    pub fn is_same_request(&self, other: &Request) -> bool {
        self.as_version_2().is_some_and(|request| other.as_version_2() == Some(request))
    }

    /// The request of a slip that is all of the bytes; or refusal 3, 6, 18, 19, 31 or 20. Its word has the slip's
    /// version: 2 unless its value or its reference time needs 3. [`Slips`](crate::Slips) reads several in a row.
    ///
    /// ```
    /// use cementoad::{Refusal, Request};
    ///
    /// assert_eq!(Request::from_slip(&[0x08, 0x80, 0x7a, 0x20]), Ok(Request::new().rate(-23)));
    /// assert_eq!(Request::from_slip(&[0x08, 0x80, 0x7a]), Err(Refusal::TooShort));
    /// assert_eq!(Request::from_slip(&[0x08, 0x80, 0x7a, 0x21]), Err(Refusal::PaddingSet));
    /// assert_eq!(Request::from_slip(&[0x08, 0x80, 0x7a, 0x20, 0x00]), Err(Refusal::BytesLeftOver));
    /// assert_eq!(Request::from_slip(&[0x0c, 0x80, 0x7a, 0x20]), Err(Refusal::VersionNeedless));
    /// ```
    pub fn from_slip(bytes: &[u8]) -> Result<Request, Refusal> {
        check_archive();
        let received = ffi::read_single_slip(bytes);
        check(received.refusal)?;
        Ok(received.request.into())
    }

    /// The request as a slip; or refusal 3, 5 or 6. The slip has version 2 where no flagged value or reference time
    /// lies past the end of version 2, else version 3, whichever of them the request has. So it reads back as
    /// [the same request](Request::is_same_request), but the word may have the other version.
    ///
    /// ```
    /// use cementoad::Request;
    ///
    /// let request = Request::new().synthetic(1500);
    /// let slip = request.to_slip()?;
    /// assert_eq!(slip, [0x0a, 0x00, 0x00, 0x00, 0x00, 0x00, 0x00, 0x00, 0x2e, 0xe0]);
    /// assert_eq!(Request::from_slip(&slip), Ok(request));
    /// assert_eq!(Request::version_3().synthetic(1500).to_slip()?, slip);
    /// # Ok::<(), cementoad::Refusal>(())
    /// ```
    pub fn to_slip(&self) -> Result<Vec<u8>, Refusal> {
        let mut buffer = [0; Request::LONGEST_SLIP];
        let length = self.write_slip(&mut buffer)?;
        Ok(buffer[..length].to_vec())
    }

    /// Writes the request as a slip to the front of the buffer and answers its length; or refusal 3, 5, 6 or 21. No
    /// other byte is touched, and none where it is refused.
    ///
    /// ```
    /// use cementoad::{Refusal, Request};
    ///
    /// let mut buffer = [0xff; 6];
    /// assert_eq!(Request::new().rate(-23).write_slip(&mut buffer), Ok(4));
    /// assert_eq!(buffer, [0x08, 0x80, 0x7a, 0x20, 0xff, 0xff]);
    /// assert_eq!(Request::new().synthetic(1500).write_slip(&mut buffer), Err(Refusal::BufferShort));
    /// ```
    pub fn write_slip(&self, buffer: &mut [u8]) -> Result<usize, Refusal> {
        check_archive();
        let written = ffi::write_slip(self.raw, buffer);
        check(written.refusal)?;
        Ok(written.length)
    }

    /// How many bytes the request's slip has; 0 where writing it is refused with 3, 5 or 6, whatever the buffer.
    ///
    /// ```
    /// use cementoad::Request;
    ///
    /// assert_eq!(Request::new().rate(-23).slip_length(), 4);
    /// assert_eq!(Request::new().rate(1001).slip_length(), 0);
    /// ```
    pub fn slip_length(&self) -> usize {
        check_archive();
        ffi::cementoad_slip_length(self.raw)
    }

    const fn bare(word: u64) -> Request {
        Request { raw: ffi::Request { word, synthetic: 0, reference: 0, rate: 0, error: 0 } }
    }

    const fn flag(mut self, flag: u64) -> Request {
        self.raw.word |= flag;
        self
    }

    const fn flags(&self, flag: u64) -> bool {
        self.raw.word & flag != 0
    }

    /// The request with a version 2 word, if its own version is known.
    fn as_version_2(&self) -> Option<Request> {
        let rest = self.raw.word & !VERSION;
        let known = [Request::VERSION_2, Request::VERSION_3].contains(&(self.raw.word & VERSION));
        known.then_some(Request { raw: ffi::Request { word: Request::VERSION_2 | rest, ..self.raw } })
    }

    /// All that counts of a request.
    fn counted(&self) -> (u64, Option<i64>, Option<i64>, Option<i32>, Option<u64>) {
        (self.word(), self.flagged_synthetic(), self.flagged_reference(), self.flagged_rate(), self.flagged_error())
    }
}

impl Default for Request {
    fn default() -> Request {
        Request::new()
    }
}

impl PartialEq for Request {
    fn eq(&self, other: &Request) -> bool {
        self.counted() == other.counted()
    }
}

impl Eq for Request {}

impl Hash for Request {
    fn hash<H: Hasher>(&self, state: &mut H) {
        self.counted().hash(state);
    }
}

/// A request of any word and any arguments, also of those that will be refused.
impl From<ffi::Request> for Request {
    fn from(raw: ffi::Request) -> Request {
        Request { raw }
    }
}

/// The word and the arguments as the archive takes them.
impl From<&Request> for ffi::Request {
    fn from(request: &Request) -> ffi::Request {
        request.raw
    }
}
