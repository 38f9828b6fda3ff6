//! The boundary of the archive that `tools/archive` makes, as `include/cementoad.h` declares it. The crate `cementoad`
//! puts Rust's own idioms around it.
//!
//! Call [`check_archive`] before anything else. Each function takes any numbers and ends; only the pointers of the
//! three slip functions ask for care, which [`read_slip`], [`read_single_slip`] and [`write_slip`] take. Bytes between
//! the fields of a struct may hold anything.
#![deny(missing_docs)]

mod abi;

pub use abi::check_archive;

/// The version of the boundary that is declared here. It goes up with every change of a struct, a function or a number
/// that callers were built with, and with every new refusal. Where [`cementoad_abi`] answers another, nothing else of
/// the archive may be called.
pub const ABI: u32 = 5;

/// The end of the range of times and values, 2^63 - 1.
pub const END: i64 = i64::MAX;

/// The end for synthetic and reference of a version 2 request and slip, 2^61 - 1.
pub const VERSION_2_END: i64 = (1 << 61) - 1;

/// The widest rate adjustment, in parts per million.
pub const MAX_RATE: i32 = 1000;

/// The widest step of a running clock's rate, either way, in parts per million. A start may have any permitted rate.
pub const MAX_RATE_STEP: i32 = 200;

/// The error bound that means unknown.
pub const UNKNOWN_ERROR: u64 = u64::MAX;

/// The bytes of the longest slip.
pub const LONGEST_SLIP: usize = 28;

/// The bit of a creation word for a clock whose readings never fall while the times don't.
pub const MONOTONIC: u8 = 128;

/// The bit of a creation word for a clock whose line is never broken. It asks for [`MONOTONIC`] too.
pub const CONTINUOUS: u8 = 64;

/// The bit of a creation word for a clock that starts at creation, as the line from 0 at 0.
pub const AUTO_START: u8 = 32;

/// The older version of an update word, its top six bits.
pub const VERSION_2: u64 = 2 << 58;

/// The newer version of an update word, for a synthetic or a reference past [`VERSION_2_END`].
pub const VERSION_3: u64 = 3 << 58;

/// The flag of the value to set.
pub const SYNTHETIC: u64 = 1 << 57;

/// The flag of the reference time at which the new line has its value.
pub const REFERENCE: u64 = 1 << 56;

/// The flag of the rate adjustment.
pub const RATE: u64 = 1 << 55;

/// The flag of the error bound.
pub const ERROR: u64 = 1 << 54;

/// The refusal of an answer in which nothing is refused.
pub const NO_REFUSAL: u8 = 0;

/// The refusal, not of the paper and checked before all others, of what fails the test that is told at [`Clock`].
pub const NOT_A_CLOCK: u8 = 255;

/// A line. At `reference` it stands at `synthetic` nanoseconds and `remainder` millionths of a nanosecond; in each
/// nanosecond it gains 1,000,000 + `rate` millionths. Its value at a time is where it stands then, rounded down to a
/// whole nanosecond, also before `reference`.
#[repr(C)]
#[derive(Clone, Copy, Debug, Default, PartialEq, Eq, Hash)]
pub struct Line {
    /// The reference time at which the line begins, in nanoseconds.
    pub reference: i64,
    /// The line's value there, in nanoseconds.
    pub synthetic: i64,
    /// How far above that the line stands there, in millionths of a nanosecond, 0 to 999,999. It is 0 at a start and
    /// where a value is set; a rate alone takes it, as it takes the value, from where the old line stands.
    pub remainder: u32,
    /// The rate adjustment, in parts per million.
    pub rate: i32,
}

/// A clock. Each call on one first tests what it is handed, and is refused with [`NOT_A_CLOCK`] unless creation would
/// take the word and the backstop at the latest time, and
/// - `started` is 1, the line's reference and synthetic lie in 0..END, its remainder in 0..999,999 and its rate in
///   -1000..1000, and its value at the latest time is not below the backstop; or
/// - `started` is 0, auto start is not set, and line, error and generation are as creation leaves them.
///
/// So zeros are no clock. Of a made-up clock that passes nothing is promised but this: each call ends and answers by
/// the same rules, what an update hands back passes again, readings lie in 0..END and not under the backstop, and a
/// refused update hands back every field as it was.
#[repr(C)]
#[derive(Clone, Copy, Debug, Default, PartialEq, Eq, Hash)]
pub struct Clock {
    /// The line that the clock follows, zeros before the start.
    pub line: Line,
    /// The value below which the clock never reads.
    pub backstop: i64,
    /// The time of the latest accepted update, or of creation.
    pub latest: i64,
    /// The error bound in nanoseconds, [`UNKNOWN_ERROR`] where it is unknown.
    pub error: u64,
    /// 1 at creation, one more with each accepted update, from 2^32 - 1 on to 0.
    pub generation: u32,
    /// The creation word.
    pub word: u8,
    /// 1 once the clock is started, 0 before.
    pub started: u8,
}

/// An update's word and arguments. The word's flags say which arguments count, its version where synthetic and
/// reference end: at [`VERSION_2_END`] or at [`END`].
#[repr(C)]
#[derive(Clone, Copy, Debug, Default, PartialEq, Eq, Hash)]
pub struct Request {
    /// The version and the flags.
    pub word: u64,
    /// The value to set, in nanoseconds.
    pub synthetic: i64,
    /// The reference time at which the new line has its value, in nanoseconds.
    pub reference: i64,
    /// The rate adjustment, in parts per million.
    pub rate: i32,
    /// The error bound in nanoseconds, [`UNKNOWN_ERROR`] where it is unknown.
    pub error: u64,
}

/// A new clock, or zeros with a refusal.
#[repr(C)]
#[derive(Clone, Copy, Debug, PartialEq, Eq)]
pub struct Created {
    /// The new clock.
    pub clock: Clock,
    /// The refusal's number, 0 for none.
    pub refusal: u8,
}

/// The clock after an update, or with a refusal what was handed in, unaltered, whether it is a clock or not.
#[repr(C)]
#[derive(Clone, Copy, Debug, PartialEq, Eq)]
pub struct Updated {
    /// The clock after the update.
    pub clock: Clock,
    /// The refusal's number, 0 for none.
    pub refusal: u8,
}

/// A reading, 0 where it is refused.
#[repr(C)]
#[derive(Clone, Copy, Debug, PartialEq, Eq)]
pub struct Reading {
    /// The refusal's number, 0 for none.
    pub refusal: u8,
    /// The clock's value, in nanoseconds.
    pub value: i64,
}

/// What a clock tells of itself at a time.
#[repr(C)]
#[derive(Clone, Copy, Debug, Default, PartialEq, Eq, Hash)]
pub struct Details {
    /// Whether the clock is started.
    pub started: bool,
    /// The line that the clock follows, zeros before the start.
    pub line: Line,
    /// The error bound in nanoseconds, [`UNKNOWN_ERROR`] where it is unknown.
    pub error: u64,
    /// One more with each accepted update, from 2^32 - 1 on to 0. Where two records of one clock, neither of them
    /// refused, have the same, and fewer than 2^32 updates were accepted between, none was.
    pub generation: u32,
    /// The time of the latest accepted update, or of creation.
    pub latest: i64,
    /// The creation word.
    pub word: u8,
    /// The value below which the clock never reads.
    pub backstop: i64,
    /// The time at which the details were asked for.
    pub now: i64,
}

impl Details {
    /// The error bound in nanoseconds, or `None` where it is unknown.
    pub fn error_bound(&self) -> Option<u64> {
        (self.error != UNKNOWN_ERROR).then_some(self.error)
    }
}

/// Details beside their refusal, which leaves them zeros.
#[repr(C)]
#[derive(Clone, Copy, Debug, PartialEq, Eq)]
pub struct Detailed {
    /// The refusal's number, 0 for none.
    pub refusal: u8,
    /// What the clock tells of itself.
    pub details: Details,
}

/// A request that was read from a slip, and how many bytes the slip used; zeros where it is refused.
#[repr(C)]
#[derive(Clone, Copy, Debug, PartialEq, Eq)]
pub struct Received {
    /// The slip's request.
    pub request: Request,
    /// How many bytes the slip used, from the first of those that were lent.
    pub length: usize,
    /// The refusal's number, 0 for none.
    pub refusal: u8,
}

/// How many bytes of a slip were written, 0 where it is refused.
#[repr(C)]
#[derive(Clone, Copy, Debug, PartialEq, Eq)]
pub struct Written {
    /// The slip's bytes, at the front of the buffer.
    pub length: usize,
    /// The refusal's number, 0 for none.
    pub refusal: u8,
}

// The safe ones take and give numbers alone, and each is proved to end and answer for any of them.
unsafe extern "C" {
    /// The archive's version, to be compared with [`ABI`].
    pub safe fn cementoad_abi() -> u32;

    /// A clock, or refusal 1, 3, 15, 16 or 17.
    pub safe fn cementoad_create(word: u8, backstop: i64, now: i64) -> Created;

    /// The clock's value at now, or refusal 1, 2, 12 or 255.
    pub safe fn cementoad_read(clock: Clock, now: i64) -> Reading;

    /// The clock as the request leaves it, or unaltered with refusal 1 to 14, 22 or 255.
    pub safe fn cementoad_update(clock: Clock, request: Request, now: i64) -> Updated;

    /// What the clock tells of itself at now, or refusal 1, 2 or 255.
    pub safe fn cementoad_get_details(clock: Clock, now: i64) -> Detailed;

    /// Whether it is a clock and started.
    pub safe fn cementoad_is_started(clock: Clock) -> bool;

    /// The request of the slip on the front of the bytes, whatever follows it, or refusal 3, 6, 18, 19 or 31. The word
    /// has the slip's version.
    ///
    /// # Safety
    /// `bytes` points to `size` bytes that can be read, and is not null, also where `size` is 0.
    pub unsafe fn cementoad_read_slip(bytes: *const u8, size: usize) -> Received;

    /// The request of a slip that is all of the bytes, or refusal 3, 6, 18, 19, 31 or, tested last, 20.
    ///
    /// # Safety
    /// `bytes` points to `size` bytes that can be read, and is not null, also where `size` is 0.
    pub unsafe fn cementoad_read_single_slip(bytes: *const u8, size: usize) -> Received;

    /// Writes the request as a slip to the front of the buffer, or answers refusal 3, 5, 6 or 21 and writes nothing.
    /// The slip has version 2 where no flagged synthetic or reference lies past [`VERSION_2_END`], else version 3.
    ///
    /// # Safety
    /// `buffer` points to `size` bytes that are initialised and can be written, and is not null, also where `size` is
    /// 0.
    pub unsafe fn cementoad_write_slip(request: Request, buffer: *mut u8, size: usize) -> Written;

    /// How many bytes the request's slip has: what writing it answers, given room. 0 where writing it is refused with
    /// 3, 5 or 6, whatever the room.
    pub safe fn cementoad_slip_length(request: Request) -> usize;
}

/// As [`cementoad_read_slip`], of lent bytes.
#[inline]
pub fn read_slip(bytes: &[u8]) -> Received {
    // SAFETY: pointer and size are those of one slice, whose pointer is never null.
    unsafe { cementoad_read_slip(bytes.as_ptr(), bytes.len()) }
}

/// As [`cementoad_read_single_slip`], of lent bytes.
#[inline]
pub fn read_single_slip(bytes: &[u8]) -> Received {
    // SAFETY: pointer and size are those of one slice, whose pointer is never null.
    unsafe { cementoad_read_single_slip(bytes.as_ptr(), bytes.len()) }
}

/// As [`cementoad_write_slip`], to a lent buffer.
#[inline]
pub fn write_slip(request: Request, buffer: &mut [u8]) -> Written {
    // SAFETY: pointer and size are those of one slice that is lent for writing, whose pointer is never null.
    unsafe { cementoad_write_slip(request, buffer.as_mut_ptr(), buffer.len()) }
}
