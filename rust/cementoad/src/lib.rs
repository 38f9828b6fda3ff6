//! A clock for machines that stamp bookings, and its update slips.
//!
//! The work is done by a static archive whose source, in Rattle, is proved: each answer is exactly the one that the
//! rules give, for any words, numbers, times and bytes that are handed in. Not proved but assumed are the back end that
//! made machine code of that source, and the declarations here, which tests compare with the archive.
//!
//! This crate puts Rust's own idioms around the archive and decides nothing but which requests are equal. It panics at
//! first use where the archive is of another version than the one it was written for. Times and values are whole
//! nanoseconds in 0..[`Clock::END`], rates are whole parts per million, and each call is handed its own now.
//!
//! ```
//! use cementoad::{Clock, Refusal, Request};
//!
//! // A plain clock is started, and read.
//! let mut clock = Clock::create(0, 0, 0)?;
//! clock.update(&Request::new().synthetic(1500), 100)?;
//! assert_eq!(clock.read(350), Ok(1750));
//!
//! // A request travels as a slip, and trims the clock. `Slips` reads several in a row.
//! let slip = Request::new().rate(-23).to_slip()?;
//! assert_eq!(slip, [0x08, 0x80, 0x7a, 0x20]);
//! clock.update(&Request::from_slip(&slip)?, 1_000_100)?;
//! assert_eq!(clock.read(2_000_100), Ok(2_001_477));
//!
//! // A refusal leaves the clock unaltered.
//! assert_eq!(clock.update(&Request::new().rate(1001), 2_000_100), Err(Refusal::RateOutside));
//! assert_eq!(clock.read(2_000_100), Ok(2_001_477));
//! # Ok::<(), Refusal>(())
//! ```
#![deny(missing_docs)]

mod archive;
mod clock;
mod refusal;
mod request;
mod slips;

#[cfg(doctest)]
#[doc = include_str!("../../../README.md")]
struct Readme;

pub use cementoad_sys as ffi;
pub use cementoad_sys::{Details, Line};
pub use clock::Clock;
pub use refusal::{Refusal, UnknownRefusal};
pub use request::Request;
pub use slips::Slips;
