//! Holds the sizes of answers against the archive: nothing is written outside what is declared.
//!
//! On x86-64 Linux an answer of more than 16 bytes is written to the address in a hidden first argument, which comes
//! back. The functions with such answers are declared a second time here, with that argument.
#![cfg(all(target_arch = "x86_64", target_os = "linux"))]

use cementoad_sys::{AUTO_START, Clock, Created, Detailed, ERROR, Received, Request, Updated, VERSION_2};

unsafe extern "C" {
    fn cementoad_create(answer: *mut u8, word: u8, backstop: i64, now: i64) -> *mut u8;
    fn cementoad_update(answer: *mut u8, clock: Clock, request: Request, now: i64) -> *mut u8;
    fn cementoad_get_details(answer: *mut u8, clock: Clock, now: i64) -> *mut u8;
    fn cementoad_read_slip(answer: *mut u8, bytes: *const u8, size: usize) -> *mut u8;
    fn cementoad_read_single_slip(answer: *mut u8, bytes: *const u8, size: usize) -> *mut u8;
}

/// Makes the call with an answer of this type amid other bytes, which have to stay. Two fillings see every byte that is
/// written, whatever its value.
fn stays_inside<Answer>(call: impl Fn(*mut u8) -> *mut u8) {
    #[repr(align(16))]
    struct Buffer([u8; 512]);
    const MARGIN: usize = 128;
    for filling in [0xaa, 0x55] {
        let mut buffer = Buffer([filling; 512]);
        let answer = buffer.0[MARGIN..].as_mut_ptr();
        assert_eq!(call(answer), answer, "the hidden argument comes back");
        let (before, rest) = buffer.0.split_at(MARGIN);
        let (answer, behind) = rest.split_at(size_of::<Answer>());
        assert!(answer.iter().any(|byte| *byte != filling), "nothing is written");
        let mut outside = before.iter().chain(behind);
        assert!(outside.all(|byte| *byte == filling), "written outside");
    }
}

/// A plain clock that is started.
fn clock() -> Clock {
    cementoad_sys::cementoad_create(AUTO_START, 0, 0).clock
}

#[test]
fn creations_stay_inside() {
    for now in [0, -1] {
        stays_inside::<Created>(|answer| unsafe { cementoad_create(answer, AUTO_START, 0, now) });
    }
}

#[test]
fn updates_stay_inside() {
    let request = Request { word: VERSION_2 | ERROR, ..Request::default() };
    for now in [0, -1] {
        stays_inside::<Updated>(|answer| unsafe { cementoad_update(answer, clock(), request, now) });
    }
}

#[test]
fn details_stay_inside() {
    for now in [0, -1] {
        stays_inside::<Detailed>(|answer| unsafe { cementoad_get_details(answer, clock(), now) });
    }
}

#[test]
fn received_requests_stay_inside() {
    for read in [cementoad_read_slip, cementoad_read_single_slip] {
        for slip in [[0x08, 0x80, 0x7a, 0x20], [0; 4]] {
            stays_inside::<Received>(|answer| unsafe { read(answer, slip.as_ptr(), slip.len()) });
        }
    }
}
