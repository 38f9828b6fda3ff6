//! The check of the archive's version. It stands on every way into the archive: in creation, without which there is no
//! clock to call with, and in the slip functions.

#[cfg(not(test))]
pub use cementoad_sys::check_archive;
#[cfg(test)]
pub use tests::check_archive;

#[cfg(test)]
mod tests {
    use std::cell::Cell;

    use crate::{Clock, Request, Slips};

    thread_local! {
        static CHECKED: Cell<bool> = const { Cell::new(false) };
    }

    /// Stands in for the check and notes that it was made.
    pub fn check_archive() {
        CHECKED.set(true);
    }

    #[test]
    fn every_way_into_the_archive_is_checked() {
        let ways: [fn() -> bool; 6] = [
            || Clock::create(0, 0, 0).is_ok(),
            || Request::from_slip(&[0x08, 0x00]).is_ok(),
            || Slips::new(&[0x08, 0x00]).next().is_some(),
            || Request::new().to_slip().is_ok(),
            || Request::new().write_slip(&mut [0; 2]).is_ok(),
            || Request::new().slip_length() == 2,
        ];
        for way in ways {
            CHECKED.set(false);
            assert!(way());
            assert!(CHECKED.get());
        }
    }
}
