//! Whether the declarations and the archive belong together.

use std::sync::atomic::{AtomicBool, Ordering};

use crate::{ABI, cementoad_abi};

/// Whether the archive was found to be of the declared version.
static CHECKED: AtomicBool = AtomicBool::new(false);

/// Compares the archive's version with [`ABI`] at first use; later calls cost one load.
///
/// # Panics
/// Where the versions differ: structs or numbers mean something else there, and no answer can be trusted.
pub fn check_archive() {
    if !CHECKED.load(Ordering::Relaxed) {
        check_version(cementoad_abi());
        CHECKED.store(true, Ordering::Relaxed);
    }
}

fn check_version(archive: u32) {
    assert!(archive == ABI, "the archive is of version {archive}, but version {ABI} is declared");
}

#[cfg(test)]
mod tests {
    use super::*;

    #[test]
    fn the_linked_archive_is_taken() {
        check_archive();
    }

    #[test]
    #[should_panic(expected = "the archive is of version")]
    fn an_older_archive_is_told() {
        check_version(ABI - 1);
    }

    #[test]
    #[should_panic(expected = "the archive is of version")]
    fn a_newer_archive_is_told() {
        check_version(ABI + 1);
    }
}
