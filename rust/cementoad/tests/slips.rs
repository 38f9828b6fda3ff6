//! Slips in a row: in which order they come, how often a refusal is told, and whose bytes are left. Which requests they
//! give and where they stop, the comparison with the second program sees.

use cementoad::{Clock, Refusal, Request, Slips, ffi};

/// A request for each set of flags, and one that needs version 3.
fn requests() -> impl Iterator<Item = Request> {
    let request = ffi::Request { word: 0, synthetic: 1500, reference: 100, rate: -23, error: 40 };
    let older = (0..16).map(move |flags| ffi::Request { word: Request::VERSION_2 | flags << 54, ..request }.into());
    older.chain([Request::version_3().synthetic(Clock::VERSION_2_END + 1)])
}

/// The slips of those, one after another, and then these bytes.
fn row(behind: &[u8]) -> Vec<u8> {
    let slips = requests().flat_map(|request| request.to_slip().unwrap());
    slips.chain(behind.iter().copied()).collect()
}

#[test]
fn slips_come_in_their_order_to_the_end() {
    let bytes = row(&[]);
    let mut slips = Slips::new(&bytes);
    let read: Result<Vec<Request>, Refusal> = slips.by_ref().collect();
    assert_eq!(read, Ok(requests().collect()));
    assert!(slips.rest().is_empty());
}

#[test]
fn a_refusal_is_told_once_and_the_rest_begins_with_its_slip() {
    let bytes = row(&[0x08, 0x80, 0x7a, 0x21, 0x08, 0x00]);
    let mut slips = Slips::new(&bytes);
    assert!(slips.by_ref().take(requests().count()).eq(requests().map(Ok)));
    for told in [Some(Err(Refusal::PaddingSet)), None, None] {
        assert_eq!(slips.next(), told);
        assert_eq!(slips.rest().as_ptr_range(), bytes[bytes.len() - 6..].as_ptr_range());
    }
}
