//! Slips in a row.

use std::iter::FusedIterator;

use crate::archive::check_archive;
use crate::refusal::check;
use crate::{Refusal, Request, ffi};

/// The requests of slips that follow one another in lent bytes.
///
/// At the end of the bytes the row ends, and no bytes at all are a row of no slips. A slip that is refused, with 3, 6,
/// 18, 19 or 31, ends the row too: its refusal is told once, and the rest begins with that slip.
///
/// ```
/// use cementoad::{Refusal, Request, Slips};
///
/// // A set to 1500, a trim by -23 ppm, and a slip cut short.
/// let (set, trim) = (Request::new().synthetic(1500), Request::new().rate(-23));
/// let bytes = [set.to_slip()?, trim.to_slip()?, vec![0x08, 0x80]].concat();
///
/// let mut slips = Slips::new(&bytes);
/// assert_eq!(slips.next(), Some(Ok(set)));
/// assert_eq!(slips.next(), Some(Ok(trim)));
/// assert_eq!(slips.next(), Some(Err(Refusal::TooShort)));
/// assert_eq!(slips.next(), None);
/// assert_eq!(slips.rest(), [0x08, 0x80]);
///
/// // All requests, or the refusal.
/// let all = |bytes| Slips::new(bytes).collect::<Result<Vec<Request>, Refusal>>();
/// assert_eq!(all(&bytes), Err(Refusal::TooShort));
/// assert_eq!(all(&bytes[..14]), Ok(vec![set, trim]));
/// # Ok::<(), Refusal>(())
/// ```
#[must_use = "no slip is read before it is asked for"]
#[derive(Clone, Debug)]
pub struct Slips<'a> {
    rest: &'a [u8],
    /// Whether the slip on the front of the rest was refused.
    refused: bool,
}

impl<'a> Slips<'a> {
    /// The slips in these bytes, of which none is read yet.
    pub const fn new(bytes: &'a [u8]) -> Slips<'a> {
        Slips { rest: bytes, refused: false }
    }

    /// The bytes that no slip has used yet; after a refusal, those from the refused slip on. Where that was only cut
    /// short ([`Refusal::TooShort`]), read on from there once more bytes have come.
    pub const fn rest(&self) -> &'a [u8] {
        self.rest
    }
}

impl Iterator for Slips<'_> {
    type Item = Result<Request, Refusal>;

    fn next(&mut self) -> Option<Result<Request, Refusal>> {
        if self.refused || self.rest.is_empty() {
            return None;
        }
        check_archive();
        let received = ffi::read_slip(self.rest);
        let request = check(received.refusal).map(|()| received.request.into());
        self.refused = request.is_err();
        // A refused slip has used no bytes.
        self.rest = &self.rest[received.length..];
        Some(request)
    }
}

impl FusedIterator for Slips<'_> {}
