//! The rival's slips (01, 'The update slip'): packed fields, most significant bit first, gathered by whole bytes.

use cementoad_sys::{ERROR, RATE, REFERENCE, Request, SYNTHETIC, VERSION_2, VERSION_3};

use super::{Asked, VERSION_2_END, answer, is_version_2, refuse, wrong_word};

const HEADER_BITS: usize = 16;

/// The fields behind the header of this word in their order, each with its flag and its bits.
fn fields(word: u64) -> [(u64, usize); 4] {
    let time = if is_version_2(word) { 61 } else { 63 };
    [(SYNTHETIC, time), (REFERENCE, time), (RATE, 11), (ERROR, 64)]
}

/// The bits of a slip with this word, without its padding.
fn slip_bits(word: u64) -> usize {
    let flagged = fields(word).into_iter().filter(|(flag, _)| word & flag != 0);
    HEADER_BITS + flagged.map(|(_, bits)| bits).sum::<usize>()
}

/// The word as the slip of a request has it: version 2 wherever that holds the flagged times (02, R-11).
fn slip_word(word: u64, asked: &Asked) -> u64 {
    let version = if asked.is_outside(VERSION_2_END) { VERSION_3 } else { VERSION_2 };
    version | word & !VERSION_3
}

/// The word of the request's slip, or refusal 3, 5 or 6.
fn word_written(request: &Request) -> Result<u64, u8> {
    let asked = Asked::of(request);
    refuse(3, wrong_word(request.word))?;
    refuse(5, asked.value_outside(request.word))?;
    refuse(6, asked.rate_outside())?;
    Ok(slip_word(request.word, &asked))
}

/// The whole bytes of a slip with this word.
fn whole_bytes(word: u64) -> usize {
    slip_bits(word).div_ceil(8)
}

/// The whole bytes of the request's slip, or 0.
pub fn slip_length(request: &Request) -> usize {
    word_written(request).map_or(0, whole_bytes)
}

/// The request of the slip on the front of the bytes, and how many of them it used, or zeros (02, R-5).
pub fn read_slip(bytes: &[u8]) -> (u8, Request, usize) {
    let (refusal, (request, length)) = answer(request_received(bytes), (Request::default(), 0));
    (refusal, request, length)
}

/// The request of a slip that is all of the bytes, and how many they are, or zeros.
pub fn read_single_slip(bytes: &[u8]) -> (u8, Request, usize) {
    match read_slip(bytes) {
        (0, _, length) if length < bytes.len() => (20, Request::default(), 0),
        received => received,
    }
}

fn request_received(bytes: &[u8]) -> Result<(Request, usize), u8> {
    let mut bits = BitReader { bytes, place: 0 };
    refuse(18, bytes.len() < 2)?;
    let word = bits.take(HEADER_BITS) << 48;
    refuse(3, wrong_word(word))?;
    let length = whole_bytes(word);
    refuse(18, bytes.len() < length)?;
    let mut values = [0; 4];
    for (value, (flag, width)) in values.iter_mut().zip(fields(word)) {
        if word & flag != 0 {
            *value = bits.take(width);
        }
    }
    let [synthetic, reference, rate, error] = values;
    let padding = bits.take(8 * length - slip_bits(word));
    refuse(6, rate > 2000)?;
    refuse(19, padding != 0)?;
    let request = Request {
        word,
        synthetic: synthetic as i64,
        reference: reference as i64,
        rate: if word & RATE != 0 { rate as i32 - 1000 } else { 0 },
        error,
    };
    refuse(31, word != slip_word(word, &Asked::of(&request)))?;
    Ok((request, length))
}

/// Writes the request as a slip to the front of the buffer: the slip's length, or 0 and an untouched buffer.
pub fn write_slip(request: &Request, buffer: &mut [u8]) -> (u8, usize) {
    answer(slip_written(request, buffer), 0)
}

fn slip_written(request: &Request, buffer: &mut [u8]) -> Result<usize, u8> {
    let word = word_written(request)?;
    let length = whole_bytes(word);
    refuse(21, buffer.len() < length)?;
    buffer[..length].fill(0);
    let mut bits = BitWriter { bytes: buffer, place: 0 };
    bits.put(HEADER_BITS, word >> 48);
    let rate = (i128::from(request.rate) + 1000) as u64;
    let values = [request.synthetic as u64, request.reference as u64, rate, request.error];
    for (value, (flag, width)) in values.into_iter().zip(fields(word)) {
        if word & flag != 0 {
            bits.put(width, value);
        }
    }
    Ok(length)
}

/// Takes fields off lent bytes.
struct BitReader<'a> {
    bytes: &'a [u8],
    place: usize,
}

impl BitReader<'_> {
    /// The next field of at most 64 bits.
    fn take(&mut self, width: usize) -> u64 {
        let end = self.place + width;
        let mut gathered: u128 = 0;
        for at in self.place / 8..end.div_ceil(8) {
            gathered = gathered << 8 | u128::from(self.bytes[at]);
        }
        self.place = end;
        (gathered >> (end.next_multiple_of(8) - end)) as u64 & low_bits(width)
    }
}

/// Puts fields into lent bytes that are zeros.
struct BitWriter<'a> {
    bytes: &'a mut [u8],
    place: usize,
}

impl BitWriter<'_> {
    /// Puts a field's lowest bits next.
    fn put(&mut self, width: usize, field: u64) {
        let end = self.place + width;
        let mut rest = u128::from(field & low_bits(width)) << (end.next_multiple_of(8) - end);
        for at in (self.place / 8..end.div_ceil(8)).rev() {
            self.bytes[at] |= rest as u8;
            rest >>= 8;
        }
        self.place = end;
    }
}

fn low_bits(width: usize) -> u64 {
    ((1u128 << width) - 1) as u64
}
