//! The update slip, read and written (01, The update slip; of slips in a row 02, R-5; of both versions R-11).

use crate::clock::{
    ERROR, MAX_RATE, RATE, REFERENCE, Request, SYNTHETIC, VERSION, VERSION_2, VERSION_2_END, VERSION_3, bad_rate,
    bad_time, bad_word, first, flags_outside,
};

/// The bits of the header, the top of the update word.
const HEADER: usize = 16;

/// The bits of a synthetic value or a reference time in a slip that has this word's version.
pub fn time_width(word: u64) -> usize {
    if word & VERSION == VERSION_3 { 63 } else { 61 }
}

/// The fields in the order of the slip, each with its flag and its bits.
fn fields(word: u64) -> [(u64, usize); 4] {
    let time = time_width(word);
    [(SYNTHETIC, time), (REFERENCE, time), (RATE, 11), (ERROR, 64)]
}

/// The whole bytes that a slip's header calls for, by its version and its flags.
pub fn called_for(word: u64) -> usize {
    let mut bits = HEADER;
    for (flag, width) in fields(word) {
        if word & flag != 0 {
            bits += width;
        }
    }
    bits.div_ceil(8)
}

/// The word as a slip has it: version 2 where that holds what is flagged, whichever version the request's word has.
fn slip_word(request: &Request) -> u64 {
    let version = if flags_outside(request, VERSION_2_END) { VERSION_3 } else { VERSION_2 };
    version | request.word & !VERSION
}

/// The whole bytes of the request's slip; 0 where writing it is refused whatever the buffer is.
pub fn slip_length(request: &Request) -> usize {
    let refused = bad_word(request.word) || bad_time(request) || bad_rate(request);
    if refused { 0 } else { called_for(slip_word(request)) }
}

/// The lent bytes and a place in them, in bits.
struct Reader<'a> {
    bytes: &'a [u8],
    place: usize,
}

impl Reader<'_> {
    /// The number in the next so many bits, the most significant first.
    fn take(&mut self, width: usize) -> u64 {
        let mut field = 0;
        for _ in 0..width {
            let bit = (self.bytes[self.place / 8] >> (7 - self.place % 8)) & 1;
            field = (field << 1) | u64::from(bit);
            self.place += 1;
        }
        field
    }
}

/// Reads the slip on the front: word and arguments, those without a flag being 0, and the bytes behind it. Refused, it
/// gives zeros and all the bytes.
pub fn read_slip(bytes: &[u8]) -> (u8, Request, &[u8]) {
    let zeros = Request::default();
    if bytes.len() < 2 {
        return (18, zeros, bytes);
    }
    let mut reader = Reader { bytes, place: 0 };
    let word = reader.take(HEADER) << 48;
    if bad_word(word) {
        return (3, zeros, bytes);
    }
    let length = called_for(word);
    if bytes.len() < length {
        return (18, zeros, bytes);
    }
    let mut request = Request { word, ..zeros };
    for (flag, width) in fields(word) {
        if request.has(flag) {
            set_field(&mut request, flag, reader.take(width));
        }
    }
    let padding = length * 8 - reader.place;
    let refusal = first(&[
        (6, i128::from(request.rate) + MAX_RATE > 2000),
        (19, reader.take(padding) != 0),
        (31, word != slip_word(&request)),
    ]);
    if refusal == 0 { (0, request, &bytes[length..]) } else { (refusal, zeros, bytes) }
}

/// Reads a single slip, behind which nothing may follow. Refused, it gives zeros.
pub fn read_single_slip(bytes: &[u8]) -> (u8, Request) {
    match read_slip(bytes) {
        (0, _, rest) if !rest.is_empty() => (20, Request::default()),
        (refusal, request, _) => (refusal, request),
    }
}

/// Reads slips one after another, up to the end or to one that is refused: its refusal, 0 at the end, what the slips
/// before it say, and the bytes from it on.
pub fn read_row(bytes: &[u8]) -> (u8, Vec<Request>, &[u8]) {
    let (mut requests, mut rest) = (Vec::new(), bytes);
    while !rest.is_empty() {
        let (refusal, request, behind) = read_slip(rest);
        if refusal != 0 {
            return (refusal, requests, rest);
        }
        requests.push(request);
        rest = behind;
    }
    (0, requests, rest)
}

/// Writes a slip into the buffer's first bytes and gives its length. Refused, it writes nothing and gives 0.
pub fn write_slip(request: &Request, buffer: &mut [u8]) -> (u8, usize) {
    let slip = Request { word: slip_word(request), ..*request };
    let length = called_for(slip.word);
    let refusal = first(&[
        (3, bad_word(request.word)),
        (5, bad_time(request)),
        (6, bad_rate(request)),
        (21, buffer.len() < length),
    ]);
    if refusal != 0 {
        return (refusal, 0);
    }
    for (byte, packed) in buffer.iter_mut().zip(packed(&slip)) {
        *byte = packed;
    }
    (0, length)
}

/// The request packed in the version that its word has, whether or not a slip has that version.
pub fn packed(request: &Request) -> Vec<u8> {
    let mut bits = Vec::new();
    push(&mut bits, HEADER, request.word >> 48);
    for (flag, width) in fields(request.word) {
        if request.has(flag) {
            push(&mut bits, width, field(request, flag));
        }
    }
    bits.resize(called_for(request.word) * 8, false);
    bits.chunks(8).map(|eight| eight.iter().fold(0, |byte, bit| (byte << 1) | u8::from(*bit))).collect()
}

/// Adds a number's last so many bits, the most significant first.
fn push(bits: &mut Vec<bool>, width: usize, number: u64) {
    for place in (0..width).rev() {
        bits.push((number >> place) & 1 == 1);
    }
}

/// The argument of this flag as the slip has it; a rate from 0 up.
fn field(request: &Request, flag: u64) -> u64 {
    match flag {
        SYNTHETIC => request.synthetic as u64,
        REFERENCE => request.reference as u64,
        RATE => (i128::from(request.rate) + MAX_RATE) as u64,
        _ => request.error,
    }
}

/// Takes the argument of this flag out of its field.
fn set_field(request: &mut Request, flag: u64, field: u64) {
    match flag {
        SYNTHETIC => request.synthetic = field as i64,
        REFERENCE => request.reference = field as i64,
        RATE => request.rate = (i128::from(field) - MAX_RATE) as i32,
        _ => request.error = field,
    }
}
