//! Read program files (02 §12), from its words.

use crate::calls::{by_handle, contents, Number, ACCEPTED, LEVEL, READING_LEVEL};
use crate::geometry::Geometry;
use crate::handle::Handle;

/// "31 unknown code"
pub const UNKNOWN_CODE: Number = 31;
/// "32 file ends inside a record or before a start address"
pub const FILE_ENDS: Number = 32;
/// "33 bad count"
pub const BAD_COUNT: Number = 33;
/// "12 if the buffer is under 255 bytes"
pub const LEAST_BUFFER: usize = 255;

/// What a reader is told at a place of a load file.
#[derive(Clone, Debug, PartialEq, Eq)]
pub enum Told {
    /// "one record at a time with address and bytes"; the place behind it.
    Data { address: usize, bytes: Vec<u8>, behind: usize },
    /// "02 with a start address ends it"
    Start { address: usize },
    /// A number, "each with its byte position (32: the file's size)".
    Refused(Number, usize),
}

/// "a two-byte address, low byte first"
fn address(bytes: &[u8]) -> usize {
    u16::from_le_bytes([bytes[0], bytes[1]]).into()
}

/// What stands in the file from a place on, comments skipped. "The first in file order is told."
pub fn told(file: &[u8], at: usize) -> Told {
    let mut left = file.get(at..).unwrap_or_default();
    loop {
        let place = file.len() - left.len();
        let ends = Told::Refused(FILE_ENDS, file.len());
        let Some((&code, behind_code)) = left.split_first() else { return ends };
        if ![1, 2, 5].contains(&code) {
            return Told::Refused(UNKNOWN_CODE, place);
        }
        let Some((&count, behind_count)) = behind_code.split_first() else { return ends };
        // "Code 02 must have count 2."
        if code == 2 && count != 2 {
            return Told::Refused(BAD_COUNT, place + 1);
        }
        let follow = match (code, count) {
            // "Counts 0 and 1 in code 01 mean 254 and 255 data bytes"
            (1, 0) => 2 + 254,
            (1, 1) => 2 + 255,
            // "the count less two data bytes", behind the two of the address; "A comment's count is its number of bytes."
            _ => count.into(),
        };
        let Some(body) = behind_count.get(..follow) else { return ends };
        match code {
            1 => {
                return Told::Data { address: address(body), bytes: body[2..].to_vec(), behind: place + 2 + follow }
            }
            2 => return Told::Start { address: address(body) },
            // "05 is a comment and is skipped"
            _ => left = &behind_count[follow..],
        }
    }
}

/// "reading the file whole and cutting it": the records, then what ends them.
pub fn cut(file: &[u8]) -> (Vec<(usize, Vec<u8>)>, Told) {
    let (mut records, mut at) = (Vec::new(), 0);
    loop {
        match told(file, at) {
            Told::Data { address, bytes, behind } => {
                records.push((address, bytes));
                at = behind;
            }
            end => return (records, end),
        }
    }
}

/// Load record: kind, address, count and position go out; 1 is data, 2 a start address.
#[allow(clippy::too_many_arguments)]
pub fn load_record(
    image: &[u8],
    g: &Geometry,
    handle: &mut [u8],
    buffer: &mut [u8],
    kind: &mut usize,
    address: &mut usize,
    count: &mut usize,
    position: &mut usize,
) -> Number {
    (*kind, *address, *count, *position) = (0, 0, 0, 0);
    let (d, h) = match by_handle(image, g, handle, |_| buffer.len() >= LEAST_BUFFER) {
        Ok(found) => found,
        Err(number) => return number,
    };
    if h.level > READING_LEVEL {
        return LEVEL;
    }
    match told(&contents(image, g, d, h.slot), h.position()) {
        Told::Refused(number, place) => {
            *position = place;
            return number;
        }
        Told::Data { address: for_these, bytes, behind } => {
            (*kind, *address, *count) = (1, for_these, bytes.len());
            buffer[..bytes.len()].copy_from_slice(&bytes);
            Handle { position: behind as u32, ..h }.store(handle);
        }
        Told::Start { address: here } => (*kind, *address) = (2, here),
    }
    ACCEPTED
}
