//! Play back a recorded session: document 02, §6. The trace is read bit by bit, "packed in bits, most significant first",
//! as a queue of single bits; the calls are the model's own, one after the other, each with all its tests.

use crate::calls::{self, number, tested, Birth, Number};
use crate::geometry::Geometry;
use crate::handle::HANDLE_BYTES;
use crate::names::FULL_NAME_BYTES;

/// "14, trace malformed"
pub const TRACE: Number = 14;
/// "15, no room for the results"
pub const NO_ROOM: Number = 15;

/// "calls of 56 bits: operation 3, file number 5, position 24, length 9, fill byte 8, zero 7"
const WIDTHS: [usize; 6] = [3, 5, 24, 9, 8, 7];
const CALL_BITS: usize = 56;

/// A call of the trace, its fields as they stand; the last is the zero field.
#[derive(Clone, Copy, Debug, PartialEq, Eq)]
pub struct Recorded {
    pub operation: usize,
    pub file: usize,
    pub position: usize,
    pub length: usize,
    pub fill: usize,
    pub zero: usize,
}

/// What is read of a trace, or the bit at which it is bad.
pub type Read = Result<(Vec<Vec<u8>>, Vec<Recorded>), usize>;

/// The bits of a trace, and the place of the next one.
struct Bits<'a> {
    trace: &'a [u8],
    at: usize,
}

impl Bits<'_> {
    fn left(&self) -> usize {
        8 * self.trace.len() - self.at
    }

    /// The next so many bits as a number, the first the highest.
    fn take(&mut self, width: usize) -> usize {
        (0..width).fold(0, |number, _| {
            let bit = self.trace[self.at / 8] >> (7 - self.at % 8) & 1;
            self.at += 1;
            2 * number + usize::from(bit)
        })
    }
}

/// Whether an operation uses a field: "Create uses file number and length; writes and read use position and length, the
/// writes the fill byte too"; of allot "position is the sector". The file number is every call's, the end mark's none.
fn uses(operation: usize, field: usize) -> bool {
    match field {
        0 => true,
        1 => operation != 0,
        2 => [2, 3, 4, 7].contains(&operation),
        3 => [1, 2, 3, 7].contains(&operation),
        4 => [2, 3].contains(&operation),
        _ => false,
    }
}

/// The whole trace. "A trace that is bad, or ends without operation 0, is refused before anything runs; a cut-off call's
/// fields aren't judged .. with the position of the first bit of the first bad field, or the trace's length in bits if it
/// breaks off".
pub fn read(trace: &[u8]) -> Read {
    let whole = 8 * trace.len();
    let mut bits = Bits { trace, at: 0 };
    if bits.left() < 8 {
        return Err(whole);
    }
    // "First 8 bits: the number of names, 1 to 32, then 11 bytes for each."
    let count = bits.take(8);
    if !(1..=32).contains(&count) {
        return Err(0);
    }
    if bits.left() < 8 * FULL_NAME_BYTES * count {
        return Err(whole);
    }
    let names = (0..count).map(|_| (0..FULL_NAME_BYTES).map(|_| bits.take(8) as u8).collect()).collect();
    let mut calls = Vec::new();
    loop {
        if bits.left() < CALL_BITS {
            return Err(whole);
        }
        let mut fields = [0; WIDTHS.len()];
        for (i, &width) in WIDTHS.iter().enumerate() {
            let start = bits.at;
            fields[i] = bits.take(width);
            // "Fields a call doesn't use must be zero, and a file number must be below the number of names."
            let good = if uses(fields[0], i) { i != 1 || fields[i] < count } else { fields[i] == 0 };
            if !good {
                return Err(start);
            }
        }
        let [operation, file, position, length, fill, zero] = fields;
        // "Operation 0, also 56 bits, ends it; later bytes aren't read."
        if operation == 0 {
            return Ok((names, calls));
        }
        calls.push(Recorded { operation, file, position, length, fill, zero });
    }
}

/// The bytes of a trace, whatever the fields hold: each number in its bits, the end mark behind the last call.
pub fn pack(names: &[Vec<u8>], calls: &[Recorded]) -> Vec<u8> {
    let mut bits: Vec<u8> = Vec::new();
    let mut put = |number: usize, width: usize| {
        bits.extend((0..width).rev().map(|i| (number >> i & 1) as u8));
    };
    put(names.len(), 8);
    names.iter().flatten().for_each(|&byte| put(byte.into(), 8));
    let end = Recorded { operation: 0, file: 0, position: 0, length: 0, fill: 0, zero: 0 };
    for call in calls.iter().chain([&end]) {
        let fields = [call.operation, call.file, call.position, call.length, call.fill, call.zero];
        fields.iter().zip(WIDTHS).for_each(|(&number, width)| put(number, width));
    }
    bits.chunks(8).map(|byte| byte.iter().fold(0, |number, bit| 2 * number + bit)).collect()
}

/// One call of the trace: its result.
fn made(image: &mut [u8], g: &Geometry, name: &[u8], call: &Recorded) -> Number {
    let mut handle = [0; HANDLE_BYTES];
    // "Dates and codes are zero, checking is off"
    if call.operation == 1 {
        let birth =
            Birth { day: 0, month: 0, year: 0, length: call.length, main_code: 0, worker_code: 0, checking: false };
        return calls::create(image, g, name, &birth, &mut 0, &mut handle, &mut 0);
    }
    // "handles come from a fresh open before each call but create, with the call's length, or 256 where it uses none"
    let length = if uses(call.operation, 3) { call.length } else { 256 };
    let opened = calls::open(image, g, name, length, false, 0, &mut handle, &mut 0);
    // "a refused open is that call's result"
    if opened != 0 {
        return opened;
    }
    // "writes and read then set the position"
    if matches!(call.operation, 2 | 3 | 7) {
        handle[4..8].copy_from_slice(&(call.position as u32).to_le_bytes());
    }
    match call.operation {
        2 | 3 => {
            calls::write_record(image, g, &mut handle, call.operation == 2, &vec![call.fill as u8; call.length])
        }
        4 => calls::allot(image, g, &handle, call.position),
        5 => calls::trim(image, g, &handle),
        6 => calls::kill(image, g, &handle),
        _ => calls::read_record(image, g, &mut handle, &mut vec![0; call.length]),
    }
}

/// Play back. `byte` and `bit` are the place of a bad trace, `calls` how many results there are.
pub fn play(
    image: &mut [u8],
    g: &Geometry,
    trace: &[u8],
    results: &mut [u8],
    calls: &mut usize,
    byte: &mut usize,
    bit: &mut usize,
) -> Number {
    (*calls, *byte, *bit) = (0, 0, 0);
    number(tested(image, g).and_then(|_| {
        let (names, recorded) = read(trace).map_err(|place| {
            (*byte, *bit) = (place / 8, place % 8);
            TRACE
        })?;
        if results.len() < recorded.len() {
            return Err(NO_ROOM);
        }
        // "The answer lists one result number a call, 0 for accepted, none for the end mark; a refused call doesn't stop
        // the playback."
        *calls = recorded.len();
        for (call, result) in recorded.iter().zip(results) {
            *result = made(image, g, &names[call.file], call);
        }
        Ok(())
    }))
}
