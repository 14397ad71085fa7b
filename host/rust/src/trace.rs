//! Recorded sessions as the library plays them back: names and calls, packed in bits.

use crate::TracePlace;
use alloc::vec::Vec;
use core::fmt;

/// A recorded session: names of files, and calls on them in turn. [`Disk::play`](crate::Disk::play) plays its bytes back.
///
/// ```
/// use genie_dos::{Call, Recorded, Trace};
///
/// let trace = Trace {
///     names: vec![*b"A          "],
///     calls: vec![
///         Recorded { file: 0, call: Call::Create { length: 256 } },
///         Recorded { file: 0, call: Call::SequentialWrite { position: 0, length: 3, fill: 0x41 } },
///     ],
/// };
/// let bytes = trace.pack().unwrap();
/// assert_eq!(bytes[12..19], [0x20, 0, 0, 0, 0x80, 0, 0]);
/// assert_eq!(bytes[19..26], [0x40, 0, 0, 0, 0x01, 0xA0, 0x80]);
/// assert_eq!(Trace::unpack(&bytes), Ok(trace));
/// assert_eq!(Trace::unpack(&bytes[..26]).unwrap_err().position(), 208); // it breaks off
/// ```
#[derive(Clone, Debug, Default, PartialEq, Eq)]
pub struct Trace {
    /// 1 to 32 names of 11 bytes; they need not be well formed.
    pub names: Vec<[u8; 11]>,
    /// The calls, in order.
    pub calls: Vec<Recorded>,
}

/// A call of a session, on the file of that number: the names count from 0.
#[derive(Clone, Copy, Debug, PartialEq, Eq)]
pub struct Recorded {
    /// Which of the names.
    pub file: usize,
    /// The call.
    pub call: Call,
}

/// A call that a session can hold, with its own numbers: positions below 16,777,216, lengths below 512.
#[derive(Clone, Copy, Debug, PartialEq, Eq)]
pub enum Call {
    /// Create, with date and codes 0.
    Create {
        /// The record length.
        length: usize,
    },
    /// A sequential write of a record of the fill byte.
    SequentialWrite {
        /// Where in the file.
        position: usize,
        /// The record length.
        length: usize,
        /// The byte.
        fill: u8,
    },
    /// A random write of a record of the fill byte.
    RandomWrite {
        /// Where in the file.
        position: usize,
        /// The record length.
        length: usize,
        /// The byte.
        fill: u8,
    },
    /// Allot to a sector.
    Allot {
        /// The sector.
        sector: usize,
    },
    /// Trim.
    Trim,
    /// Kill.
    Kill,
    /// A read, whose bytes are told nowhere.
    Read {
        /// Where in the file.
        position: usize,
        /// The record length.
        length: usize,
    },
}

/// Why a session does not go into a trace.
#[derive(Clone, Copy, Debug, PartialEq, Eq)]
#[non_exhaustive]
pub enum Unpackable {
    /// A trace has 1 to 32 names.
    Names(usize),
    /// The call of this number, counted from 0, is on a file that has no name.
    File(usize),
    /// A number of this call is too large for its field.
    Number(usize),
}

impl fmt::Display for Unpackable {
    fn fmt(&self, f: &mut fmt::Formatter<'_>) -> fmt::Result {
        match self {
            Unpackable::Names(count) => write!(f, "a trace has 1 to 32 names, not {count}"),
            Unpackable::File(call) => write!(f, "call {call} is on a file without a name"),
            Unpackable::Number(call) => write!(f, "call {call}: a number is too large for a trace"),
        }
    }
}

#[cfg(feature = "std")]
impl std::error::Error for Unpackable {}

/// Bytes of a name, of a call.
const NAME_BYTES: usize = 11;
const CALL_BYTES: usize = 7;
const MOST_NAMES: usize = 32;
/// Operation, file number, position, length, fill byte, zero: how many bits each has, and where in its call it starts.
const WIDTHS: [u32; 6] = [3, 5, 24, 9, 8, 7];
const STARTS: [usize; 6] = [0, 3, 8, 32, 41, 49];

impl Recorded {
    /// What stands in the six fields.
    fn fields(self) -> [u64; 6] {
        let (operation, position, length, fill) = match self.call {
            Call::Create { length } => (1, 0, length, 0),
            Call::SequentialWrite { position, length, fill } => (2, position, length, fill),
            Call::RandomWrite { position, length, fill } => (3, position, length, fill),
            Call::Allot { sector } => (4, sector, 0, 0),
            Call::Trim => (5, 0, 0, 0),
            Call::Kill => (6, 0, 0, 0),
            Call::Read { position, length } => (7, position, length, 0),
        };
        [operation, self.file as u64, position as u64, length as u64, fill.into(), 0]
    }

    /// The call of these fields; none is the end mark's. What a call does not use is not looked at.
    fn of_fields(fields: [u64; 6]) -> Option<Recorded> {
        let [operation, file, position, length, fill, _] = fields;
        let (file, position, length, fill) = (file as usize, position as usize, length as usize, fill as u8);
        let call = match operation {
            1 => Call::Create { length },
            2 => Call::SequentialWrite { position, length, fill },
            3 => Call::RandomWrite { position, length, fill },
            4 => Call::Allot { sector: position },
            5 => Call::Trim,
            6 => Call::Kill,
            7 => Call::Read { position, length },
            _ => return None,
        };
        Some(Recorded { file, call })
    }
}

/// The fields as the 56 bits of a number, the first the highest.
fn joined(fields: [u64; 6]) -> u64 {
    fields.iter().zip(WIDTHS).fold(0, |bits, (field, width)| bits << width | field)
}

fn parted(bits: u64) -> [u64; 6] {
    let mut fields = [0; 6];
    for (i, field) in fields.iter_mut().enumerate() {
        *field = bits >> (56 - STARTS[i] as u32 - WIDTHS[i]) & ((1 << WIDTHS[i]) - 1);
    }
    fields
}

impl Trace {
    /// The bytes of the trace, the end mark behind the last call.
    pub fn pack(&self) -> Result<Vec<u8>, Unpackable> {
        let names = self.names.len();
        if !(1..=MOST_NAMES).contains(&names) {
            return Err(Unpackable::Names(names));
        }
        let mut bytes = vec![names as u8];
        bytes.extend(self.names.iter().flatten());
        for (i, recorded) in self.calls.iter().enumerate() {
            if recorded.file >= names {
                return Err(Unpackable::File(i));
            }
            let fields = recorded.fields();
            if fields.iter().zip(WIDTHS).any(|(&field, width)| field >> width != 0) {
                return Err(Unpackable::Number(i));
            }
            bytes.extend_from_slice(&joined(fields).to_be_bytes()[1..]);
        }
        bytes.extend_from_slice(&[0; CALL_BYTES]);
        Ok(bytes)
    }

    /// The session of a trace's bytes, or the place of its first fault, which is the one that the library tells. Bytes
    /// behind the end mark are not read.
    pub fn unpack(bytes: &[u8]) -> Result<Trace, TracePlace> {
        let ends = TracePlace { byte: bytes.len(), bit: 0 };
        let count = usize::from(*bytes.first().ok_or(ends)?);
        if !(1..=MOST_NAMES).contains(&count) {
            return Err(TracePlace { byte: 0, bit: 0 });
        }
        let first = 1 + NAME_BYTES * count;
        let names = bytes.get(1..first).ok_or(ends)?;
        let mut trace = Trace {
            names: names.chunks(NAME_BYTES).map(|name| name.try_into().expect("11 bytes")).collect(),
            calls: Vec::new(),
        };
        for (i, call) in bytes[first..].chunks_exact(CALL_BYTES).enumerate() {
            let fields = parted(call.iter().fold(0, |bits, &byte| bits << 8 | u64::from(byte)));
            let read = Recorded::of_fields(fields);
            let used = read.map_or([0; 6], Recorded::fields);
            let good = |field: usize| {
                fields[field] == used[field] && (field != 1 || read.is_none() || fields[1] < count as u64)
            };
            if let Some(bad) = (0..6).find(|&field| !good(field)) {
                let (byte, bit) = (STARTS[bad] / 8, STARTS[bad] % 8);
                return Err(TracePlace { byte: first + CALL_BYTES * i + byte, bit: bit as u8 });
            }
            match read {
                Some(recorded) => trace.calls.push(recorded),
                None => return Ok(trace),
            }
        }
        Err(ends)
    }
}

#[cfg(test)]
mod tests {
    use super::*;

    #[test]
    fn packed_and_unpacked() {
        let calls = [
            Call::Create { length: 511 },
            Call::SequentialWrite { position: 0xFF_FFFF, length: 1, fill: 0xFF },
            Call::RandomWrite { position: 1, length: 256, fill: 1 },
            Call::Allot { sector: 7_679 },
            Call::Trim,
            Call::Kill,
            Call::Read { position: 300, length: 0 },
        ];
        let names = vec![[b'?'; 11]; MOST_NAMES];
        let calls = calls.iter().enumerate().map(|(i, &call)| Recorded { file: 31 - i, call }).collect();
        let trace = Trace { names, calls };
        let mut bytes = trace.pack().unwrap();
        assert_eq!(bytes.len(), 1 + 11 * 32 + 7 * 8);
        bytes.push(0xFF);
        assert_eq!(Trace::unpack(&bytes), Ok(trace));
    }

    #[test]
    fn what_does_not_go_in() {
        let of = |file, call| Trace { names: vec![[b'A'; 11]], calls: vec![Recorded { file, call }] };
        assert_eq!(of(1, Call::Trim).pack(), Err(Unpackable::File(0)));
        assert_eq!(of(0, Call::Create { length: 512 }).pack(), Err(Unpackable::Number(0)));
        assert_eq!(of(0, Call::Allot { sector: 1 << 24 }).pack(), Err(Unpackable::Number(0)));
        assert_eq!(Trace::default().pack(), Err(Unpackable::Names(0)));
    }
}
