use crate::{Fault, FaultKind, Name};
use core::fmt;

/// Where a trace is bad: the first bit of its first bad field, or its end where it breaks off; so many whole bytes, and so
/// many bits, 0 to 7, behind its beginning.
#[derive(Clone, Copy, Debug, PartialEq, Eq, Hash)]
pub struct TracePlace {
    /// Whole bytes.
    pub byte: usize,
    /// Bits behind them.
    pub bit: u8,
}

impl TracePlace {
    /// The number of the bit, counted from 0.
    pub fn position(self) -> u128 {
        8 * self.byte as u128 + u128::from(self.bit)
    }
}

/// `bit 99`.
impl fmt::Display for TracePlace {
    fn fmt(&self, f: &mut fmt::Formatter<'_>) -> fmt::Result {
        write!(f, "bit {}", self.position())
    }
}

/// Why the library refused a call. A refused call has changed nothing.
///
/// Where several reasons apply the library gives the first in the order of test, which is the order of [`Refusal::ALL`].
///
/// ```
/// use genie_dos::Refusal;
///
/// assert_eq!(Refusal::Password.number(), 5);
/// assert_eq!(Refusal::from_number(5), Some(Refusal::Password));
/// assert_eq!(Refusal::from_number(0), None); // 0 is "accepted"
/// assert_eq!(Refusal::Password.to_string(), "5 (wrong password code)");
/// ```
///
/// A disk that is not consistent is refused with one of ten numbers, 21 to 30, and where the fault is an entry's, with its
/// slot:
///
/// ```
/// use genie_dos::{Fault, FaultKind, Refusal};
///
/// let refusal = Refusal::from_answer(28, 0x25).unwrap();
/// assert_eq!(refusal, Refusal::Inconsistent(Fault::at(FaultKind::GranuleShared, 0x25)));
/// assert_eq!((refusal.number(), refusal.slot()), (28, Some(0x25)));
/// assert_eq!(refusal.to_string(), "28 (disk not consistent: granule shared; slot 25H)");
/// assert_eq!(Refusal::from_answer(21, 256).unwrap().slot(), None); // 256 is "no slot"
/// ```
///
/// A name that is none is refused with the place of its first bad byte, 0 to 10:
///
/// ```
/// use genie_dos::{Disk, Geometry, Name, Password, Refusal};
///
/// let disk = Disk::blank(Geometry::new(16, 2, 80, 0x4296), 10, &[0])?;
/// let refusal = disk.open(&Name::from_bytes(*b"PULS 01~   "), 256, Password::Unchecked).unwrap_err();
/// assert_eq!(refusal, Refusal::Name { place: Some(5) });
/// assert_eq!(refusal.to_string(), "3 (name not well formed; place 5)");
/// # Ok::<(), Refusal>(())
/// ```
#[derive(Clone, Copy, Debug, PartialEq, Eq, Hash)]
#[non_exhaustive]
pub enum Refusal {
    /// 1: the geometry or the image's length is not allowed.
    Geometry,
    /// 21 to 30: the disk is not consistent, by this fault.
    Inconsistent(Fault),
    /// 14: the trace is malformed, at this place (play back).
    Trace(TracePlace),
    /// 16: a drive number that is not 0 or 1.
    NoSuchDrive,
    /// 15: fewer bytes for results than the trace has calls (play back).
    NoRoom,
    /// 12: a position, length, level, date or sector out of range, a buffer shorter than the record, or a slot that the
    /// directory has not.
    Range,
    /// 3: the name is not well formed (calls by name).
    Name {
        /// The place of its first bad byte, 0 to 10; none where only the number is known.
        place: Option<u8>,
    },
    /// 7: the handle is stale: its slot does not hold a file of its name.
    Stale,
    /// 4: there is no file of this name.
    NotFound,
    /// 5: wrong password code.
    Password,
    /// 17: the slot is in use (bring back).
    SlotInUse,
    /// 6: the handle's level does not allow it, or it would change a system file.
    Access,
    /// 31: a program file has a code that is not 01, 02 or 05 (load record).
    LoadCode,
    /// 32: a program file ends inside a record or comment, or before a start address (load record).
    LoadEnd,
    /// 33: a program file's code 02 has a count that is not 2 (load record).
    LoadCount,
    /// 10: a read past the file's size.
    PastEnd,
    /// 11: the file may not grow (E) and owns too few granules.
    NoGrowth,
    /// 9: more granules needed than are free.
    NoSpace,
    /// 8: too few directory slots free.
    NoSlot,
    /// 18: no killed file that is still whole begins in this slot (bring back).
    NothingWhole,
    /// 19: a file has the killed file's name (bring back).
    NameInUse,
    /// 20: a granule of the killed file is taken again (bring back).
    GranuleTaken,
    /// A number that this crate does not know: the library is newer.
    Other(u8),
}

impl Refusal {
    /// The numbers that the library gives today, in the order in which it tests; those of faults without their slots, a name's
    /// without its place.
    pub const ALL: [Refusal; 31] = [
        Refusal::NoSuchDrive,
        Refusal::Geometry,
        Refusal::Inconsistent(Fault::of_disk(FaultKind::DirectoryLength)),
        Refusal::Inconsistent(Fault::of_disk(FaultKind::HitAgainstEntry)),
        Refusal::Inconsistent(Fault::of_disk(FaultKind::Name)),
        Refusal::Inconsistent(Fault::of_disk(FaultKind::DuplicateName)),
        Refusal::Inconsistent(Fault::of_disk(FaultKind::Chain)),
        Refusal::Inconsistent(Fault::of_disk(FaultKind::RunOffDisk)),
        Refusal::Inconsistent(Fault::of_disk(FaultKind::GatBitMissing)),
        Refusal::Inconsistent(Fault::of_disk(FaultKind::GranuleShared)),
        Refusal::Inconsistent(Fault::of_disk(FaultKind::Size)),
        Refusal::Inconsistent(Fault::of_disk(FaultKind::DirectoryGranule)),
        Refusal::Trace(TracePlace { byte: 0, bit: 0 }),
        Refusal::NoRoom,
        Refusal::Range,
        Refusal::Name { place: None },
        Refusal::Stale,
        Refusal::NotFound,
        Refusal::Password,
        Refusal::SlotInUse,
        Refusal::Access,
        Refusal::LoadCode,
        Refusal::LoadEnd,
        Refusal::LoadCount,
        Refusal::PastEnd,
        Refusal::NoGrowth,
        Refusal::NoSpace,
        Refusal::NoSlot,
        Refusal::NothingWhole,
        Refusal::NameInUse,
        Refusal::GranuleTaken,
    ];

    /// The refusal number.
    pub fn number(self) -> u8 {
        match self {
            Refusal::Geometry => 1,
            Refusal::Inconsistent(fault) => fault.kind.number(),
            Refusal::Name { .. } => 3,
            Refusal::NotFound => 4,
            Refusal::Password => 5,
            Refusal::Access => 6,
            Refusal::Stale => 7,
            Refusal::NoSlot => 8,
            Refusal::NoSpace => 9,
            Refusal::PastEnd => 10,
            Refusal::NoGrowth => 11,
            Refusal::Range => 12,
            Refusal::Trace(_) => 14,
            Refusal::NoRoom => 15,
            Refusal::NoSuchDrive => 16,
            Refusal::SlotInUse => 17,
            Refusal::NothingWhole => 18,
            Refusal::NameInUse => 19,
            Refusal::GranuleTaken => 20,
            Refusal::LoadCode => 31,
            Refusal::LoadEnd => 32,
            Refusal::LoadCount => 33,
            Refusal::Other(number) => number,
        }
    }

    /// The slot of the entry at fault; none where it is no entry's, and of every other refusal.
    pub fn slot(self) -> Option<u8> {
        self.fault().and_then(|fault| fault.slot)
    }

    /// The place of a name's first bad byte, 0 to 10; none of every other refusal.
    pub fn place(self) -> Option<u8> {
        match self {
            Refusal::Name { place } => place,
            _ => None,
        }
    }

    /// The fault of a disk that is not consistent; none of every other refusal.
    pub fn fault(self) -> Option<Fault> {
        match self {
            Refusal::Inconsistent(fault) => Some(fault),
            _ => None,
        }
    }

    /// The refusal that the library answers with a number and a fault's slot, of which 256 stands for none.
    pub fn from_answer(number: u8, fault_slot: usize) -> Option<Refusal> {
        let slot = u8::try_from(fault_slot).ok();
        Refusal::from_number(number).map(|refusal| match refusal {
            Refusal::Inconsistent(Fault { kind, .. }) => Refusal::Inconsistent(Fault { kind, slot }),
            other => other,
        })
    }

    /// The same with the place that a call by name sets, of which 11 stands for none; of another refusal than 3 there is none.
    pub fn with_place(self, place: usize) -> Refusal {
        match self {
            Refusal::Name { .. } => {
                Refusal::Name { place: u8::try_from(place).ok().filter(|&place| usize::from(place) < Name::LEN) }
            }
            other => other,
        }
    }

    /// The refusal of a number, without a slot or a place; none for 0, which stands for "accepted".
    pub fn from_number(number: u8) -> Option<Refusal> {
        if number == 0 {
            return None;
        }
        let known = Refusal::ALL.into_iter().find(|r| r.number() == number);
        Some(known.unwrap_or(Refusal::Other(number)))
    }

    /// What the number means, in a few words.
    pub fn meaning(self) -> &'static str {
        match self {
            Refusal::Geometry => "geometry or image length not allowed",
            Refusal::Inconsistent(fault) => fault.kind.meaning(),
            Refusal::Name { .. } => "name not well formed",
            Refusal::NotFound => "name not found",
            Refusal::Password => "wrong password code",
            Refusal::Access => "not allowed at this access level, or a system file",
            Refusal::Stale => "handle stale: its file is gone",
            Refusal::NoSlot => "too few directory slots free",
            Refusal::NoSpace => "too few granules free",
            Refusal::PastEnd => "read past the end of the file",
            Refusal::NoGrowth => "file may not grow: its flag E is set",
            Refusal::Range => "position, length, level, date or sector out of range",
            Refusal::Trace(_) => "trace malformed",
            Refusal::NoRoom => "no room for the results",
            Refusal::NoSuchDrive => "drive number not 0 or 1",
            Refusal::SlotInUse => "slot in use",
            Refusal::NothingWhole => "nothing whole to bring back",
            Refusal::NameInUse => "name in use",
            Refusal::GranuleTaken => "a granule is taken again",
            Refusal::LoadCode => "no program file: unknown code",
            Refusal::LoadEnd => "program file ends inside a record or before a start address",
            Refusal::LoadCount => "program file with a bad count",
            Refusal::Other(_) => "refused by a newer library",
        }
    }
}

/// The number, what it means, the slot at fault and the place of a bad byte: `5 (wrong password code)`.
impl fmt::Display for Refusal {
    fn fmt(&self, f: &mut fmt::Formatter<'_>) -> fmt::Result {
        write!(f, "{} ({}", self.number(), self.meaning())?;
        if let Some(slot) = self.slot() {
            write!(f, "; slot {slot:02X}H")?;
        }
        if let Some(place) = self.place() {
            write!(f, "; place {place}")?;
        }
        if let Refusal::Trace(place) = self {
            write!(f, "; {place}")?;
        }
        f.write_str(")")
    }
}

#[cfg(feature = "std")]
impl std::error::Error for Refusal {}

#[cfg(test)]
mod tests {
    use super::*;
    use alloc::vec::Vec;

    #[test]
    fn every_number_has_its_refusal_and_its_own_text() {
        let mut texts = Vec::new();
        for number in [1].into_iter().chain(3..=12).chain(14..=33) {
            let refusal = Refusal::from_number(number).unwrap();
            assert_ne!(refusal, Refusal::Other(number));
            assert_eq!(refusal.number(), number);
            assert!(!texts.contains(&refusal.meaning()));
            texts.push(refusal.meaning());
        }
        assert_eq!(Refusal::from_number(0), None);
        assert_eq!(Refusal::from_number(13), Some(Refusal::Other(13)));
        assert_eq!(Refusal::Other(13).number(), 13);
        assert_eq!(Refusal::from_number(2), Some(Refusal::Other(2)), "no longer given");
    }

    #[test]
    fn slots_belong_to_faults() {
        for refusal in Refusal::ALL {
            let is_fault = refusal.fault().is_some();
            let told = Refusal::from_answer(refusal.number(), 0x80).unwrap();
            assert_eq!((told.number(), told.slot()), (refusal.number(), is_fault.then_some(0x80)));
            assert_eq!(Refusal::from_answer(refusal.number(), 256), Some(refusal));
        }
        assert_eq!(Refusal::from_answer(0, 256), None);
    }

    #[test]
    fn places_belong_to_names() {
        for refusal in Refusal::ALL {
            let is_name = refusal == Refusal::Name { place: None };
            assert_eq!(refusal.with_place(10).place(), is_name.then_some(10));
            assert_eq!(refusal.with_place(11), refusal);
            assert_eq!(refusal.with_place(256 + 3), refusal);
        }
    }

    #[test]
    fn all_is_in_the_order_of_test() {
        let numbers: Vec<u8> = Refusal::ALL.iter().map(|r| r.number()).collect();
        assert_eq!(
            numbers,
            [
                16, 1, 21, 22, 23, 24, 25, 26, 27, 28, 29, 30, 14, 15, 12, 3, 7, 4, 5, 17, 6, 31, 32, 33, 10, 11, 9, 8,
                18, 19, 20
            ]
        );
    }
}
