use super::detail::listed;
use super::entry::RawEntry;
use super::Reading;
use alloc::string::String;
use alloc::vec::Vec;
use core::fmt;

/// A byte of the copy that was changed.
#[derive(Clone, Copy, Debug, PartialEq, Eq)]
#[non_exhaustive]
pub struct ByteChange {
    /// Its place in the image.
    pub image_byte: usize,
    /// What stood there.
    pub before: u8,
    /// What stands there now.
    pub after: u8,
}

/// `image byte 20864: 07H becomes C1H`.
impl fmt::Display for ByteChange {
    fn fmt(&self, f: &mut fmt::Formatter<'_>) -> fmt::Result {
        write!(f, "image byte {}: {:02X}H becomes {:02X}H", self.image_byte, self.before, self.after)
    }
}

/// What mends a fault.
#[derive(Clone, Debug, PartialEq, Eq)]
#[non_exhaustive]
pub enum Remedy {
    /// HIT byte 1FH is put to a directory of so many sectors.
    Length {
        /// 10, 15, 20, 25 or 30.
        sectors: usize,
    },
    /// A HIT byte is put to its hash.
    HitPut {
        /// The slot.
        slot: u8,
        /// The hash.
        hash: u8,
    },
    /// The HIT byte of an entry that is not in use is put to 0.
    HitCleared {
        /// The slot.
        slot: u8,
    },
    /// A name that is none is given the one byte with which it is one, and its hash the HIT byte.
    NamePut {
        /// The slot.
        slot: u8,
        /// The byte's place in the name, 0 to 10.
        place: usize,
        /// The byte.
        byte: u8,
    },
    /// Bit 5 of byte 00 is cleared.
    BitFiveCleared {
        /// The slot.
        slot: u8,
    },
    /// Missing GAT bits are set.
    GatBitsSet {
        /// The granules.
        granules: Vec<usize>,
    },
    /// An entry whose byte 00 says that it is no file in use, and of which everything else says that it is one, is put back.
    PutBack {
        /// The slot.
        slot: u8,
    },
    /// Entries are taken out of the directory: bit 4 and their HIT bytes are cleared. All other bytes stay, and so do the GAT
    /// bits, so that nothing overwrites what lies there.
    TakenOut {
        /// The slots; the fault's or its file's first.
        slots: Vec<u8>,
    },
}

impl fmt::Display for Remedy {
    fn fmt(&self, f: &mut fmt::Formatter<'_>) -> fmt::Result {
        match self {
            Remedy::Length { sectors } => write!(f, "the directory is given {sectors} sectors"),
            Remedy::HitPut { slot, hash } => {
                write!(f, "the HIT byte of slot {slot:02X}H is put to the hash, {hash:02X}H")
            }
            Remedy::HitCleared { slot } => write!(f, "the HIT byte of slot {slot:02X}H is put to 0"),
            Remedy::NamePut { slot, place, byte } => {
                let at = 0x05 + place;
                write!(
                    f,
                    "byte {at:02X}H of the name of slot {slot:02X}H is put to {byte:02X}H, as its HIT byte demands"
                )
            }
            Remedy::BitFiveCleared { slot } => write!(f, "bit 5 of byte 00 of slot {slot:02X}H is cleared"),
            Remedy::GatBitsSet { granules } => write!(f, "{} set in the GAT", listed(granules)),
            Remedy::PutBack { slot } => write!(f, "slot {slot:02X}H is in use again, as a file"),
            Remedy::TakenOut { slots } => {
                let named: Vec<String> = slots.iter().map(|slot| format!("{slot:02X}H")).collect();
                let slots = if named.len() == 1 { "slot" } else { "slots" };
                write!(f, "{slots} {} taken out of the directory", named.join(", "))
            }
        }
    }
}

impl Remedy {
    /// The bytes that it changes in the image that was read; none where it changes nothing.
    pub(super) fn changes(&self, reading: &Reading, image: &[u8]) -> Vec<ByteChange> {
        let mut changes: Vec<ByteChange> = Vec::new();
        let mut put = |image_byte: usize, with: &dyn Fn(u8) -> u8| {
            if let Some(earlier) = changes.iter_mut().find(|change| change.image_byte == image_byte) {
                earlier.after = with(earlier.after);
            } else if let Some(&before) = image.get(image_byte) {
                changes.push(ByteChange { image_byte, before, after: with(before) });
            }
        };
        match self {
            // Lengths are at most 30.
            Remedy::Length { sectors } => {
                put(reading.at(1, Reading::LENGTH), &|_| sectors.saturating_sub(Reading::LEAST_SECTORS) as u8);
            }
            Remedy::HitPut { slot, hash } => put(reading.hit_at(*slot), &|_| *hash),
            Remedy::HitCleared { slot } => put(reading.hit_at(*slot), &|_| 0),
            Remedy::NamePut { slot, place, byte } => put(reading.entry_at(*slot) + 0x05 + place, &|_| *byte),
            Remedy::BitFiveCleared { slot } => put(reading.entry_at(*slot), &|flags| flags & !RawEntry::BIT_FIVE),
            Remedy::GatBitsSet { granules } => {
                for &granule in granules {
                    let (at, bit) = reading.gat_at(granule);
                    put(at, &|byte| byte | 1 << bit);
                }
            }
            Remedy::PutBack { slot } => {
                let not = RawEntry::EXTENSION | RawEntry::BIT_FIVE;
                put(reading.entry_at(*slot), &|flags| flags & !not | RawEntry::IN_USE);
            }
            Remedy::TakenOut { slots } => {
                for &slot in slots {
                    put(reading.entry_at(slot), &|flags| flags & !RawEntry::IN_USE);
                    put(reading.hit_at(slot), &|_| 0);
                }
            }
        }
        changes.retain(|change| change.before != change.after);
        changes
    }
}
