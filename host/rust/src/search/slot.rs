//! What one slot says of the directory that it would stand in.
//!
//! A slot in use shows in four ways: its entry's flag byte, a well-formed name, the name's hash in the HIT, and the marker.
//! Where all four agree the slot speaks for the directory: it is no accident of other bytes. Where one byte is all that
//! parts them it nearly does, so that no single damaged byte makes a file's trace vanish. A slot in which HIT and entry
//! contradict each other otherwise speaks against it.

use crate::{Entry, Geometry, Name};

/// What a slot says.
#[derive(Clone, Copy, Debug, PartialEq, Eq)]
pub enum Says {
    Name,
    Nearly,
    Against,
    Nothing,
}

/// The slots of a directory that begins with a sector. Every place is looked up safely: a byte that is not there is 0.
pub struct Slots<'a> {
    /// From the directory's first sector on.
    image: &'a [u8],
}

impl<'a> Slots<'a> {
    pub fn at(image: &'a [u8], start: usize) -> Slots<'a> {
        Slots { image: image.get(start * Geometry::SECTOR_BYTES..).unwrap_or(&[]) }
    }

    fn byte(&self, at: usize) -> u8 {
        self.image.get(at).copied().unwrap_or(0)
    }

    fn hit(&self, place: usize) -> u8 {
        self.byte(Geometry::SECTOR_BYTES + place)
    }

    /// A byte of a slot's entry.
    fn entry(&self, slot: usize, at: usize) -> u8 {
        self.byte((slot % 32 + 2) * Geometry::SECTOR_BYTES + slot / 32 * Entry::LEN + at)
    }

    /// The directory's sectors by the HIT, allowed or not.
    pub fn stated_sectors(&self) -> usize {
        10 + usize::from(self.hit(0x1f))
    }

    /// Whether a slot is in use by its entry.
    pub fn is_used(&self, slot: usize) -> bool {
        self.entry(slot, 0x00) & 0x10 != 0
    }

    /// Whether a slot is not in use, by HIT and entry.
    pub fn is_blank(&self, slot: usize) -> bool {
        self.hit(slot) == 0 && !self.is_used(slot)
    }

    /// The name in a slot, well formed or not.
    pub fn name(&self, slot: usize) -> [u8; Name::LEN] {
        core::array::from_fn(|i| self.entry(slot, 0x05 + i))
    }

    /// What a slot says by its entry and its HIT byte.
    pub fn says(&self, slot: usize) -> Says {
        let (flags, marker, hit) = (self.entry(slot, 0x00), self.entry(slot, 0x1e), self.hit(slot));
        let marked = matches!(marker, 0xfe | 0xff);
        // In use, primary, bit 5 zero.
        let used = flags & 0xb0 == 0x10;
        if marked || used && hit != 0 {
            let bytes = self.name(slot);
            let name = Name::from_bytes(bytes);
            let (named, hashed) = (name.is_well_formed(), name.hash() == hit);
            let signs = [used, named, hashed, marked].iter().filter(|&&sign| sign).count();
            match signs {
                4 => return Says::Name,
                3 if named && (marked || self.is_linked(slot)) => return Says::Nearly,
                _ if used && marked && hit != 0 && one_byte_from(bytes, hit) => return Says::Nearly,
                _ => {}
            }
        }
        match (flags & 0x10 != 0, flags & 0x80 != 0) {
            (false, _) if hit == 0 => Says::Nothing,
            // An extension has no name of its own.
            (true, true) if hit != 0 && flags == 0x90 && marked => Says::Nothing,
            _ => Says::Against,
        }
    }

    /// The rows of a sector whose entries can speak for a directory, whatever their slots and HIT bytes: `says` answers neither
    /// `Name` nor `Nearly` of any other.
    pub fn may_speak(sector: &[u8; Geometry::SECTOR_BYTES]) -> impl Iterator<Item = usize> + '_ {
        let named = move |row: usize| {
            let bytes = &sector[Entry::LEN * row + 0x05..Entry::LEN * row + 0x10];
            let mut name = [0; Name::LEN];
            name.copy_from_slice(bytes);
            // A name's first byte is no blank.
            Name::allows(bytes[0]) && Name::from_bytes(name).is_well_formed()
        };
        // All rows at once first, a byte of a number each, row 0 in the highest: most sectors have none.
        let column = |at: usize| {
            let rows = 0..Geometry::SECTOR_BYTES / Entry::LEN;
            rows.fold(0, |bytes, row| bytes << 8 | u64::from(sector[Entry::LEN * row + at]))
        };
        let used = zeros((column(0x00) & (0xb0 * EACH)) ^ (0x10 * EACH));
        let marked = zeros(!column(0x1e) & (0xfe * EACH));
        let mut left = used | marked;
        core::iter::from_fn(move || {
            while left != 0 {
                let row = left.leading_zeros() / 8;
                let bit = 0x80 << (56 - 8 * row);
                left ^= bit;
                if used & marked & bit != 0 || named(row as usize) {
                    return Some(row as usize);
                }
            }
            None
        })
    }

    /// Whether a slot's link is FFH or leads to an extension that points back. Letters over and over may be a name with
    /// its hash; but a marker is no letter, and what stands behind it is none either.
    fn is_linked(&self, slot: usize) -> bool {
        let link = usize::from(self.entry(slot, 0x1f));
        link == 0xff || self.entry(link, 0x00) == 0x90 && usize::from(self.entry(link, 0x01)) == slot
    }
}

/// 1 in each byte of a number.
const EACH: u64 = 0x0101_0101_0101_0101;

/// The highest bit of each byte of a number that is 0, and no other bit.
fn zeros(bytes: u64) -> u64 {
    let low = 0x7f * EACH;
    !((bytes & low).wrapping_add(low) | bytes | low)
}

/// Whether a name of this hash is had by changing one byte.
fn one_byte_from(bytes: [u8; Name::LEN], hash: u8) -> bool {
    let plain = |bytes: &[u8; Name::LEN]| bytes.iter().fold(0u8, |hash, byte| (hash ^ byte).rotate_left(1));
    // A hash of 0 is written as 1.
    let written = if hash == 1 { [0, 1] } else { [hash, hash] };
    (0..Name::LEN).any(|at| {
        written.iter().any(|wanted| {
            // What the byte at this place gives to the hash has been turned once for it and for each behind it.
            let turns = (Name::LEN - at) as u32;
            let mut mended = bytes;
            mended[at] ^= (plain(&bytes) ^ wanted).rotate_right(turns);
            Name::from_bytes(mended).is_well_formed()
        })
    })
}

#[cfg(test)]
mod tests {
    use super::*;

    #[test]
    fn names_are_mended_by_one_byte() {
        let hash = |name: &[u8; 11]| Name::from_bytes(*name).hash();
        assert!(!one_byte_from(*b"puls01  DAT", hash(b"PULS01  DAT")));
        for at in 0..11 {
            let mut bytes = *b"PULS01XYDAT";
            bytes[at] = 0x07;
            assert!(one_byte_from(bytes, hash(b"PULS01XYDAT")), "{at}");
        }
    }
}
