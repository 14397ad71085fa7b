//! The directory's layout: GAT, HIT, slots and entries; reading and setting single bytes.

use crate::geometry::{Geometry, LEAST_DIRECTORY_SECTORS, SECTOR_BYTES};
use crate::names::Name;

pub const ROWS: usize = 8;
pub const ROW_PLACES: usize = 32;
pub const ENTRY_BYTES: usize = 32;
pub const PAIRS: usize = 4;
/// "Byte 1FH is the number of directory sectors above 10".
pub const LENGTH_PLACE: usize = 0x1F;
/// "Block FFH ends the list."
pub const NO_BLOCK: u8 = 0xFF;
/// "Marker FFH: no extension. FEH: the link is its slot."
pub const MARKER_LAST: u8 = 0xFF;
pub const MARKER_LINK: u8 = 0xFE;
/// "Extension: byte 00 is 90H".
pub const EXTENSION_FLAGS: u8 = 0x90;

/// Place in the image of the directory's first byte.
pub fn directory_place(g: &Geometry) -> usize {
    g.start * SECTOR_BYTES
}

/// "Sector 0, GAT: byte b, bit u stands for unit u of block b." Place of the byte, and the bit.
pub fn gat_place(g: &Geometry, granule: usize) -> (usize, u8) {
    (directory_place(g) + granule / g.units, 1 << (granule % g.units))
}

/// "A set bit means taken."
pub fn taken(image: &[u8], g: &Geometry, granule: usize) -> bool {
    let (place, bit) = gat_place(g, granule);
    image[place] & bit != 0
}

pub fn set_taken(image: &mut [u8], g: &Geometry, granule: usize, now: bool) {
    let (place, bit) = gat_place(g, granule);
    if now {
        image[place] |= bit;
    } else {
        image[place] &= !bit;
    }
}

/// The number of directory sectors: "Byte 1FH is the number of directory sectors above 10: 0, 5, 10,
/// 15 or 20."
pub fn directory_sectors(image: &[u8], g: &Geometry) -> Option<usize> {
    let above = image[directory_place(g) + SECTOR_BYTES + LENGTH_PLACE];
    match above {
        0 | 5 | 10 | 15 | 20 => Some(LEAST_DIRECTORY_SECTORS + above as usize),
        _ => None,
    }
}

/// The granules on which the directory lies. 02 §10: "every granule that the directory touches counts as a directory granule":
/// from that of its first sector to that of its last.
pub fn directory_granules(g: &Geometry, d: usize) -> std::ops::Range<usize> {
    let last_sector = g.start + d - 1;
    g.start / g.granule_sectors..last_sector / g.granule_sectors + 1
}

/// "slot number = 32 × row + s, row 0 to 7."
pub fn row(slot: u8) -> usize {
    slot as usize / ROW_PLACES
}

pub fn s(slot: u8) -> usize {
    slot as usize % ROW_PLACES
}

/// "With d directory sectors, s runs from 0 to d − 3".
pub fn has_slot(d: usize, slot: u8) -> bool {
    s(slot) <= d - 3
}

/// All slots of a directory of d sectors, by rising slot number.
pub fn slots(d: usize) -> impl Iterator<Item = u8> {
    (0..=255u8).filter(move |&slot| has_slot(d, slot))
}

/// Place in the image of a slot's HIT byte.
pub fn hit_place(g: &Geometry, slot: u8) -> usize {
    directory_place(g) + SECTOR_BYTES + slot as usize
}

pub fn hit(image: &[u8], g: &Geometry, slot: u8) -> u8 {
    image[hit_place(g, slot)]
}

/// "The entry of a slot is in directory sector s + 2 at byte 32 × row."
pub fn entry_place(g: &Geometry, slot: u8) -> usize {
    directory_place(g) + (s(slot) + 2) * SECTOR_BYTES + ENTRY_BYTES * row(slot)
}

pub fn entry(image: &[u8], g: &Geometry, slot: u8) -> Entry {
    let place = entry_place(g, slot);
    Entry(image[place..place + ENTRY_BYTES].try_into().expect("32 bytes"))
}

pub fn put_entry(image: &mut [u8], g: &Geometry, slot: u8, entry: &Entry) {
    let place = entry_place(g, slot);
    image[place..place + ENTRY_BYTES].copy_from_slice(&entry.0);
}

/// "Pair: block, then first unit (high three bits) and further granules (low five)."
#[derive(Clone, Copy, Debug, PartialEq, Eq)]
pub struct Pair {
    pub block: u8,
    pub unit: u8,
    pub further: u8,
}

impl Pair {
    /// "A run is 1 to 32 granules with consecutive numbers and may cross blocks."
    pub fn run(&self, g: &Geometry) -> std::ops::Range<usize> {
        let first = g.granule(self.block as usize, self.unit as usize);
        first..first + 1 + self.further as usize
    }

    /// The pair of a run of one granule.
    pub fn of_granule(g: &Geometry, granule: usize) -> Pair {
        Pair { block: (granule / g.units) as u8, unit: (granule % g.units) as u8, further: 0 }
    }
}

/// The 32 bytes of an entry.
#[derive(Clone, Copy, Debug, PartialEq, Eq)]
pub struct Entry(pub [u8; ENTRY_BYTES]);

impl Entry {
    fn flag(&self, byte: usize, bit: u8) -> bool {
        self.0[byte] & (1 << bit) != 0
    }

    fn word(&self, byte: usize) -> u16 {
        u16::from_le_bytes([self.0[byte], self.0[byte + 1]])
    }

    /// "00 flags (bit 7 extension, 6 system, 5 zero, 4 in use, 3 invisible, 2 to 0 access level)"
    pub fn is_extension(&self) -> bool {
        self.flag(0x00, 7)
    }
    pub fn is_system(&self) -> bool {
        self.flag(0x00, 6)
    }
    pub fn bit_five(&self) -> bool {
        self.flag(0x00, 5)
    }
    pub fn in_use(&self) -> bool {
        self.flag(0x00, 4)
    }
    pub fn is_invisible(&self) -> bool {
        self.flag(0x00, 3)
    }
    pub fn level(&self) -> u8 {
        self.0[0x00] & 0x07
    }
    pub fn is_primary_in_use(&self) -> bool {
        self.in_use() && !self.is_extension()
    }

    /// "01 bit 7 F (keep space), bit 6 E (no growth), bit 5 B (worked on), 4 to 0 day"
    pub fn keeps_space(&self) -> bool {
        self.flag(0x01, 7)
    }
    pub fn no_growth(&self) -> bool {
        self.flag(0x01, 6)
    }
    pub fn set_worked_on(&mut self) {
        self.0[0x01] |= 1 << 5;
    }
    /// In an extension byte 01 is "the slot before it in the chain".
    pub fn slot_before(&self) -> u8 {
        self.0[0x01]
    }

    /// "05 to 0C name; 0D to 0F type"
    pub fn name(&self) -> Name {
        self.0[0x05..0x10].try_into().expect("11 bytes")
    }

    /// "10, 11 main code; 12, 13 worker code"
    pub fn main_code(&self) -> u16 {
        self.word(0x10)
    }
    pub fn worker_code(&self) -> u16 {
        self.word(0x12)
    }

    /// "03 end byte", "14, 15 sector count"
    pub fn end_byte(&self) -> usize {
        self.0[0x03] as usize
    }
    pub fn sector_count(&self) -> usize {
        self.word(0x14) as usize
    }

    /// "Size: sector count n, end byte e. If e = 0 it is 256n, else 256(n − 1) + e with n at least 1."
    /// None where n is 0 and e is not.
    pub fn size(&self) -> Option<usize> {
        match (self.sector_count(), self.end_byte()) {
            (n, 0) => Some(SECTOR_BYTES * n),
            (0, _) => None,
            (n, e) => Some(SECTOR_BYTES * (n - 1) + e),
        }
    }

    pub fn set_size(&mut self, size: usize) {
        let n = size.div_ceil(SECTOR_BYTES) as u16;
        self.0[0x14..0x16].copy_from_slice(&n.to_le_bytes());
        self.0[0x03] = (size % SECTOR_BYTES) as u8;
    }

    /// "16 to 1D four pairs"; None where the block is FFH.
    pub fn pair(&self, i: usize) -> Option<Pair> {
        let (block, second) = (self.0[0x16 + 2 * i], self.0[0x17 + 2 * i]);
        (block != NO_BLOCK).then_some(Pair { block, unit: second >> 5, further: second & 0x1F })
    }

    pub fn set_pair(&mut self, i: usize, pair: Pair) {
        self.0[0x16 + 2 * i] = pair.block;
        self.0[0x17 + 2 * i] = pair.unit << 5 | pair.further;
    }

    /// "Emptied pairs become FFH FFH."
    pub fn empty_pair(&mut self, i: usize) {
        self.0[0x16 + 2 * i] = 0xFF;
        self.0[0x17 + 2 * i] = 0xFF;
    }

    /// The pairs up to the end of the list.
    pub fn pairs(&self) -> Vec<Pair> {
        (0..PAIRS).map_while(|i| self.pair(i)).collect()
    }

    /// "1E marker; 1F link"
    pub fn marker(&self) -> u8 {
        self.0[0x1E]
    }
    pub fn link(&self) -> u8 {
        self.0[0x1F]
    }
    pub fn set_link(&mut self, marker: u8, link: u8) {
        self.0[0x1E] = marker;
        self.0[0x1F] = link;
    }
}

/// The slots of the chain that starts at a slot: "An entry hands on to its marker, and the marker to
/// the next entry; no chain is longer than the number of slots." The walk ends where the marker is
/// not FEH, where the link is no slot of an extension in use, and at the number of slots.
pub fn chain(image: &[u8], g: &Geometry, d: usize, first: u8) -> Vec<u8> {
    let mut walked = vec![first];
    let most = slots(d).count();
    while walked.len() < most {
        let last = entry(image, g, walked[walked.len() - 1]);
        let next = last.link();
        if last.marker() != MARKER_LINK || !has_slot(d, next) {
            break;
        }
        let after = entry(image, g, next);
        if !after.in_use() || !after.is_extension() {
            break;
        }
        walked.push(next);
    }
    walked
}

/// The granules that a file owns, in the file's order.
pub fn owned(image: &[u8], g: &Geometry, d: usize, first: u8) -> Vec<usize> {
    let mut granules = Vec::new();
    for slot in chain(image, g, d, first) {
        for pair in entry(image, g, slot).pairs() {
            granules.extend(pair.run(g));
        }
    }
    granules
}

/// The slots of all files, by rising slot number: in use and primary.
pub fn files(image: &[u8], g: &Geometry, d: usize) -> Vec<u8> {
    slots(d).filter(|&slot| entry(image, g, slot).is_primary_in_use()).collect()
}
