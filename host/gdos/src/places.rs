//! Where the directory's bytes stand in an image. Nothing says that the image has them.

use genie_dos::{Entry, Geometry};

/// Slots in a row of the HIT.
const ROW: usize = 32;

/// A byte of a directory sector; the GAT is sector 0, the HIT sector 1.
pub fn directory_at(geometry: Geometry, sector: usize, byte: usize) -> usize {
    (geometry.start + sector) * Geometry::SECTOR_BYTES + byte
}

/// A slot's HIT byte.
pub fn hit_at(geometry: Geometry, slot: usize) -> usize {
    directory_at(geometry, 1, slot)
}

/// The directory sector and the byte in it at which a slot's entry begins.
pub fn entry_place(slot: usize) -> (usize, usize) {
    (slot % ROW + 2, Entry::LEN * (slot / ROW))
}

/// The first byte of a slot's entry.
pub fn entry_at(geometry: Geometry, slot: usize) -> usize {
    let (sector, byte) = entry_place(slot);
    directory_at(geometry, sector, byte)
}

/// Whether a directory of so many sectors has a slot.
pub fn has_slot(sectors: usize, slot: usize) -> bool {
    entry_place(slot).0 < sectors
}

/// The bytes of a slot's entry, if the image has them.
pub fn entry(image: &[u8], geometry: Geometry, slot: usize) -> Option<[u8; Entry::LEN]> {
    let from = entry_at(geometry, slot);
    image.get(from..from + Entry::LEN)?.try_into().ok()
}
