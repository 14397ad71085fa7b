//! Handles: "A handle holds slot, name, position (0 to 1,966,080), record length (1 to 256) and level
//! (0 to 7)"; the highest position goes by the granule's size (02 §10). At the boundary they are 19 bytes:
//! slot, level, record length (2, low byte first), position (4, low byte first), name (11).

use crate::directory::{entry, has_slot};
use crate::geometry::Geometry;
use crate::names::Name;

pub const HANDLE_BYTES: usize = 19;
pub const LONGEST_RECORD: usize = 256;
pub const HIGHEST_LEVEL: u8 = 7;

#[derive(Clone, Copy, Debug, PartialEq, Eq)]
pub struct Handle {
    pub slot: u8,
    pub level: u8,
    pub length: u16,
    pub position: u32,
    pub name: Name,
}

impl Handle {
    /// None if under 19 bytes are lent; of more only the first 19 count.
    pub fn read(lent: &[u8]) -> Option<Handle> {
        let bytes = lent.get(..HANDLE_BYTES)?;
        Some(Handle {
            slot: bytes[0],
            level: bytes[1],
            length: u16::from_le_bytes([bytes[2], bytes[3]]),
            position: u32::from_le_bytes([bytes[4], bytes[5], bytes[6], bytes[7]]),
            name: bytes[8..].try_into().expect("11 bytes"),
        })
    }

    pub fn bytes(&self) -> [u8; HANDLE_BYTES] {
        let mut bytes = [0; HANDLE_BYTES];
        bytes[0] = self.slot;
        bytes[1] = self.level;
        bytes[2..4].copy_from_slice(&self.length.to_le_bytes());
        bytes[4..8].copy_from_slice(&self.position.to_le_bytes());
        bytes[8..].copy_from_slice(&self.name);
        bytes
    }

    pub fn store(&self, lent: &mut [u8]) {
        lent[..HANDLE_BYTES].copy_from_slice(&self.bytes());
    }

    /// The three ranges of the sentence above.
    pub fn in_range(&self, g: &Geometry) -> bool {
        self.position() <= g.highest_position() && good_length(self.length()) && self.level <= HIGHEST_LEVEL
    }

    /// "A handle is stale unless its slot is one the directory has, in use, primary and carries its
    /// name."
    pub fn is_stale(&self, image: &[u8], g: &Geometry, d: usize) -> bool {
        let fresh = has_slot(d, self.slot) && {
            let there = entry(image, g, self.slot);
            there.is_primary_in_use() && there.name() == self.name
        };
        !fresh
    }

    pub fn length(&self) -> usize {
        self.length as usize
    }

    pub fn position(&self) -> usize {
        self.position as usize
    }

    /// "the position advances", by what was read or written.
    pub fn advanced(&self, by: usize) -> Handle {
        Handle { position: self.position + by as u32, ..*self }
    }
}

/// "record length (1 to 256)"
pub fn good_length(length: usize) -> bool {
    (1..=LONGEST_RECORD).contains(&length)
}
