//! Bytes in hex with their fields named beside them, as the rules name them; the bytes at fault are marked. It shows what
//! stands there and takes nothing for something else.

mod entry;
mod field;
mod file;
mod gat;
mod hit;
mod sector;

pub use entry::run_words;
pub use field::Section;
pub use file::file;
pub use gat::gat;
pub use hit::hit;
pub use sector::sector;

use genie_dos::{Geometry, Map};

/// What is looked at: an image's bytes, and what its directory says of them.
#[derive(Clone, Copy)]
pub struct Seen<'a> {
    pub image: &'a [u8],
    pub map: &'a Map,
}

impl Seen<'_> {
    fn geometry(&self) -> Geometry {
        self.map.geometry
    }

    fn byte(&self, at: usize) -> u8 {
        self.image.get(at).copied().unwrap_or_default()
    }
}

/// The slot of an entry: its HIT byte, then its 32 bytes.
pub fn slot(seen: Seen, slot: usize) -> Vec<Section> {
    entry::with_hit(seen, slot)
}
