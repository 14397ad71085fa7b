//! Disks made by hand, an entry at a time, and what every library must tell of them.

use crate::binding::libraries;
use crate::calls::{Number, ACCEPTED, NO_SLOT};
use crate::directory::{
    entry, hit_place, put_entry, set_taken, Entry, Pair, ENTRY_BYTES, EXTENSION_FLAGS, MARKER_LINK,
};
use crate::disks::Disk;
use crate::fault::Kind;
use crate::geometry::Geometry;
use crate::names::{hash, name};

/// A run: its first granule, and how many there are.
pub type Run = (usize, usize);

/// An entry with these runs, the last of its chain.
pub fn with_runs(g: &Geometry, mut e: Entry, runs: &[Run]) -> Entry {
    e.0[0x16..].fill(0xFF);
    for (i, &(first, length)) in runs.iter().enumerate() {
        e.set_pair(i, Pair { further: (length - 1) as u8, ..Pair::of_granule(g, first) });
    }
    e
}

/// The entry with these runs and its file's HIT byte; the granules are set in the GAT.
fn put(disk: &mut Disk, slot: u8, e: &Entry, runs: &[Run], title: &str) {
    let g = disk.g;
    put_entry(&mut disk.image, &g, slot, &with_runs(&g, *e, runs));
    for &(first, length) in runs {
        (first..first + length).for_each(|granule| set_taken(&mut disk.image, &g, granule, true));
    }
    disk.image[hit_place(&g, slot)] = hash(&name(title));
}

/// A file of these runs, empty.
pub fn put_file(disk: &mut Disk, slot: u8, title: &str, runs: &[Run]) {
    let mut e = Entry([0; ENTRY_BYTES]);
    e.0[0x00] = 0x10;
    e.0[0x05..0x10].copy_from_slice(&name(title));
    put(disk, slot, &e, runs, title);
}

/// An extension of these runs behind an entry with four.
pub fn put_extension(disk: &mut Disk, slot: u8, before: u8, title: &str, runs: &[Run]) {
    let mut e = Entry([0; ENTRY_BYTES]);
    (e.0[0x00], e.0[0x01]) = (EXTENSION_FLAGS, before);
    put(disk, slot, &e, runs, title);
    change(disk, before, |e| e.set_link(MARKER_LINK, slot));
}

pub fn change(disk: &mut Disk, slot: u8, with: impl FnOnce(&mut Entry)) {
    let mut e = entry(&disk.image, &disk.g, slot);
    with(&mut e);
    put_entry(&mut disk.image, &disk.g, slot, &e);
}

/// Every library answers this of the disk.
fn answers(disk: &Disk, wanted: (Number, usize), what: &str) {
    for library in libraries() {
        let mut fault_slot = 0;
        let number = library.check(&disk.image, &disk.g, &mut fault_slot);
        assert_eq!((number, fault_slot), wanted, "{}: {what}", library.title());
    }
}

/// Every library tells this of the disk.
pub fn tells(disk: &Disk, kind: Kind, slot: Option<u8>, what: &str) {
    answers(disk, (kind as Number, slot.map_or(NO_SLOT, usize::from)), what);
}

pub fn is_consistent(disk: &Disk, what: &str) {
    answers(disk, (ACCEPTED, NO_SLOT), what);
}
