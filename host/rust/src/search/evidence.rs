//! What speaks for a directory at a place of the image, and what against it.

use super::slot::{Says, Slots};
use crate::Geometry;
use alloc::vec::Vec;
use core::ops::Range;

/// Sectors that a directory may have.
const LENGTHS: [usize; 5] = [10, 15, 20, 25, 30];

/// What was found where a directory would begin.
#[derive(Clone, Debug, PartialEq, Eq)]
#[non_exhaustive]
pub struct Evidence {
    /// The directory's first sector.
    pub start: usize,
    /// Its sectors: as the HIT says; where that cannot be, as many as hold what speaks for it.
    pub sectors: usize,
    /// Names that speak for it: each counts once.
    pub names: usize,
    /// Names that would, with one byte changed.
    pub nearly: usize,
    /// Slots that speak against it, and its length if that cannot be.
    pub against: usize,
    /// Names, nearly or not, in slots that it would have if it were longer than the HIT says.
    pub beyond: usize,
    /// The entries that speak for it: the sector that holds each, and how.
    signs: Vec<Sign>,
}

#[derive(Clone, Copy, Debug, PartialEq, Eq)]
struct Sign {
    sector: usize,
    whole: bool,
    /// The entry is in use.
    used: bool,
}

impl Evidence {
    /// What the image shows where a directory would begin with this sector. None of it hangs on blocks and units.
    pub fn at(image: &[u8], start: usize) -> Evidence {
        let slots = Slots::at(image, start);
        let room = (image.len() / Geometry::SECTOR_BYTES).saturating_sub(start);
        let stated = LENGTHS.into_iter().find(|&length| length == slots.stated_sectors() && length <= room);
        let (mut signs, mut against, mut seen) = (Vec::new(), [0; 30], Vec::new());
        for slot in (0..256).filter(|slot| slot % 32 + 2 < room.min(30)) {
            let number = slot % 32 + 2;
            match slots.says(slot) {
                Says::Nothing => {}
                Says::Against => against[number] += 1,
                // One name in two slots: only one of them can be right.
                _ if seen.contains(&slots.name(slot)) => against[number] += 1,
                says => {
                    seen.push(slots.name(slot));
                    let (whole, used) = (says == Says::Name, slots.is_used(slot));
                    signs.push(Sign { sector: start + number, whole, used });
                }
            }
        }
        let holds = |length: &usize| signs.iter().all(|sign| sign.sector < start + length);
        let sectors = stated.or(LENGTHS.into_iter().find(holds)).unwrap_or(10);
        let against = against[..sectors].iter().sum::<usize>() + usize::from(stated.is_none());
        Evidence { start, sectors, names: 0, nearly: 0, against, beyond: 0, signs: Vec::new() }.with(signs)
    }

    fn with(self, signs: Vec<Sign>) -> Evidence {
        let end = self.start + self.sectors;
        let count = |wanted: fn(&Sign) -> bool| signs.iter().filter(|sign| sign.sector < end && wanted(sign)).count();
        let (names, nearly) = (count(|sign| sign.whole), count(|sign| !sign.whole));
        Evidence { names, nearly, beyond: signs.len() - names - nearly, signs, ..self }
    }

    /// The same without the entries that stand in these sectors, which are another directory's own. What is not in use
    /// there is no file of that one; it is left out too, as a removed file's, unless next to nothing speaks against this
    /// place: seen from the wrong sector a directory contradicts itself in many slots.
    pub fn without(&self, sectors: &Range<usize>) -> Evidence {
        let own = |sign: &Sign| sectors.contains(&sign.sector) && (sign.used || self.against > 1);
        let signs = self.signs.iter().filter(|sign| !own(sign)).copied().collect();
        self.clone().with(signs)
    }

    /// The sectors of the directory, and those of all entries that speak for it.
    pub fn reach(&self) -> Range<usize> {
        let last = self.signs.iter().map(|sign| sign.sector + 1).max().unwrap_or(0);
        self.start..last.max(self.start + self.sectors)
    }

    /// Whether the slots allow that a disk is consistent here: none contradicts itself, nor is one byte short of a name.
    /// Whether it is one is the library's word.
    pub fn may_be_consistent(&self) -> bool {
        self.against == 0 && self.nearly == 0
    }

    /// Whether anything speaks for a directory here.
    pub fn speaks(&self) -> bool {
        !self.signs.is_empty()
    }

    /// How much speaks for it, to rank by: more is better.
    pub fn weight(&self) -> (usize, core::cmp::Reverse<usize>) {
        (2 * self.names + self.nearly + self.beyond, core::cmp::Reverse(self.against))
    }
}

#[cfg(test)]
mod tests {
    use super::*;
    use crate::{Date, Disk, NewFile};

    const GEOMETRY: Geometry = Geometry::new(16, 2, 80, 0x4296);

    fn disk(sectors: usize, files: usize) -> Vec<u8> {
        let mut disk = Disk::blank(GEOMETRY, sectors, &[0]).unwrap();
        for i in 0..files {
            let name = format!("PULS{i:02}/DAT").parse().unwrap();
            disk.create(&name, &NewFile::open(GEOMETRY, Date::new(1983, 10, 9))).unwrap();
        }
        disk.into_image()
    }

    fn counts(evidence: &Evidence) -> (usize, usize, usize, usize) {
        (evidence.names, evidence.nearly, evidence.against, evidence.beyond)
    }

    #[test]
    fn names_speak_for_a_directory() {
        for (sectors, files) in [(10, 0), (10, 1), (10, 30), (15, 5), (30, 100)] {
            let evidence = Evidence::at(&disk(sectors, files), 80);
            assert_eq!((counts(&evidence), evidence.sectors), ((files, 0, 0, 0), sectors), "{sectors} {files}");
            assert_eq!(evidence.speaks(), files > 0);
        }
        // Bytes as formatting leaves them, zeros, text, and one letter over and over speak for nothing.
        let digits: Vec<u8> = (0..40_960).map(|i| b"0123456789ABCDEF"[i * 7 % 16]).collect();
        for image in [vec![0xe5; 40_960], vec![0; 40_960], vec![0x55; 40_960], vec![0xff; 40_960], digits] {
            for start in (0..=150).step_by(5) {
                assert!(!Evidence::at(&image, start).speaks());
            }
        }
    }

    /// No byte of a directory can be changed so that the trace of its only file vanishes.
    #[test]
    fn one_damaged_byte_leaves_a_trace() {
        for sectors in [10, 15, 30] {
            let image = disk(sectors, 1);
            for at in 80 * 256..(80 + sectors) * 256 {
                for damage in [0x01, 0x10, 0x20, 0x80, 0xff, image[at].max(1)] {
                    let mut damaged = image.clone();
                    damaged[at] ^= damage;
                    let evidence = Evidence::at(&damaged, 80);
                    assert!(evidence.speaks(), "byte {at}, {damage:02X}H of {sectors}: {evidence:?}");
                }
            }
        }
    }

    #[test]
    fn what_one_byte_does() {
        let image = disk(10, 3);
        let (hit, entry) = (81 * 256 + 0x81, 83 * 256 + 128);
        let damaged = |at: usize, byte: u8| {
            let mut image = image.clone();
            image[at] = byte;
            counts(&Evidence::at(&image, 80))
        };
        assert_eq!(damaged(hit, 0), (2, 1, 0, 0), "HIT byte lost");
        assert_eq!(damaged(hit, 0x77), (2, 1, 0, 0), "HIT byte wrong");
        assert_eq!(damaged(entry, 0), (2, 1, 0, 0), "not in use");
        assert_eq!(damaged(entry, 0x90), (2, 1, 0, 0), "an extension");
        assert_eq!(damaged(entry + 5, 0), (2, 1, 0, 0), "a byte that no name has");
        assert_eq!(damaged(entry + 5, b'X'), (2, 1, 0, 0), "another name");
        assert_eq!(damaged(entry + 0x1e, 0), (2, 1, 0, 0), "the marker");
        assert_eq!(damaged(entry + 0x16, 0), (3, 0, 0, 0), "a run: no sign of a name");
        assert_eq!(damaged(hit + 1 + 0x20, 0x33), (3, 0, 1, 0), "a HIT byte without an entry");
        assert_eq!(damaged(entry + 32, 0x10), (3, 0, 1, 0), "an entry in use without name and HIT byte");
        assert_eq!(damaged(81 * 256 + 0x1f, 7), (3, 0, 1, 0), "a length that cannot be");
        // The length is allowed and too small: the files are beyond it.
        let mut long = disk(15, 3);
        long[81 * 256 + 0x1f] = 0;
        assert_eq!(counts(&Evidence::at(&long, 80)), (0, 0, 0, 3));
    }

    #[test]
    fn a_lost_hit_sector() {
        for filler in [0, 0xe5, 0x42] {
            let mut image = disk(10, 9);
            image[81 * 256..82 * 256].fill(filler);
            assert_eq!(Evidence::at(&image, 80).nearly, 9, "{filler:02X}H");
        }
    }

    #[test]
    fn another_directorys_entries_are_left_out() {
        let evidence = Evidence::at(&disk(10, 30), 80);
        assert!(!evidence.without(&(80..90)).speaks());
        assert!(evidence.without(&(80..85)).speaks());
        assert_eq!(evidence.without(&(0..80)), evidence);
    }
}
