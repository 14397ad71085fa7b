//! The places where a directory may begin, ranked by what speaks for each.

use super::evidence::Evidence;
use super::fit::Fit;
use super::known::starts;
use super::slot::{Says, Slots};
use crate::{Counts, Disk, Explained, Geometry, Preset, Refusal};
use alloc::boxed::Box;
use alloc::vec::Vec;

/// A place with what speaks for it, and how the image reads there.
#[derive(Clone, Debug)]
#[non_exhaustive]
pub struct Candidate {
    /// What speaks for it.
    pub evidence: Evidence,
    /// The geometries under which the disk is consistent; if there is none, the one that fits best.
    pub readings: Vec<Reading>,
}

impl Candidate {
    /// Whether some reading is consistent.
    pub fn is_intact(&self) -> bool {
        self.readings.iter().any(|reading| reading.found.is_ok())
    }
}

/// The disk under one geometry.
#[derive(Clone, Debug)]
#[non_exhaustive]
pub struct Reading {
    /// The geometry.
    pub geometry: Geometry,
    /// Files and free granules, or the first fault.
    pub found: Result<Counts, Box<Explained>>,
}

/// What the image shows at every place where a directory may begin, whatever the size of a granule: all are multiples of the
/// smallest.
pub fn everywhere(image: &[u8]) -> Vec<Evidence> {
    starts(image.len(), Geometry::GRANULE_SIZES[0]).map(|start| Evidence::at(image, start)).collect()
}

/// The places that something speaks for, rising: those of `everywhere` that do. Most of an image is no entry of any directory,
/// and each entry stands in a few directories only; so it is looked at by entries, not by places.
pub fn speaking(image: &[u8]) -> Vec<Evidence> {
    let mut found = Vec::new();
    for (number, sector) in image.chunks_exact(Geometry::SECTOR_BYTES).enumerate() {
        let sector = match sector.try_into() {
            Ok(sector) => sector,
            Err(_) => break,
        };
        for row in Slots::may_speak(sector) {
            // A directory has its entries from the third of its sectors to the thirtieth at most.
            for s in 0..28.min((number + 1).saturating_sub(2)) {
                let start = number - 2 - s;
                let spoken = |slots: Slots| matches!(slots.says(32 * row + s), Says::Name | Says::Nearly);
                if start % Geometry::GRANULE_SIZES[0] == 0 && spoken(Slots::at(image, start)) {
                    found.push(start);
                }
            }
        }
    }
    found.sort_unstable();
    found.dedup();
    let may_begin = starts(image.len(), Geometry::GRANULE_SIZES[0]);
    may_begin.filter(|start| found.binary_search(start).is_ok()).map(|start| Evidence::at(image, start)).collect()
}

/// The places that something speaks for and those with a consistent reading, the strongest first. An entry counts for the
/// strongest place only: seen from a few sectors further on a directory's entries seem to be another's.
pub fn ranked(image: &[u8], everywhere: &[Evidence], tried: &[Geometry], intact: &[Reading]) -> Vec<Candidate> {
    let reads = |start: usize| intact.iter().any(|reading| reading.geometry.start == start);
    let mut left: Vec<Evidence> =
        everywhere.iter().filter(|place| place.speaks() || reads(place.start)).cloned().collect();
    left.retain(|place| tried.iter().any(|geometry| geometry.start == place.start));
    let mut ranked = Vec::new();
    while let Some(best) = strongest(&left, reads) {
        let place = left.swap_remove(best);
        let (own, reach) = (place.start..place.start + place.sectors, place.reach());
        // Beyond its length only those are its entries that are no other's for certain.
        let own_of = |other: &Evidence| if other.names == 0 { &reach } else { &own };
        left = left.iter().map(|other| other.without(own_of(other))).collect();
        left.retain(|place| place.speaks() || reads(place.start));
        let readings = readings(image, &place, tried, intact);
        ranked.push(Candidate { evidence: place, readings });
    }
    ranked
}

/// The one with most that speaks for it; of equals an intact one, then that of a known kind of disk, then the first.
fn strongest(left: &[Evidence], reads: impl Fn(usize) -> bool) -> Option<usize> {
    let known = |start: usize| Preset::ALL.iter().any(|preset| preset.geometry.start == start);
    let key =
        |place: &Evidence| (place.weight(), reads(place.start), known(place.start), core::cmp::Reverse(place.start));
    (0..left.len()).max_by_key(|&at| key(&left[at]))
}

/// How the image reads at a place: the consistent readings, or the one that fits best.
fn readings(image: &[u8], place: &Evidence, tried: &[Geometry], intact: &[Reading]) -> Vec<Reading> {
    let here: Vec<_> = intact.iter().filter(|reading| reading.geometry.start == place.start).cloned().collect();
    if !here.is_empty() {
        return here;
    }
    let fit = |geometry: Geometry| Fit::of(image, geometry, place.sectors);
    let here = tried.iter().copied().filter(|geometry| geometry.start == place.start);
    // Of equals the known kind of disk, then the first.
    let best = here.min_by_key(|&geometry| {
        let fit = fit(geometry);
        (fit.faults(), Preset::of(geometry).is_none(), fit.unexplained())
    });
    best.and_then(|geometry| read(image, geometry)).into_iter().collect()
}

/// The image read under a geometry that has its length.
pub fn read(image: &[u8], geometry: Geometry) -> Option<Reading> {
    let disk = Disk::new(image, geometry);
    match disk.count() {
        Ok(counts) => Some(Reading { geometry, found: Ok(counts) }),
        Err(Refusal::Inconsistent(fault)) => Some(Reading { geometry, found: Err(Box::new(disk.explain(fault))) }),
        Err(_) => None,
    }
}

/// Those geometries under which the image is consistent. Where the slots contradict themselves the library is not asked.
pub fn consistent(image: &[u8], everywhere: &[Evidence], tried: &[Geometry]) -> Vec<Reading> {
    let places: Vec<usize> =
        everywhere.iter().filter(|place| place.may_be_consistent()).map(|place| place.start).collect();
    let reading = |&geometry: &Geometry| {
        let counts = Disk::new(image, geometry).count().ok()?;
        Some(Reading { geometry, found: Ok(counts) })
    };
    tried.iter().filter(|geometry| places.contains(&geometry.start)).filter_map(reading).collect()
}

#[cfg(test)]
mod tests {
    use super::*;
    use crate::{Date, Kind, NewFile};

    /// By entries the same places are found as by places: on a disk among all kinds of bytes, with bytes damaged, and in bytes
    /// that look like entries.
    #[test]
    fn by_entries_or_by_places() {
        let places =
            |image: &[u8]| -> Vec<Evidence> { everywhere(image).into_iter().filter(Evidence::speaks).collect() };
        let geometry = Geometry::new(16, 2, 80, 0x4296);
        let mut disk = Disk::blank(geometry, 15, &[0]).unwrap();
        for i in 0..20 {
            disk.create(&format!("A{i}/DAT").parse().unwrap(), &NewFile::open(geometry, Date::new(1983, 10, 9)))
                .unwrap();
        }
        let mut image = disk.into_image();
        let directory = image[80 * 256..95 * 256].to_vec();
        let mut number = 1u32;
        let mut draw = || {
            number = number.wrapping_mul(1_664_525).wrapping_add(1_013_904_223);
            (number >> 24) as u8
        };
        image[..60 * 256].iter_mut().for_each(|byte| *byte = draw());
        // The same directory again where none may begin, where one may, and past the end.
        for sector in [3, 20, 61, 100, 150] {
            let end = directory.len().min(image.len() - sector * 256);
            image[sector * 256..][..end].copy_from_slice(&directory[..end]);
        }
        assert!(places(&image).len() > 5);
        assert_eq!(speaking(&image), places(&image));
        for round in 0..200 {
            let at = (usize::from(draw()) * 256 + usize::from(draw())) % image.len();
            image[at] = *[0x10, 0xfe, 0xff, b'A', draw()].get(round % 5).unwrap();
            assert_eq!(speaking(&image), places(&image), "{round}");
        }
        for length in [0, 255, 256, 2_560, 2_561] {
            assert_eq!(speaking(&image[..length]), places(&image[..length]), "{length}");
        }
    }

    /// Whether or not the slots are looked at first, the same geometries are consistent: on a disk whose directory has
    /// a chain and names in every part, among zeros, with each byte damaged in turn.
    #[test]
    fn the_library_has_the_last_word() {
        let geometry = Geometry::new(16, 2, 80, 0x4296);
        let mut disk = Disk::blank(geometry, 15, &[0, 2, 4, 6, 8]).unwrap();
        for (name, sectors) in [("A", 30), ("B/DAT", 1), ("C", 0)] {
            let new = NewFile::open(geometry, Date::new(1983, 10, 9));
            let mut handle = disk.create(&name.parse().unwrap(), &new).unwrap().handle;
            for _ in 0..sectors {
                disk.write_record(&mut handle, Kind::Sequential, &[0; 256]).unwrap();
            }
        }
        let mut image = disk.into_image();
        image.iter_mut().filter(|byte| **byte == 0xe5).for_each(|byte| *byte = 0);
        let tried: Vec<Geometry> = super::super::Known::default().fitting(image.len());
        let starts = |readings: Vec<Reading>| readings.iter().map(|reading| reading.geometry).collect::<Vec<_>>();
        let mut found = 0;
        for at in (80 * 256..95 * 256).filter(|at| at % 3 == 0 || (82..84).contains(&(at / 256))) {
            for damage in [0x10, 0xff] {
                let mut image = image.clone();
                image[at] ^= damage;
                let everywhere = everywhere(&image);
                let asked = starts(consistent(&image, &everywhere, &tried));
                let all: Vec<Geometry> = tried
                    .iter()
                    .copied()
                    .filter(|&geometry| Disk::new(image.as_slice(), geometry).check().is_ok())
                    .collect();
                assert_eq!(asked, all, "byte {at}");
                found += all.len();
            }
        }
        assert!(found > 0);
    }
}
