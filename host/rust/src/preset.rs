//! Known kinds of disk.

use crate::Geometry;

/// A known kind of disk.
///
/// ```
/// use genie_dos::{Geometry, Preset};
///
/// let dd40 = Preset::named("dd40").unwrap();
/// assert_eq!(dd40.geometry, Geometry::new(48, 3, 360, Geometry::OPEN_CODE));
/// assert_eq!(Preset::of(dd40.geometry.with_open_code(7)).unwrap().name, "dd40");
/// assert_eq!(Preset::named("floppy"), None);
/// ```
#[derive(Clone, Copy, Debug, PartialEq, Eq)]
#[non_exhaustive]
pub struct Preset {
    /// Its name, as `dd40`.
    pub name: &'static str,
    /// Its geometry, that of a system disk.
    pub geometry: Geometry,
    /// What it is, in a few words.
    pub about: &'static str,
}

const fn preset(name: &'static str, blocks: usize, units: usize, start: usize, about: &'static str) -> Preset {
    Preset { name, geometry: Geometry::new(blocks, units, start, Geometry::OPEN_CODE), about }
}

/// A hard disk of as many granules as there can be, the directory in the middle.
const fn hard(name: &'static str, granule_sectors: usize, about: &'static str) -> Preset {
    let (blocks, units) = (Geometry::MOST_BLOCKS, Geometry::MOST_UNITS);
    let middle = Geometry::new(blocks, units, blocks * units / 2 * granule_sectors, Geometry::OPEN_CODE);
    Preset { name, geometry: middle.with_granule_sectors(granule_sectors), about }
}

/// The system's description gives the units of a block for each density, and the directory's place for 35 tracks (track
/// 17) and for 80 double-density ones (sector 1440); the others follow its rule that the directory lies in the middle.
const PRESETS: &[Preset] = &[
    preset("sample", 16, 2, 80, "the small disk of the examples"),
    preset("sd35", 35, 2, 170, "5 inch, single density, one side, 35 tracks"),
    preset("sd40", 40, 2, 200, "5 inch, single density, one side, 40 tracks"),
    preset("sd80", 80, 2, 400, "5 inch, single density, one side, 80 tracks"),
    preset("sd40ds", 40, 4, 400, "5 inch, single density, two sides, 40 tracks"),
    preset("sd80ds", 80, 4, 800, "5 inch, single density, two sides, 80 tracks"),
    preset("dd40", 48, 3, 360, "5 inch, double density, one side, 40 tracks"),
    preset("dd80", 96, 3, 720, "5 inch, double density, one side, 80 tracks"),
    preset("dd40ds", 48, 6, 720, "5 inch, double density, two sides, 40 tracks"),
    preset("dd80ds", 96, 6, 1440, "5 inch, double density, two sides, 80 tracks"),
    preset("largest", 192, 8, 3840, "the largest disk of granules of 5 sectors"),
    hard("hd10", 10, "a hard disk of granules of 10 sectors"),
    hard("hd20", 20, "a hard disk of granules of 20 sectors, the largest image"),
];

impl Preset {
    /// All of them.
    pub const ALL: &'static [Preset] = PRESETS;

    /// The one that a geometry is of: its open code and the kind of disk, system or data, do not count.
    pub fn of(geometry: Geometry) -> Option<&'static Preset> {
        let shape = |g: Geometry| (g.blocks, g.units, g.start, g.granule_sectors);
        Preset::ALL.iter().find(|preset| shape(preset.geometry) == shape(geometry))
    }

    /// The one of this name, in letters of either size.
    pub fn named(name: &str) -> Option<&'static Preset> {
        Preset::ALL.iter().find(|preset| preset.name.eq_ignore_ascii_case(name))
    }
}

#[cfg(test)]
mod tests {
    use super::*;
    use crate::Disk;

    #[test]
    fn every_preset_is_a_disk() {
        for preset in Preset::ALL {
            let disk = Disk::blank(preset.geometry, 10, &[0]);
            assert!(disk.is_ok(), "{}", preset.name);
            assert_eq!(Preset::of(preset.geometry), Some(preset), "no two alike");
            assert_eq!(Preset::named(&preset.name.to_ascii_uppercase()), Some(preset));
        }
        assert_eq!(Preset::named("sd41"), None);
    }
}
