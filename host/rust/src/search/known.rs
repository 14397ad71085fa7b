//! What is known of a geometry before it is searched.

use crate::Geometry;
use alloc::vec::Vec;

/// What is known of a geometry before it is searched; what is left open is found, or has to be stated.
///
/// ```
/// use genie_dos::search::Known;
/// use genie_dos::Geometry;
///
/// let known = Known::default().with_units(3).with_start(360);
/// assert_eq!(known.fitting(184_320), [Geometry::new(48, 3, 360, Geometry::OPEN_CODE)]);
/// assert_eq!(known.with_blocks(48).whole(), Some(Geometry::new(48, 3, 360, Geometry::OPEN_CODE)));
/// ```
#[derive(Clone, Copy, Debug, Default, PartialEq, Eq)]
#[non_exhaustive]
pub struct Known {
    /// Blocks.
    pub blocks: Option<usize>,
    /// Units in a block.
    pub units: Option<usize>,
    /// The directory's first sector.
    pub start: Option<usize>,
    /// The code of "no password"; where it is open, [`Geometry::OPEN_CODE`].
    pub open_code: Option<u16>,
    /// That it is a data disk; where it is not said, it is a system disk.
    pub data_disk: bool,
    /// Sectors in a granule. Where it is open 5 come first, and 10 and 20 are tried only if no geometry with 5 is consistent.
    pub granule_sectors: Option<usize>,
}

impl Known {
    /// The same with so many blocks.
    pub const fn with_blocks(self, blocks: usize) -> Known {
        Known { blocks: Some(blocks), ..self }
    }

    /// The same with so many units in a block.
    pub const fn with_units(self, units: usize) -> Known {
        Known { units: Some(units), ..self }
    }

    /// The same with the directory at this sector. Whoever says that is believed: other places are not looked at.
    pub const fn with_start(self, start: usize) -> Known {
        Known { start: Some(start), ..self }
    }

    /// The same with this code for "no password".
    pub const fn with_open_code(self, open_code: u16) -> Known {
        Known { open_code: Some(open_code), ..self }
    }

    /// The same of a data disk.
    pub const fn with_data_disk(self) -> Known {
        Known { data_disk: true, ..self }
    }

    /// The same with granules of so many sectors.
    pub const fn with_granule_sectors(self, sectors: usize) -> Known {
        Known { granule_sectors: Some(sectors), ..self }
    }

    /// Whether anything is said of blocks, units, start or the size of a granule.
    pub fn says_anything(&self) -> bool {
        self.blocks.or(self.units).or(self.start).or(self.granule_sectors).is_some()
    }

    /// The geometry, if all of it is said; a granule has 5 sectors unless it is said otherwise.
    pub fn whole(&self) -> Option<Geometry> {
        Some(self.completed(self.shaped(self.blocks?, self.units?, self.start?)))
    }

    /// A geometry of these numbers with granules of the size that is said.
    fn shaped(&self, blocks: usize, units: usize, start: usize) -> Geometry {
        let geometry = Geometry::new(blocks, units, start, Geometry::OPEN_CODE);
        geometry.with_granule_sectors(self.granule_sectors.unwrap_or(geometry.granule_sectors))
    }

    /// A geometry that is stated elsewhere, with the open code and the data disk if they are said.
    pub fn completed(&self, stated: Geometry) -> Geometry {
        let open_code = self.open_code.unwrap_or(stated.open_code);
        stated.with_open_code(open_code).with_system_disk(stated.system_disk && !self.data_disk)
    }

    /// Every geometry that agrees with what is said and fits an image of this length. Where nothing is said of it, a granule
    /// has 5 sectors.
    pub fn fitting(&self, image_len: usize) -> Vec<Geometry> {
        let may = |said: Option<usize>, number: usize| said.map_or(true, |said| said == number);
        let mut fitting = Vec::new();
        for units in (1..=Geometry::MOST_UNITS).filter(|&units| may(self.units, units)) {
            for blocks in (1..=Geometry::MOST_BLOCKS).filter(|&blocks| may(self.blocks, blocks)) {
                let shape = self.shaped(blocks, units, 0);
                if shape.image_len() != Some(image_len) {
                    continue;
                }
                let starts = starts(image_len, shape.granule_sectors).filter(|&start| may(self.start, start));
                fitting.extend(starts.map(|start| self.completed(shape.with_start(start))));
            }
        }
        fitting
    }

    /// The same by every size of a granule that may be meant, the usual one first.
    pub fn fitting_any_granule(&self, image_len: usize) -> Vec<Geometry> {
        match self.granule_sectors {
            Some(_) => self.fitting(image_len),
            None => {
                let by_size = |&size: &usize| self.with_granule_sectors(size).fitting(image_len);
                Geometry::GRANULE_SIZES.iter().flat_map(by_size).collect()
            }
        }
    }
}

/// Where the directory of an image of this length may begin: with a granule of so many sectors, ten sectors before the end at
/// the latest.
pub(super) fn starts(image_len: usize, granule_sectors: usize) -> impl Iterator<Item = usize> {
    let sectors = image_len / Geometry::SECTOR_BYTES;
    (0..(sectors + 1).saturating_sub(10)).step_by(granule_sectors.max(1))
}

#[cfg(test)]
mod tests {
    use super::*;

    #[test]
    fn what_fits_a_length() {
        let any = Known::default();
        // Two granules: 2 blocks of 1 unit or 1 block of 2, and only a directory at sector 0 leaves 10 sectors.
        let two: Vec<_> = any.fitting(2560).iter().map(|g| (g.blocks, g.units, g.start)).collect();
        assert_eq!(two, [(2, 1, 0), (1, 2, 0)]);
        // The largest: 192 blocks of 8 units only.
        let largest = any.fitting(1_966_080);
        assert_eq!(largest.len(), 1535);
        assert_eq!(largest.last().map(|g| (g.blocks, g.units, g.start)), Some((192, 8, 7670)));
        for none in [0, 1, 256, 1280, 2559, 1_966_081, 1_966_080 + 1280, 193 * 7 * 1280] {
            assert!(any.fitting(none).is_empty(), "{none}");
        }
        assert_eq!(any.with_units(2).with_start(80).fitting(40_960).len(), 1);
        assert!(any.with_start(81).fitting(40_960).is_empty());
        // Granules of 20 sectors: one holds a directory, and the largest disk has four times the bytes.
        let twenty = any.with_granule_sectors(20);
        assert_eq!(twenty.fitting(5120).len(), 1);
        assert_eq!(twenty.fitting(7_864_320).len(), 1536);
        assert_eq!(twenty.fitting(7_864_320).last().map(|g| (g.start, g.granule_sectors)), Some((30_700, 20)));
        assert!(twenty.fitting(7_864_320 / 2).iter().all(|g| g.start % 20 == 0 && g.blocks * g.units == 768));
        assert!(twenty.fitting(40_961).is_empty() && any.with_granule_sectors(15).fitting(3840).is_empty());
        // Where the size is said, no other is tried; where it is not, 5 come first.
        assert_eq!(twenty.fitting_any_granule(40_960), twenty.fitting(40_960));
        let all = any.fitting_any_granule(40_960);
        assert_eq!(all[..any.fitting(40_960).len()], any.fitting(40_960));
        assert!(all.ends_with(&twenty.fitting(40_960)));
    }
}
