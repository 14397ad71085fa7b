//! How well a geometry fits the directory at its start: what hangs on blocks and units, which is where the runs lie and
//! what the GAT says of them. It is read plainly, consistent or not.

use crate::Geometry;
use alloc::vec::Vec;

/// A geometry held against runs and GAT.
#[derive(Clone, Debug)]
pub struct Fit {
    faults: Vec<Fault>,
    /// Granules that are taken and belong to nothing: reserved, if the geometry is right.
    reserved: usize,
    /// First and last granule of each run, in the order of the slots.
    runs: Vec<(usize, usize)>,
    granule_sectors: usize,
}

/// What does not fit, with all that could be at fault: a run (or two), or a byte of the GAT.
#[derive(Clone, Debug)]
struct Fault {
    runs: Vec<usize>,
    gat_byte: Option<usize>,
}

impl Fit {
    /// Of a geometry that has the image's length; the directory has these sectors.
    pub fn of(image: &[u8], g: Geometry, sectors: usize) -> Fit {
        let byte = |sector: usize, at: usize| {
            image.get((g.start + sector) * Geometry::SECTOR_BYTES + at).copied().unwrap_or(0)
        };
        let granules = g.blocks * g.units;
        let taken = |granule: usize| byte(0, granule / g.units) >> (granule % g.units) & 1 == 1;
        let directory = g.directory_granules(sectors);
        let mut fit = Fit { faults: Vec::new(), reserved: 0, runs: Vec::new(), granule_sectors: g.granule_sectors };
        let mut owner = vec![None; granules];
        for (sector, at) in (2..sectors).flat_map(|sector| (0..256).step_by(32).map(move |at| (sector, at))) {
            let flags = byte(sector, at);
            if flags & 0x10 == 0 {
                continue;
            }
            for pair in (0x16..0x1e).step_by(2) {
                let (block, low) = (usize::from(byte(sector, at + pair)), byte(sector, at + pair + 1));
                if block == 0xff {
                    break;
                }
                let (unit, run) = (usize::from(low >> 5), fit.runs.len());
                let from = block * g.units + unit;
                let to = from + usize::from(low & 0x1f);
                fit.runs.push((from, to));
                if unit >= g.units || to >= granules {
                    fit.faults.push(Fault { runs: vec![run], gat_byte: None });
                    continue;
                }
                for (granule, owner) in owner.iter_mut().enumerate().take(to + 1).skip(from) {
                    if !taken(granule) {
                        fit.faults.push(Fault { runs: vec![run], gat_byte: Some(granule / g.units) });
                    }
                    if directory.contains(&granule) && flags & 0xc0 == 0 {
                        fit.faults.push(Fault { runs: vec![run], gat_byte: None });
                    }
                    if let Some(other) = owner.replace(run) {
                        fit.faults.push(Fault { runs: vec![other, run], gat_byte: None });
                    }
                }
            }
        }
        for granule in directory.clone().filter(|&granule| granule < granules && !taken(granule)) {
            fit.faults.push(Fault { runs: Vec::new(), gat_byte: Some(granule / g.units) });
        }
        let spare = |&granule: &usize| taken(granule) && owner[granule].is_none() && !directory.contains(&granule);
        fit.reserved = (0..granules).filter(spare).count();
        fit
    }

    /// How much does not fit.
    pub fn faults(&self) -> usize {
        self.faults.len()
    }

    /// Whether something does not fit, and one run or one byte of the GAT is all that is at fault.
    pub fn is_one_byte_away(&self) -> bool {
        let one = match self.faults.first() {
            Some(one) => one,
            None => return false,
        };
        let by_run = one.runs.iter().any(|run| self.faults.iter().all(|fault| fault.runs.contains(run)));
        let by_byte = one.gat_byte.is_some() && self.faults.iter().all(|fault| fault.gat_byte == one.gat_byte);
        by_run || by_byte
    }

    /// Granules that the geometry has to call reserved or wrongly marked: what it leaves unexplained.
    pub fn unexplained(&self) -> usize {
        self.reserved + self.faults.len()
    }

    /// Whether every run lies in the same granules under both, so that every file has the same bytes.
    pub fn same_granules(&self, other: &Fit) -> bool {
        self.runs == other.runs && (self.granule_sectors == other.granule_sectors || self.runs.is_empty())
    }
}

#[cfg(test)]
mod tests {
    use super::*;
    use crate::{Date, Disk, Kind, NewFile};

    const GEOMETRY: Geometry = Geometry::new(16, 2, 80, 0x4296);

    fn disk() -> Vec<u8> {
        let mut disk = Disk::blank(GEOMETRY, 10, &[0]).unwrap();
        for name in ["A", "B", "C"] {
            let new = NewFile::open(GEOMETRY, Date::new(1983, 10, 9));
            let mut handle = disk.create(&name.parse().unwrap(), &new).unwrap().handle;
            disk.write_record(&mut handle, Kind::Sequential, &[7; 256]).unwrap();
        }
        disk.into_image()
    }

    fn fit(image: &[u8], blocks: usize, units: usize) -> Fit {
        Fit::of(image, GEOMETRY.with_blocks(blocks).with_units(units), 10)
    }

    #[test]
    fn the_disks_own_geometry_fits() {
        let image = disk();
        let own = fit(&image, 16, 2);
        assert_eq!((own.faults(), own.reserved, own.runs.as_slice()), (0, 1, &[(1, 1), (2, 2), (3, 3)][..]));
        assert!(!own.is_one_byte_away());
        // With 4 units a block the directory's bits are others, both in one byte; two of the files lie elsewhere.
        let other = fit(&image, 8, 4);
        assert_eq!((other.faults(), other.is_one_byte_away()), (2, true));
        assert!(!own.same_granules(&other));
        assert!(other.unexplained() > own.unexplained());
        // With 1 unit a block a run begins at a unit that is none, and the directory's bits are in two bytes.
        assert!(!fit(&image, 32, 1).is_one_byte_away());
    }

    #[test]
    fn one_byte_at_fault() {
        let gat = 80 * 256;
        for (at, byte) in
            [(gat, 1), (gat + 1, 0), (gat + 8, 0), (82 * 256 + 128 + 0x17, 0x3f), (82 * 256 + 128 + 0x16, 90)]
        {
            let mut image = disk();
            image[at] = byte;
            let damaged = fit(&image, 16, 2);
            assert!(damaged.faults() > 0 && damaged.is_one_byte_away(), "{at} {byte}");
            image[gat + 9] = 0;
            image[gat + 8] = 0;
            image[gat + 1] = 0;
            image[gat] = 0;
            assert!(!fit(&image, 16, 2).is_one_byte_away(), "{at} {byte}");
        }
    }
}
