//! Geometry: what the caller states about a disk.

pub const SECTOR_BYTES: usize = 256;
/// 02 §10: "Let the geometry state sectors per granule: 5, 10 or 20."
pub const GRANULE_SIZES: [usize; 3] = [5, 10, 20];
pub const MOST_BLOCKS: usize = 192;
pub const MOST_UNITS: usize = 8;
/// "at least 10 sectors must lie from the directory start to the end"
pub const LEAST_DIRECTORY_SECTORS: usize = 10;

/// "The caller states: blocks 1 to 192, units per block 1 to 8, directory start (a sector number,
/// multiple of 5), and the 16-bit code that stands for "no password"".
#[derive(Clone, Copy, Debug, PartialEq, Eq)]
pub struct Geometry {
    pub blocks: usize,
    pub units: usize,
    pub start: usize,
    pub open_code: u16,
    /// 02 §4: "The geometry gains "system disk" yes or no."
    pub system_disk: bool,
    /// 02 §10: "sectors per granule".
    pub granule_sectors: usize,
}

impl Geometry {
    /// Granules of the disk. Like all below it means something only where `fits` holds.
    pub fn granules(&self) -> usize {
        self.blocks * self.units
    }

    pub fn sectors(&self) -> usize {
        self.granules() * self.granule_sectors
    }

    pub fn granule_bytes(&self) -> usize {
        self.granule_sectors * SECTOR_BYTES
    }

    /// "position (0 to 1,966,080)"; 02 §10: "The highest position becomes 393,216 times that number ..., on every image."
    pub fn highest_position(&self) -> usize {
        393_216 * self.granule_sectors
    }

    /// "sector 0 to 7,679"; 02 §10: "and the highest sector 1,536 times it less one".
    pub fn highest_sector(&self) -> usize {
        1_536 * self.granule_sectors - 1
    }

    /// "Granule number = block × units + unit."
    pub fn granule(&self, block: usize, unit: usize) -> usize {
        block * self.units + unit
    }

    /// "The image length must be blocks × units × 1,280 bytes exactly, and at least 10 sectors must
    /// lie from the directory start to the end." 02 §10: "1 covers any other size." Refusal 1 is given exactly when this does not
    /// hold.
    pub fn fits(&self, image_len: usize) -> bool {
        GRANULE_SIZES.contains(&self.granule_sectors)
            && (1..=MOST_BLOCKS).contains(&self.blocks)
            && (1..=MOST_UNITS).contains(&self.units)
            && self.start.is_multiple_of(self.granule_sectors)
            && image_len == self.granules() * self.granule_bytes()
            && self.start <= self.sectors()
            && self.sectors() - self.start >= LEAST_DIRECTORY_SECTORS
    }
}
