/// What the caller states about a disk: its shape, where its directory begins, the code of "no password", whether it is a
/// system disk, and how large its granules are.
///
/// A disk has `blocks` blocks of `units` granules each. A granule is 5 sectors of 256 bytes, unless 10 or 20 are stated, as
/// for hard disks. The numbers may be anything: the library answers
/// [`Refusal::Geometry`](crate::Refusal::Geometry) to those that are not allowed.
///
/// ```
/// use genie_dos::Geometry;
///
/// // 80 tracks, two sides, double density: 96 blocks of 6 units, directory at sector 1440.
/// let geometry = Geometry::new(96, 6, 1440, 0x4296);
/// assert_eq!(geometry.granules(), Some(576));
/// assert_eq!(geometry.image_len(), Some(737_280));
/// assert_eq!(Geometry::new(193, 6, 1440, 0x4296).image_len(), None);
///
/// // A disk is a system disk unless it is called a data disk; `with_...` changes one statement and keeps the others.
/// assert!(geometry.system_disk);
/// let data = geometry.with_system_disk(false);
/// assert_eq!(data.with_system_disk(true), geometry);
///
/// // A hard disk with granules of 20 sectors: the largest image that there can be.
/// let hard = Geometry::new(192, 8, 0, 0x4296).with_granule_sectors(20);
/// assert_eq!((geometry.granule_sectors, geometry.granule_bytes(), hard.granule_bytes()), (5, 1280, 5120));
/// assert_eq!(hard.image_len(), Some(Geometry::MOST_BYTES));
/// assert_eq!(hard.with_granule_sectors(15).image_len(), None);
/// ```
///
/// More may come to be stated: so a geometry is made by [`new`](Geometry::new) and altered by `with_...`.
#[derive(Clone, Copy, Debug, PartialEq, Eq, Hash)]
#[non_exhaustive]
pub struct Geometry {
    /// Blocks, 1 to 192.
    pub blocks: usize,
    /// Units (granules) in a block, 1 to 8.
    pub units: usize,
    /// The directory's first sector, a multiple of `granule_sectors`, at least 10 sectors before the end.
    pub start: usize,
    /// The password code that stands for "no password".
    pub open_code: u16,
    /// Whether it is a system disk, which keeps 32 slots for system files. A data disk keeps two, and so takes 30 files
    /// more. Nothing on a disk says which it is: a disk is consistent as the one if it is as the other.
    pub system_disk: bool,
    /// Sectors in a granule: 5, 10 or 20. The directory has 10 to 30 sectors whatever it is, and every granule that it
    /// touches is the directory's. Nothing on a disk says how large its granules are.
    pub granule_sectors: usize,
}

impl Geometry {
    /// The code of "no password" where none is stated: the TRSDOS family's code of a blank password.
    pub const OPEN_CODE: u16 = 0x4296;
    /// Bytes in a sector.
    pub const SECTOR_BYTES: usize = 256;
    /// Sectors that a granule can have; the first is meant where nothing is stated.
    pub const GRANULE_SIZES: [usize; 3] = [5, 10, 20];
    /// Most blocks that a disk can have.
    pub const MOST_BLOCKS: usize = 192;
    /// Most units that a block can have.
    pub const MOST_UNITS: usize = 8;
    /// Bytes of the largest image, whatever the size of its granules.
    pub const MOST_BYTES: usize = Self::MOST_BLOCKS * Self::MOST_UNITS * Self::GRANULE_SIZES[2] * Self::SECTOR_BYTES;

    /// The geometry of a system disk with granules of 5 sectors by these numbers, in the order in which the library takes
    /// them.
    pub const fn new(blocks: usize, units: usize, start: usize, open_code: u16) -> Geometry {
        Geometry { blocks, units, start, open_code, system_disk: true, granule_sectors: Self::GRANULE_SIZES[0] }
    }

    /// The same with so many blocks.
    pub const fn with_blocks(self, blocks: usize) -> Geometry {
        Geometry { blocks, ..self }
    }

    /// The same with so many units in a block.
    pub const fn with_units(self, units: usize) -> Geometry {
        Geometry { units, ..self }
    }

    /// The same with the directory at this sector.
    pub const fn with_start(self, start: usize) -> Geometry {
        Geometry { start, ..self }
    }

    /// The same with this code for "no password".
    pub const fn with_open_code(self, open_code: u16) -> Geometry {
        Geometry { open_code, ..self }
    }

    /// The same of a system disk (true) or of a data disk (false).
    pub const fn with_system_disk(self, system_disk: bool) -> Geometry {
        Geometry { system_disk, ..self }
    }

    /// The same with granules of so many sectors: 5, 10 or 20.
    pub const fn with_granule_sectors(self, granule_sectors: usize) -> Geometry {
        Geometry { granule_sectors, ..self }
    }

    /// Bytes in a granule.
    pub const fn granule_bytes(&self) -> usize {
        self.granule_sectors.saturating_mul(Self::SECTOR_BYTES)
    }

    /// The highest position in a file: the bytes of the largest disk with granules of this size, however small this one is.
    pub const fn highest_position(&self) -> usize {
        self.granule_bytes().saturating_mul(Self::MOST_BLOCKS * Self::MOST_UNITS)
    }

    /// Granules of such a disk, if blocks and units are in range.
    pub fn granules(&self) -> Option<usize> {
        let in_range = (1..=Self::MOST_BLOCKS).contains(&self.blocks) && (1..=Self::MOST_UNITS).contains(&self.units);
        in_range.then(|| self.blocks * self.units)
    }

    /// Granules that so many bytes need.
    pub const fn granules_for(&self, bytes: usize) -> usize {
        match self.granule_bytes() {
            // No size of a granule: no call accepts it.
            0 => bytes,
            width => bytes / width + (bytes % width != 0) as usize,
        }
    }

    /// The granules of a directory of so many sectors, those that it only touches included.
    pub fn directory_granules(&self, sectors: usize) -> core::ops::Range<usize> {
        let first = self.start / self.granule_sectors.max(1);
        first..first + self.granules_for(sectors.saturating_mul(Self::SECTOR_BYTES))
    }

    /// Bytes that an image of such a disk must have, if blocks, units and the size of a granule are in range.
    pub fn image_len(&self) -> Option<usize> {
        let granules = self.granules().filter(|_| Self::GRANULE_SIZES.contains(&self.granule_sectors));
        granules.map(|granules| granules * self.granule_bytes())
    }
}
