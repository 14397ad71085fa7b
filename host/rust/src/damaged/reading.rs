use super::entry::RawEntry;
use super::walks::Walks;
use crate::{Geometry, Name};
use alloc::vec::Vec;

/// The directory sector and the byte in it at which a slot's entry begins.
pub(crate) fn place(slot: u8) -> (usize, usize) {
    (usize::from(slot % 32) + 2, RawEntry::LEN * usize::from(slot / 32))
}

/// What stands in the directory of an image under a geometry and a length of the directory: entries and HIT bytes as they are,
/// where the chains lead, and which entries name each granule.
pub(crate) struct Reading<'a> {
    image: &'a [u8],
    pub(crate) g: Geometry,
    /// Directory sectors: 10, 15, 20, 25 or 30, all of them on the disk.
    pub(crate) sectors: usize,
    pub(crate) walks: Walks,
    /// Of each granule of the disk the slots in use whose runs name it, rising; a slot stands there once.
    claims: Vec<Vec<u8>>,
}

impl<'a> Reading<'a> {
    /// The place of the length in the HIT sector.
    pub(crate) const LENGTH: usize = 0x1f;
    /// What can stand there: directory sectors above the least.
    pub(crate) const LENGTHS: [u8; 5] = [0, 5, 10, 15, 20];
    pub(crate) const LEAST_SECTORS: usize = 10;

    /// Whether the geometry is one that the library accepts for an image of this length.
    pub(crate) fn fits(image: &[u8], g: Geometry) -> bool {
        let sectors = image.len() / Geometry::SECTOR_BYTES;
        let room = sectors.checked_sub(g.start);
        g.image_len() == Some(image.len()) && g.start % g.granule_sectors == 0 && room >= Some(Self::LEAST_SECTORS)
    }

    /// The byte that tells the directory's length; the geometry must fit.
    pub(crate) fn length_byte(image: &[u8], g: Geometry) -> u8 {
        let at = (g.start + 1) * Geometry::SECTOR_BYTES + Self::LENGTH;
        image.get(at).copied().unwrap_or(0)
    }

    /// The directory sectors that a length byte stands for, if it is allowed and they are all on the disk.
    pub(crate) fn sectors_of(image: &[u8], g: Geometry, above: u8) -> Option<usize> {
        let sectors = Self::LEAST_SECTORS + usize::from(above);
        let room = (image.len() / Geometry::SECTOR_BYTES).checked_sub(g.start)?;
        (Self::LENGTHS.contains(&above) && sectors <= room).then_some(sectors)
    }

    /// As the image itself tells the directory's length; none where geometry or length are not allowed.
    pub(crate) fn of(image: &'a [u8], g: Geometry) -> Option<Reading<'a>> {
        let fits = Self::fits(image, g);
        let sectors = fits.then(|| Self::sectors_of(image, g, Self::length_byte(image, g))).flatten()?;
        Some(Self::with_length(image, g, sectors))
    }

    /// Under another length than the image tells; geometry and length must be allowed.
    pub(crate) fn with_length(image: &'a [u8], g: Geometry, sectors: usize) -> Reading<'a> {
        let mut reading = Reading { image, g, sectors, walks: Walks::none(), claims: Vec::new() };
        reading.walks = Walks::along(&reading);
        reading.claims = vec![Vec::new(); reading.granules()];
        for slot in reading.slots() {
            for granule in reading.on_disk(slot) {
                let claims = &mut reading.claims[granule];
                if claims.last() != Some(&slot) {
                    claims.push(slot);
                }
            }
        }
        reading
    }

    /// Where a byte of a directory sector stands in the image.
    pub(crate) fn at(&self, sector: usize, byte: usize) -> usize {
        (self.g.start + sector) * Geometry::SECTOR_BYTES + byte
    }

    /// Where a slot's entry begins in the image.
    pub(crate) fn entry_at(&self, slot: u8) -> usize {
        let (sector, byte) = place(slot);
        self.at(sector, byte)
    }

    /// Where a slot's HIT byte stands in the image.
    pub(crate) fn hit_at(&self, slot: u8) -> usize {
        self.at(1, slot.into())
    }

    /// Where the GAT byte of a granule stands in the image, and the granule's bit in it.
    pub(crate) fn gat_at(&self, granule: usize) -> (usize, u32) {
        // Units are 1 to 8.
        (self.at(0, granule / self.g.units), (granule % self.g.units) as u32)
    }

    fn byte(&self, at: usize) -> u8 {
        self.image.get(at).copied().unwrap_or(0)
    }

    pub(crate) fn hit(&self, slot: u8) -> u8 {
        self.byte(self.hit_at(slot))
    }

    pub(crate) fn entry(&self, slot: u8) -> RawEntry {
        let from = self.entry_at(slot);
        let bytes = self.image.get(from..from + RawEntry::LEN).and_then(|bytes| bytes.try_into().ok());
        RawEntry(bytes.unwrap_or([0; RawEntry::LEN]))
    }

    pub(crate) fn taken(&self, granule: usize) -> bool {
        let (at, bit) = self.gat_at(granule);
        self.byte(at) >> bit & 1 == 1
    }

    /// Granules of the disk.
    pub(crate) fn granules(&self) -> usize {
        self.image.len() / self.g.granule_bytes()
    }

    pub(crate) fn directory_granules(&self) -> core::ops::Range<usize> {
        self.g.directory_granules(self.sectors)
    }

    pub(crate) fn has_slot(&self, slot: u8) -> bool {
        place(slot).0 < self.sectors
    }

    /// The directory's slots, rising.
    pub(crate) fn slots(&self) -> impl Iterator<Item = u8> {
        let sectors = self.sectors;
        (0..=u8::MAX).filter(move |&slot| place(slot).0 < sectors)
    }

    /// The slots of the files, rising: in use and primary.
    pub(crate) fn files(&self) -> impl Iterator<Item = u8> + '_ {
        self.slots().filter(|&slot| self.entry(slot).is_file())
    }

    /// The granules of an entry's runs that the disk has; nothing where it is not in use.
    pub(crate) fn on_disk(&self, slot: u8) -> impl Iterator<Item = usize> {
        let (entry, granules) = (self.entry(slot), self.granules());
        let runs = entry.in_use().then(|| entry.runs(self.g)).into_iter().flatten();
        runs.flat_map(|run| run.granules()).filter(move |&granule| granule < granules)
    }

    /// The slots in use whose runs name a granule, rising.
    pub(crate) fn claims(&self, granule: usize) -> &[u8] {
        self.claims.get(granule).map_or(&[], Vec::as_slice)
    }

    /// The slot of the file that an entry in use belongs to: the first whose walk meets it.
    pub(crate) fn file_of(&self, slot: u8) -> Option<u8> {
        let entry = self.entry(slot);
        match entry.in_use() && entry.is_extension() {
            true => self.walks.meetings(slot).next().map(|meeting| meeting.file),
            false => entry.is_file().then_some(slot),
        }
    }

    /// That file's name, if it is well formed.
    pub(crate) fn name_of(&self, slot: u8) -> Option<Name> {
        self.file_of(slot).map(|file| self.entry(file).name()).filter(Name::is_well_formed)
    }
}
