use crate::{Geometry, Listed, Name};
use alloc::vec::Vec;
use core::fmt;

/// A day as the directory keeps it: year 1980 to 1995, month 0 to 15, day 0 to 31.
///
/// ```
/// use genie_dos::Date;
///
/// let date = Date::new(1983, 10, 9);
/// assert_eq!(date.to_string(), "1983-10-09");
/// ```
#[derive(Clone, Copy, Debug, PartialEq, Eq, PartialOrd, Ord, Hash)]
pub struct Date {
    /// The whole year, as 1983.
    pub year: usize,
    /// The month; 1 is January.
    pub month: usize,
    /// The day of the month.
    pub day: usize,
}

impl Date {
    /// The year from which the directory counts.
    pub const FIRST_YEAR: usize = 1980;
    /// The last year that the directory can hold.
    pub const LAST_YEAR: usize = 1995;

    /// A date of any numbers: create refuses those that the directory cannot hold.
    pub const fn new(year: usize, month: usize, day: usize) -> Date {
        Date { year, month, day }
    }
}

impl fmt::Display for Date {
    fn fmt(&self, f: &mut fmt::Formatter<'_>) -> fmt::Result {
        f.pad(&format!("{:04}-{:02}-{:02}", self.year, self.month, self.day))
    }
}

/// Consecutive granules of a file.
#[derive(Clone, Copy, Debug, PartialEq, Eq)]
pub struct Run {
    /// Number of the first granule.
    pub first: usize,
    /// How many granules, 1 to 32.
    pub granules: usize,
}

/// The directory's entry of a file, as [`Disk::entries`](crate::Disk::entries) finds it: what the listing leaves out.
/// Of a dead entry ([`Disk::dead_entries`](crate::Disk::dead_entries)) it is what the bytes say, whatever they are.
#[derive(Clone, Debug, PartialEq, Eq)]
pub struct Entry {
    slot: u8,
    bytes: [u8; Entry::LEN],
    runs: Vec<Run>,
    size: usize,
    granules: usize,
}

impl Entry {
    /// Bytes of an entry.
    pub const LEN: usize = 32;

    /// An entry of any 32 bytes by itself: its accessors tell what the bytes say, whatever they are, and its runs are those of its
    /// own pairs, up to a block FFH.
    ///
    /// ```
    /// use genie_dos::{Entry, Geometry, Run};
    ///
    /// let mut bytes = [0xff; Entry::LEN];
    /// bytes[0x16..0x18].copy_from_slice(&[0x11, 0x42]);
    /// let entry = Entry::from_bytes(0x25, bytes, Geometry::new(40, 3, 90, 0x4296));
    /// assert_eq!(entry.runs(), [Run { first: 53, granules: 3 }]);
    /// ```
    pub fn from_bytes(slot: u8, bytes: [u8; Entry::LEN], geometry: Geometry) -> Entry {
        Entry::with_runs(slot, bytes, own_runs(&bytes, geometry).collect())
    }

    /// An entry whose file lies in these runs.
    fn with_runs(slot: u8, bytes: [u8; Entry::LEN], runs: Vec<Run>) -> Entry {
        let word = |at: usize| usize::from(u16::from_le_bytes([bytes[at], bytes[at + 1]]));
        let size = match usize::from(bytes[0x03]) {
            0 => Geometry::SECTOR_BYTES * word(0x14),
            end => Geometry::SECTOR_BYTES * word(0x14).saturating_sub(1) + end,
        };
        let granules = runs.iter().map(|run| run.granules).sum();
        Entry { slot, bytes, runs, size, granules }
    }

    /// The slot of the primary entry.
    pub fn slot(&self) -> u8 {
        self.slot
    }

    /// The 32 bytes of the primary entry.
    pub fn as_bytes(&self) -> &[u8; Entry::LEN] {
        &self.bytes
    }

    /// The file's name.
    pub fn name(&self) -> Name {
        let mut name = [0; Name::LEN];
        name.copy_from_slice(&self.bytes[0x05..0x10]);
        Name::from_bytes(name)
    }

    /// A system file: not listed, and no call changes it.
    pub fn is_system(&self) -> bool {
        self.bytes[0x00] & 0x40 != 0
    }

    /// The flag "invisible". The library lists such a file all the same.
    pub fn is_invisible(&self) -> bool {
        self.bytes[0x00] & 0x08 != 0
    }

    /// The level that the worker code gives, 0 to 7.
    pub fn level(&self) -> u8 {
        self.bytes[0x00] & 0x07
    }

    /// F: trim leaves the file's space alone.
    pub fn keeps_space(&self) -> bool {
        self.bytes[0x01] & 0x80 != 0
    }

    /// E: the file takes no further granule.
    pub fn may_not_grow(&self) -> bool {
        self.bytes[0x01] & 0x40 != 0
    }

    /// B: the file was written to.
    pub fn was_worked_on(&self) -> bool {
        self.bytes[0x01] & 0x20 != 0
    }

    /// The date given on create.
    pub fn date(&self) -> Date {
        let (year, month) = (self.bytes[0x02] >> 4, self.bytes[0x02] & 0x0f);
        Date::new(Date::FIRST_YEAR + usize::from(year), usize::from(month), usize::from(self.bytes[0x01] & 0x1f))
    }

    /// The record length given on create, 1 to 256.
    pub fn record_length(&self) -> u16 {
        match self.bytes[0x04] {
            0 => 256,
            length => u16::from(length),
        }
    }

    /// The main code: it opens the file at level 0.
    pub fn main_code(&self) -> u16 {
        self.word(0x10)
    }

    /// The worker code: it opens the file at the entry's level.
    pub fn worker_code(&self) -> u16 {
        self.word(0x12)
    }

    /// The file's size in bytes.
    pub fn size(&self) -> usize {
        self.size
    }

    /// Where the file lies, in its own order.
    pub fn runs(&self) -> &[Run] {
        &self.runs
    }

    /// Granules that the file owns.
    pub fn granules(&self) -> usize {
        self.granules
    }

    fn word(&self, at: usize) -> u16 {
        u16::from_le_bytes([self.bytes[at], self.bytes[at + 1]])
    }
}

/// The runs of an entry's own pairs, up to a block FFH.
fn own_runs(bytes: &[u8; Entry::LEN], geometry: Geometry) -> impl Iterator<Item = Run> + '_ {
    let pairs = bytes[0x16..0x1e].chunks_exact(2).take_while(|pair| pair[0] != 0xff);
    pairs.map(move |pair| Run {
        first: usize::from(pair[0]) * geometry.units + usize::from(pair[1] >> 5),
        granules: usize::from(pair[1] & 0x1f) + 1,
    })
}

/// The directory of a disk that was found consistent, read plainly. Every place is looked up safely, so that a
/// mistake here could answer wrongly and no more.
pub(crate) struct Directory<'a> {
    image: &'a [u8],
    geometry: Geometry,
}

impl<'a> Directory<'a> {
    pub(crate) fn new(image: &'a [u8], geometry: Geometry) -> Directory<'a> {
        Directory { image, geometry }
    }

    /// Sectors of the directory: 10, 15, 20, 25 or 30.
    pub(crate) fn sectors(&self) -> usize {
        10 + usize::from(self.sector(1).get(0x1f).copied().unwrap_or(0))
    }

    pub(crate) fn geometry(&self) -> Geometry {
        self.geometry
    }

    /// The GAT byte of a block.
    pub(crate) fn gat(&self, block: usize) -> u8 {
        self.sector(0).get(block).copied().unwrap_or(0xff)
    }

    /// The HIT byte of a slot.
    pub(crate) fn hit(&self, slot: u8) -> u8 {
        self.sector(1).get(usize::from(slot)).copied().unwrap_or(0)
    }

    fn sector(&self, number: usize) -> &'a [u8] {
        let from = (self.geometry.start + number) * Geometry::SECTOR_BYTES;
        self.image.get(from..from + Geometry::SECTOR_BYTES).unwrap_or(&[])
    }

    /// Slot numbers that the directory has, rising: 32 x row + s with s below its sectors less two.
    pub(crate) fn slots(&self) -> impl Iterator<Item = u8> {
        let entry_sectors = self.sectors() - 2;
        (0..=u8::MAX).filter(move |slot| usize::from(slot % 32) < entry_sectors)
    }

    /// The entry's bytes: slot 32 x row + s is in directory sector s + 2 at byte 32 x row.
    fn bytes(&self, slot: u8) -> Option<[u8; Entry::LEN]> {
        let (row, s) = (usize::from(slot / 32), usize::from(slot % 32));
        let bytes = self.sector(s + 2).get(Entry::LEN * row..Entry::LEN * (row + 1))?;
        bytes.try_into().ok()
    }

    /// The entry in a slot by itself, if it is a primary one in use.
    pub(crate) fn entry(&self, slot: u8) -> Option<Entry> {
        let bytes = self.bytes(slot).filter(|bytes| bytes[0x00] & 0x90 == 0x10)?;
        Some(Entry::from_bytes(slot, bytes, self.geometry))
    }

    /// Primary entries in use, by rising slot; size and granules as the rows of the listing tell them, which rise too.
    pub(crate) fn entries(&self, rows: impl Iterator<Item = (u8, Listed)>) -> Vec<Entry> {
        let primary = |bytes: &[u8; Entry::LEN]| bytes[0x00] & 0x90 == 0x10;
        let found = self.slots().filter_map(|slot| Some((slot, self.bytes(slot).filter(primary)?)));
        let mut rows = rows.peekable();
        let told = |(slot, bytes)| {
            let mut entry = Entry::with_runs(slot, bytes, self.runs(bytes));
            if let Some((_, listed)) = rows.next_if(|&(listed, _)| listed == slot) {
                (entry.size, entry.granules) = (listed.size, listed.granules);
            }
            entry
        };
        found.map(told).collect()
    }

    /// Primary entries that are neither in use nor blank, by rising slot.
    pub(crate) fn dead_entries(&self) -> Vec<Entry> {
        let dead = |bytes: &[u8; Entry::LEN]| {
            let blank = bytes.iter().all(|&byte| byte == bytes[0]);
            bytes[0x00] & 0x90 == 0 && !blank
        };
        let found = self.slots().filter_map(|slot| Some((slot, self.bytes(slot).filter(dead)?)));
        found.map(|(slot, bytes)| Entry::with_runs(slot, bytes, self.runs(bytes))).collect()
    }

    /// The last entry of the file at a slot, by itself.
    pub(crate) fn last_entry_of(&self, slot: u8) -> Option<Entry> {
        let last = self.chain(self.bytes(slot)?).pop()?;
        Some(Entry::from_bytes(slot, last, self.geometry))
    }

    /// The runs of an entry and of its extensions.
    fn runs(&self, primary: [u8; Entry::LEN]) -> Vec<Run> {
        self.chain(primary).iter().flat_map(|bytes| own_runs(bytes, self.geometry)).collect()
    }

    /// An entry and its extensions. No chain is longer than the number of slots.
    fn chain(&self, primary: [u8; Entry::LEN]) -> Vec<[u8; Entry::LEN]> {
        let mut entries = vec![primary];
        let mut last = primary;
        while entries.len() <= usize::from(u8::MAX) {
            match (last[0x1e], self.bytes(last[0x1f])) {
                (0xfe, Some(next)) => last = next,
                _ => break,
            }
            entries.push(last);
        }
        entries
    }
}

#[cfg(test)]
mod tests {
    use super::*;
    use alloc::string::ToString;

    fn entry(bytes: [u8; 32]) -> Entry {
        Entry::with_runs(0x25, bytes, vec![Run { first: 53, granules: 3 }, Run { first: 2, granules: 1 }])
    }

    #[test]
    fn the_bytes_of_an_entry() {
        let mut bytes = [0; 32];
        bytes[..5].copy_from_slice(&[0x5d, 0xe9, 0x3a, 1, 80]);
        bytes[5..16].copy_from_slice(b"PULS01  DAT");
        bytes[16..22].copy_from_slice(&[0x96, 0x42, 0x34, 0x12, 2, 0]);
        let e = entry(bytes);
        assert_eq!(e.slot(), 0x25);
        assert_eq!(e.name().to_string(), "PULS01/DAT");
        assert!(e.is_system() && e.is_invisible());
        assert_eq!(e.level(), 5);
        assert!(e.keeps_space() && e.may_not_grow() && e.was_worked_on());
        // 9 October 1983: day 9, byte 02 is 3AH.
        assert_eq!(e.date(), Date::new(1983, 10, 9));
        assert_eq!(e.record_length(), 80);
        assert_eq!((e.main_code(), e.worker_code()), (0x4296, 0x1234));
        assert_eq!(e.size(), 257);
        assert_eq!(e.granules(), 4);
    }

    #[test]
    fn sizes() {
        for (size, sectors, end) in [(0, 0, 0), (255, 1, 255), (256, 1, 0), (257, 2, 1)] {
            let mut bytes = [0; 32];
            bytes[0x03] = end;
            bytes[0x14] = sectors;
            assert_eq!(entry(bytes).size(), size);
        }
        assert_eq!(entry([0; 32]).record_length(), 256);
        assert_eq!(entry([0; 32]).date().to_string(), "1980-00-00");
        assert!(!entry([0; 32]).is_system());
    }
}
