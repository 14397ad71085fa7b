use crate::damaged::{read, Reading};
use crate::{Disk, FaultFound, Geometry, Name, Refusal, Run};
use alloc::string::{String, ToString};
use alloc::vec::Vec;

/// A disk's granules. [`Disk::map`] makes it.
#[derive(Clone, Debug, PartialEq, Eq)]
#[non_exhaustive]
pub struct Map {
    /// The disk's geometry.
    pub geometry: Geometry,
    /// Directory sectors: as the image says, or where that is a fault, those for which most speaks.
    pub directory_sectors: usize,
    /// One for each granule, by rising number.
    pub cells: Vec<Cell>,
    /// The files, system files included, by rising slot.
    pub files: Vec<MappedFile>,
    /// Every fault; none of a consistent disk.
    pub faults: Vec<FaultFound>,
}

/// A granule.
#[derive(Clone, Debug, PartialEq, Eq)]
#[non_exhaustive]
pub struct Cell {
    /// Its number: block x units + unit.
    pub granule: usize,
    /// Its block.
    pub block: usize,
    /// Its unit in the block.
    pub unit: usize,
    /// Whether its GAT bit is set.
    pub taken: bool,
    /// What it holds.
    pub holds: Holds,
    /// The runs of entries in use that name it, by rising slot.
    pub parts: Vec<Part>,
    /// The faults that mark it: places in [`Map::faults`].
    pub faults: Vec<usize>,
}

/// What a granule holds.
#[derive(Clone, Copy, Debug, PartialEq, Eq, Hash)]
#[non_exhaustive]
pub enum Holds {
    /// Nothing: its GAT bit is clear, and it is in no run.
    Free,
    /// "A set granule in no run is reserved."
    Reserved,
    /// A part of the directory, in a run (as of a system file that is the directory) or in none.
    Directory,
    /// One file's bytes.
    File,
    /// It is in more than one run.
    Shared,
    /// Taken by nobody: the one run that names it is an extension's in no file's chain.
    Nobody,
}

/// A granule's place in a run.
#[derive(Clone, Copy, Debug, PartialEq, Eq)]
#[non_exhaustive]
pub struct Part {
    /// The slot of the file; none for an extension in no file's chain.
    pub file: Option<u8>,
    /// The slot of the entry whose run it is: the file's own, or an extension's.
    pub slot: u8,
    /// The run's number in the file, from 1; where there is no file, in the entry.
    pub run: usize,
    /// The granule's place in the run, from 0.
    pub index: usize,
    /// Granules of the run.
    pub of: usize,
}

/// A file of a [`Map`]: an entry that is in use and primary.
#[derive(Clone, Debug, PartialEq, Eq)]
#[non_exhaustive]
pub struct MappedFile {
    /// Its slot.
    pub slot: u8,
    /// Its name as the bytes say, well formed or not.
    pub name: Name,
    /// What the cells show it by.
    pub tag: String,
    /// Whether a fault touches it.
    pub touched: bool,
    /// The slots of its entries: its own, then its extensions' as far as its chain can be walked.
    pub slots: Vec<u8>,
    /// Their runs, on the disk or not.
    pub runs: Vec<Run>,
}

impl Holds {
    /// In one word, for programs: `free`, `reserved`, `directory`, `file`, `shared`, `nobody`.
    pub const fn word(self) -> &'static str {
        match self {
            Holds::Free => "free",
            Holds::Reserved => "reserved",
            Holds::Directory => "directory",
            Holds::File => "file",
            Holds::Shared => "shared",
            Holds::Nobody => "nobody",
        }
    }
}

impl<B: AsRef<[u8]>> Disk<B> {
    /// The disk's granules, one cell each, whether the disk is consistent or not. Refused is only a geometry that the library
    /// refuses.
    ///
    /// ```
    /// use genie_dos::{Date, Disk, Geometry, Holds, NewFile};
    ///
    /// let geometry = Geometry::new(16, 2, 80, 0x4296);
    /// let mut disk = Disk::blank(geometry, 10, &[0])?;
    /// let handle = disk.create(&"PULS01/DAT".parse().unwrap(), &NewFile::open(geometry, Date::new(1983, 10, 9)))?.handle;
    /// disk.allot(&handle, 9)?;
    ///
    /// let map = disk.map()?;
    /// assert_eq!(map.cells[0].holds, Holds::Reserved);
    /// let second = &map.cells[2];
    /// assert_eq!((second.block, second.unit, second.holds), (1, 0, Holds::File));
    /// assert_eq!((second.parts[0].file, second.parts[0].run, second.parts[0].index), (Some(0x80), 1, 1));
    /// assert_eq!(map.words(second), "granule 2 (block 1, unit 0; sectors 10 to 14): PULS01/DAT (slot 80H), run 1, granule 2 of 2");
    /// # Ok::<(), genie_dos::Refusal>(())
    /// ```
    pub fn map(&self) -> Result<Map, Refusal> {
        let geometry = self.geometry();
        let (reading, faults) = read(self.image(), geometry).ok_or(Refusal::Geometry)?;
        let mut parts = vec![Vec::new(); reading.granules()];
        let mut files: Vec<MappedFile> = Vec::new();
        for slot in reading.files() {
            let touched = faults.files.iter().any(|file| file.slot == slot && file.touched);
            let slots = chain(&reading, slot);
            let mut runs = Vec::new();
            for &own in &slots {
                runs.extend(name_granules(&reading, Some(slot), own, runs.len(), &mut parts));
            }
            let name = reading.entry(slot).name();
            files.push(MappedFile { slot, name, tag: tag(files.len()), touched, slots, runs });
        }
        for slot in reading.slots().filter(|&slot| reading.entry(slot).in_use() && reading.file_of(slot).is_none()) {
            name_granules(&reading, None, slot, 0, &mut parts);
        }
        let marks = marks(&faults.found, geometry, reading.granules());
        let directory = reading.directory_granules();
        let cells = parts.into_iter().zip(marks).enumerate().map(|(granule, (mut parts, faults))| {
            parts.sort_by_key(|part| part.slot);
            let taken = reading.taken(granule);
            let holds = match parts.as_slice() {
                _ if directory.contains(&granule) => Holds::Directory,
                [] if taken => Holds::Reserved,
                [] => Holds::Free,
                [Part { file: Some(_), .. }] => Holds::File,
                [_] => Holds::Nobody,
                _ => Holds::Shared,
            };
            let (block, unit) = (granule / geometry.units, granule % geometry.units);
            Cell { granule, block, unit, taken, holds, parts, faults }
        });
        let cells = cells.collect();
        Ok(Map { geometry, directory_sectors: faults.directory_sectors, cells, files, faults: faults.found })
    }
}

/// The faults that mark each granule.
fn marks(faults: &[FaultFound], g: Geometry, granules: usize) -> Vec<Vec<usize>> {
    let mut marks: Vec<Vec<usize>> = vec![Vec::new(); granules];
    for (place, fault) in faults.iter().enumerate() {
        let of_bytes = fault.bytes.iter().map(|byte| byte / g.granule_bytes());
        for granule in fault.granules.iter().copied().chain(of_bytes) {
            if let Some(marks) = marks.get_mut(granule).filter(|marks| marks.last() != Some(&place)) {
                marks.push(place);
            }
        }
    }
    marks
}

/// The slots of a file's entries, in its order.
fn chain(reading: &Reading, file: u8) -> Vec<u8> {
    let mut slots = vec![file];
    for slot in reading.walks.of_file(file).map(|meeting| meeting.slot) {
        // An extension that two walks meet is the first one's, and one that a walk meets twice stands there once.
        if reading.file_of(slot) == Some(file) && !slots.contains(&slot) {
            slots.push(slot);
        }
    }
    slots
}

/// Gives each granule of an entry's runs that the disk has its part; `before` runs stand before them.
fn name_granules(reading: &Reading, file: Option<u8>, slot: u8, before: usize, parts: &mut [Vec<Part>]) -> Vec<Run> {
    let mut runs = Vec::new();
    for run in reading.entry(slot).runs(reading.g) {
        for (index, granule) in run.granules().enumerate() {
            if let Some(parts) = parts.get_mut(granule) {
                parts.push(Part { file, slot, run: before + run.number, index, of: run.len() });
            }
        }
        runs.push(Run { first: run.first, granules: run.len() });
    }
    runs
}

/// A to Z, then AA to ZZ: more than a directory has slots.
fn tag(number: usize) -> String {
    let letter = |number: usize| char::from(b'A' + (number % 26) as u8);
    match number / 26 {
        0 => letter(number).to_string(),
        above => format!("{}{}", letter(above - 1), letter(number)),
    }
}

#[cfg(test)]
mod tests {
    use super::tag;
    use alloc::string::String;
    use alloc::vec::Vec;

    #[test]
    fn tags_differ() {
        assert_eq!([tag(0), tag(25), tag(26), tag(51), tag(52)], ["A", "Z", "AA", "AZ", "BA"]);
        let mut tags: Vec<String> = (0..256).map(tag).collect();
        tags.sort();
        tags.dedup();
        assert_eq!(tags.len(), 256);
        assert!(tags.iter().all(|tag| tag.len() <= 2));
    }
}
