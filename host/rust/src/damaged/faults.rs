use super::detail::Detail;
use super::evidence::lost_by_flags;
use super::length::presumed;
use super::walks::{bad_entry, bad_extension};
use super::{place, Reading};
use crate::{Disk, Explained, Fault, FaultKind, Geometry, Name, Refusal};
use alloc::vec::Vec;

/// One fault of a disk, as [`Disk::faults`] finds it.
#[derive(Clone, Debug, PartialEq, Eq)]
#[non_exhaustive]
pub struct FaultFound {
    /// Kind and slot, the place, the name of the file that the entry belongs to, and what is wrong in words.
    pub told: Explained,
    /// What exactly is wrong.
    pub detail: Detail,
    /// The slots of the files that it touches, rising: whose entry it is, and whose granule, name or extension is named by it.
    pub touches: Vec<u8>,
    /// The bytes of the image that break the rule or contradict each other, rising: what a dump marks.
    pub bytes: Vec<usize>,
    /// The granules that it names and the disk has, rising.
    pub granules: Vec<usize>,
}

/// A file of a disk that may not be consistent: an entry that is in use and primary, whatever else it is; or one of which only byte
/// 00 says that it is not, while its HIT byte bears out its name.
#[derive(Clone, Copy, Debug, PartialEq, Eq)]
#[non_exhaustive]
pub struct FileFound {
    /// Its slot.
    pub slot: u8,
    /// Its name as the bytes say, well formed or not.
    pub name: Name,
    /// Whether a fault touches it.
    pub touched: bool,
}

/// Every fault of a disk, and its files. [`Disk::faults`] finds them.
#[derive(Clone, Debug, PartialEq, Eq)]
#[non_exhaustive]
pub struct Faults {
    /// By rising slot, and at a slot in the order of the kinds; those without a slot first (directory length) and last
    /// (directory granule). The first one is what the library tells.
    pub found: Vec<FaultFound>,
    /// The files, by rising slot.
    pub files: Vec<FileFound>,
    /// Directory sectors: as the image says, or where that is the fault, those under which the other faults are told.
    pub directory_sectors: usize,
}

impl<B: AsRef<[u8]>> Disk<B> {
    /// Every fault of the disk; none of a consistent one. Refused is only a geometry that the library refuses.
    ///
    /// The library tells the first of them; the others are read off the image by this crate.
    ///
    /// ```
    /// use genie_dos::{Date, Disk, Geometry, NewFile};
    ///
    /// let geometry = Geometry::new(16, 2, 80, 0x4296);
    /// let mut disk = Disk::blank(geometry, 10, &[0])?;
    /// let new = NewFile::open(geometry, Date::new(1983, 10, 9));
    /// for name in ["PULS01/DAT", "PULS02/DAT", "LEER"] {
    ///     disk.create(&name.parse().unwrap(), &new)?;
    /// }
    /// let mut image = disk.into_image();
    /// image[81 * 256 + 0x81] = 0; // the HIT byte of slot 81H
    /// image[82 * 256 + 128 + 0x1E] = 7; // the marker of slot 80H
    ///
    /// let faults = Disk::new(image, geometry).faults()?;
    /// let told: Vec<_> = faults.found.iter().map(|found| (found.told.fault.kind.number(), found.told.fault.slot)).collect();
    /// assert_eq!(told, [(25, Some(0x80)), (22, Some(0x81))]);
    /// let touched: Vec<_> = faults.files.iter().map(|file| file.touched).collect();
    /// assert_eq!(touched, [true, true, false]);
    /// # Ok::<(), genie_dos::Refusal>(())
    /// ```
    pub fn faults(&self) -> Result<Faults, Refusal> {
        let (image, g) = (self.image(), self.geometry());
        read(image, g).map(|(_, faults)| faults).ok_or(Refusal::Geometry)
    }
}

/// What stands in an image, and every fault of it; none where the geometry does not fit.
pub(crate) fn read(image: &[u8], g: Geometry) -> Option<(Reading<'_>, Faults)> {
    if !Reading::fits(image, g) {
        return None;
    }
    let (reading, length) = match Reading::of(image, g) {
        Some(reading) => (reading, None),
        None => {
            let reading = presumed(image, g)?;
            let length = bad_length(&reading, Reading::length_byte(image, g));
            (reading, Some(length))
        }
    };
    let mut all: Vec<FaultFound> = length.into_iter().collect();
    all.extend(found(&reading));
    let files = reading.slots().filter(|&slot| reading.entry(slot).is_file() || lost_by_flags(&reading, slot));
    let files = files.map(|slot| {
        let touched = all.iter().any(|found| found.told.fault.slot.is_some() && found.touches.contains(&slot));
        FileFound { slot, name: reading.entry(slot).name(), touched }
    });
    let files = files.collect();
    let directory_sectors = reading.sectors;
    Some((reading, Faults { found: all, files, directory_sectors }))
}

/// The fault of the directory's length; it touches every file, since which slots there are hangs on it.
fn bad_length(reading: &Reading, above: u8) -> FaultFound {
    let sectors = Reading::LEAST_SECTORS + usize::from(above);
    let detail = match Reading::LENGTHS.contains(&above) {
        true => Detail::PastEnd { sectors, room: reading.granules() * reading.g.granule_sectors - reading.g.start },
        false => Detail::Length { above },
    };
    let mut fault = told(reading, None, detail);
    fault.touches = reading.files().collect();
    fault
}

/// Every fault of a directory whose length is allowed.
pub(crate) fn found(reading: &Reading) -> Vec<FaultFound> {
    let mut all = Vec::new();
    for slot in reading.slots() {
        all.extend(at(reading, slot).into_iter().map(|detail| told(reading, Some(slot), detail)));
    }
    let clear = reading.directory_granules().filter(|&granule| !reading.taken(granule));
    all.extend(clear.map(|granule| told(reading, None, Detail::DirectoryFree { granule })));
    all
}

pub(super) fn told(reading: &Reading, slot: Option<u8>, detail: Detail) -> FaultFound {
    let at = slot.map(place);
    let told = Explained {
        fault: Fault { kind: detail.kind(), slot },
        sector: at.map(|(sector, _)| sector),
        byte: at.map(|(_, byte)| byte),
        image_byte: Some(detail.image_byte(reading, slot)),
        name: slot.and_then(|slot| reading.name_of(slot)),
        message: detail.words(reading, slot),
    };
    let touches = slot.map(|slot| touched(reading, slot, &detail)).unwrap_or_default();
    let (bytes, granules) = (detail.bytes(reading, slot), detail.granules(reading, slot));
    FaultFound { told, detail, touches, bytes, granules }
}

/// The files that a fault of a slot touches, rising.
fn touched(reading: &Reading, slot: u8, detail: &Detail) -> Vec<u8> {
    let met = reading.walks.meetings(slot).map(|meeting| meeting.file);
    let lost = lost_by_flags(reading, slot).then_some(slot);
    let mut files: Vec<u8> = met.chain(reading.file_of(slot)).chain(lost).collect();
    match detail {
        Detail::SameName { lower } | Detail::AlsoIn { lower, .. } => files.extend(reading.file_of(*lower)),
        _ => {}
    }
    files.sort_unstable();
    files.dedup();
    files
}

/// The faults of a slot, in the order of the kinds.
pub(crate) fn at(reading: &Reading, slot: u8) -> Vec<Detail> {
    let entry = reading.entry(slot);
    let mut found = Vec::new();
    found.extend(hit(reading, slot));
    if !entry.in_use() {
        return found;
    }
    if entry.is_file() {
        let name = entry.name();
        found.extend(name.bad_place().map(|place| Detail::NameByte { place, byte: name.as_bytes()[place] }));
        found.extend(entry.bit_five().then_some(Detail::BitFive { flags: entry.flags() }));
        let lower =
            reading.files().take_while(|&lower| lower < slot).find(|&lower| reading.entry(lower).name() == name);
        found.extend(lower.map(|lower| Detail::SameName { lower }));
    }
    found.extend(bad_entry(reading, slot));
    if entry.is_extension() {
        found.extend(bad_extension(reading, slot));
    }
    off_disk(reading, slot, &mut found);
    free(reading, slot, &mut found);
    shared(reading, slot, &mut found);
    if entry.is_file() {
        found.extend(size(reading, slot));
    }
    on_directory(reading, slot, &mut found);
    found
}

fn hit(reading: &Reading, slot: u8) -> Option<Detail> {
    let (hit, entry) = (reading.hit(slot), reading.entry(slot));
    match (entry.in_use(), hit) {
        (false, 0) => None,
        (false, hit) => Some(Detail::HitOfUnused { hit }),
        (true, 0) => Some(Detail::HitZero),
        // "that one's hash isn't tested"
        (true, _) if entry.is_extension() && !bad_extension(reading, slot).is_empty() => None,
        (true, hit) => {
            let file = reading.file_of(slot)?;
            let hash = reading.entry(file).name().hash();
            (hit != hash).then_some(Detail::HitNotHash { hit, hash, file })
        }
    }
}

fn off_disk(reading: &Reading, slot: u8, found: &mut Vec<Detail>) {
    for run in reading.entry(slot).runs(reading.g) {
        if run.unit >= reading.g.units {
            found.push(Detail::UnitTooHigh { run: run.number, unit: run.unit, block: run.block });
        } else if run.last >= reading.granules() {
            found.push(Detail::RunPastEnd { run: run.number, first: run.first, last: run.last });
        }
    }
}

/// The granules of an entry's runs that the disk has, each with the number of its run.
fn numbered(reading: &Reading, slot: u8) -> Vec<(usize, usize)> {
    let runs = reading.entry(slot).runs(reading.g);
    let all = runs.flat_map(|run| run.granules().map(move |granule| (granule, run.number)));
    all.filter(|&(granule, _)| granule < reading.granules()).collect()
}

/// Granules with the numbers of their runs, put together by run.
fn by_run(numbered: impl Iterator<Item = (usize, usize)>) -> Vec<(usize, Vec<usize>)> {
    let mut runs: Vec<(usize, Vec<usize>)> = Vec::new();
    for (granule, run) in numbered {
        match runs.last_mut() {
            Some((last, granules)) if *last == run => granules.push(granule),
            _ => runs.push((run, vec![granule])),
        }
    }
    runs
}

fn free(reading: &Reading, slot: u8, found: &mut Vec<Detail>) {
    let own = numbered(reading, slot).into_iter().filter(|&(granule, _)| !reading.taken(granule));
    found.extend(by_run(own).into_iter().map(|(run, granules)| Detail::Free { granules, run }));
}

fn shared(reading: &Reading, slot: u8, found: &mut Vec<Detail>) {
    let own = numbered(reading, slot);
    let mut with: Vec<(u8, Vec<usize>)> = Vec::new();
    for (i, &(granule, run)) in own.iter().enumerate() {
        if let Some(&(_, first)) = own[..i].iter().find(|&&(earlier, _)| earlier == granule) {
            found.push(Detail::TwiceHere { granule, first, second: run });
            continue;
        }
        for &lower in reading.claims(granule).iter().take_while(|&&other| other < slot) {
            match with.iter_mut().find(|(other, _)| *other == lower) {
                Some((_, granules)) => granules.push(granule),
                None => with.push((lower, vec![granule])),
            }
        }
    }
    with.sort_unstable_by_key(|&(lower, _)| lower);
    found.extend(with.into_iter().map(|(lower, granules)| Detail::AlsoIn { granules, lower }));
}

/// "size to the primary entry, granules counted as the pairs name them, and only where its chain is whole"
fn size(reading: &Reading, file: u8) -> Option<Detail> {
    let mut granules = reading.entry(file).granules_named(reading.g);
    if !reading.walks.ends(file) {
        return None;
    }
    for meeting in reading.walks.of_file(file) {
        if !bad_extension(reading, meeting.slot).is_empty() {
            return None;
        }
        granules += reading.entry(meeting.slot).granules_named(reading.g);
    }
    let entry = reading.entry(file);
    match entry.size() {
        None => Some(Detail::NoSectors { end: entry.end_byte() }),
        Some(size) if size > granules * reading.g.granule_bytes() => Some(Detail::TooLarge { size, granules }),
        Some(_) => None,
    }
}

fn on_directory(reading: &Reading, slot: u8, found: &mut Vec<Detail>) {
    if reading.file_of(slot).map_or(false, |file| reading.entry(file).is_system()) {
        return;
    }
    let directory = reading.directory_granules();
    let own = numbered(reading, slot).into_iter().filter(|(granule, _)| directory.contains(granule));
    found.extend(by_run(own).into_iter().map(|(run, granules)| Detail::OnDirectory { granules, run }));
}

/// The first fault of a kind at a slot that is found, for [`Disk::explain`].
pub(crate) fn first(image: &[u8], g: Geometry, fault: Fault) -> Option<FaultFound> {
    if !Reading::fits(image, g) {
        return None;
    }
    let reading = match (Reading::of(image, g), fault.kind) {
        (Some(reading), _) => reading,
        (None, FaultKind::DirectoryLength) if fault.slot.is_none() => {
            let reading = Reading::with_length(image, g, Reading::LEAST_SECTORS);
            return Some(bad_length(&reading, Reading::length_byte(image, g)));
        }
        (None, _) => return None,
    };
    match fault.slot {
        Some(slot) => {
            let detail = at(&reading, slot).into_iter().find(|detail| detail.kind() == fault.kind)?;
            Some(told(&reading, Some(slot), detail))
        }
        None => {
            let granule = reading.directory_granules().find(|&granule| !reading.taken(granule))?;
            (fault.kind == FaultKind::DirectoryGranule).then(|| told(&reading, None, Detail::DirectoryFree { granule }))
        }
    }
}
