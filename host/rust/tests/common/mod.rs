//! What several tests share: numbers that look random and are the same in each run, and disks to damage.
#![allow(dead_code)]

use genie_dos::*;

/// SplitMix64: the same seed gives the same run everywhere.
pub struct Random(u64);

impl Random {
    pub fn new(seed: u64) -> Random {
        Random(seed)
    }

    pub fn draw(&mut self) -> u64 {
        self.0 = self.0.wrapping_add(0x9e37_79b9_7f4a_7c15);
        let mut x = self.0;
        x = (x ^ (x >> 30)).wrapping_mul(0xbf58_476d_1ce4_e5b9);
        x = (x ^ (x >> 27)).wrapping_mul(0x94d0_49bb_1331_11eb);
        x ^ (x >> 31)
    }

    pub fn below(&mut self, end: usize) -> usize {
        (self.draw() % end as u64) as usize
    }

    pub fn byte(&mut self) -> u8 {
        self.draw() as u8
    }

    pub fn one_in(&mut self, number: usize) -> bool {
        self.below(number) == 0
    }

    pub fn pick<'a, T>(&mut self, from: &'a [T]) -> &'a T {
        &from[self.below(from.len())]
    }

    pub fn bytes(&mut self, number: usize) -> Vec<u8> {
        (0..number).map(|_| self.byte()).collect()
    }
}

/// What is promised of any image at all: the first fault found is the library's, mending ends with a copy that the library's check
/// accepts, and its files can be read. Answers whether there was anything to mend.
pub fn feed(disk: &Disk<&[u8]>, read: bool) -> bool {
    let told = disk.check();
    let faults = disk.faults();
    let mended = disk.mend();
    let Ok(faults) = faults else {
        assert_eq!((told, mended.err()), (Err(Refusal::Geometry), Some(Unmended::Refused(Refusal::Geometry))));
        return false;
    };
    let map = disk.map().expect("a map");
    assert_eq!((map.cells.len() * disk.geometry().granule_bytes(), &map.faults), (disk.image().len(), &faults.found));
    let first = faults.found.first().map(|found| found.told.fault);
    assert_eq!(first, told.err().map(|refusal| refusal.fault().expect("a fault")));
    let mended = mended.expect("mended");
    assert_eq!(mended.disk.check(), Ok(()));
    assert_eq!(mended.steps.is_empty(), first.is_none());
    if read {
        let rescued = mended.rescue().expect("read");
        assert_eq!(rescued.len(), mended.disk.entries().unwrap().len());
    }
    if let Some(dropped) = mended.dropped.first() {
        if let Some(other) = Mended::with(disk, dropped).expect("mended") {
            assert_eq!(other.disk.check(), Ok(()));
        }
    }
    !mended.steps.is_empty()
}

/// Where a slot's entry begins in the image.
pub fn entry_at(g: Geometry, slot: u8) -> usize {
    (g.start + usize::from(slot % 32) + 2) * 256 + 32 * usize::from(slot / 32)
}

/// Where a slot's HIT byte stands in the image.
pub fn hit_at(g: Geometry, slot: u8) -> usize {
    (g.start + 1) * 256 + usize::from(slot)
}

/// Where the directory's length stands in the image.
pub fn length_at(g: Geometry) -> usize {
    hit_at(g, 0x1f)
}

/// The slots of a directory, rising.
pub fn slots(sectors: usize) -> impl Iterator<Item = u8> {
    (0..=255u8).filter(move |slot| usize::from(slot % 32) + 2 < sectors)
}

/// A file of a sound disk.
#[derive(Clone, Debug)]
pub struct Known {
    pub name: Name,
    /// The primary entry's slot, then the extensions'.
    pub slots: Vec<u8>,
    pub granules: Vec<usize>,
    pub bytes: Vec<u8>,
}

/// A sound disk and what it holds.
pub struct Sound {
    pub disk: Disk,
    pub sectors: usize,
    pub files: Vec<Known>,
}

/// Geometry and directory sectors.
pub const SHAPES: [(Geometry, usize); 7] = [
    (Geometry::new(16, 2, 80, 0x4296), 10),
    (Geometry::new(48, 3, 360, 0x4296), 15),
    (Geometry::new(24, 4, 240, 0x4296), 20),
    (Geometry::new(20, 6, 300, 0x4296), 30),
    (Geometry::new(14, 8, 0, 0x4296), 25),
    (Geometry::new(20, 4, 400, 0x4296).with_granule_sectors(10), 25),
    (Geometry::new(12, 8, 0, 0x4296).with_granule_sectors(20), 30),
];

impl Sound {
    /// A disk with files of all sizes up to some granules, scattered ones with extensions among them, empty ones, dead entries and
    /// some reserved granules.
    pub fn new((g, sectors): (Geometry, usize), random: &mut Random) -> Sound {
        let granules = g.granules().unwrap();
        let boot = if g.start == 0 { granules - 1 } else { 0 };
        let mut reserved = vec![boot];
        if random.one_in(3) {
            reserved.push((g.directory_granules(sectors).end + 1) % granules);
        }
        let mut disk = Disk::blank(g, sectors, &reserved).unwrap();
        let files = 6 + random.below(11);
        let mut names = Vec::new();
        for number in 0..files {
            let kind = *random.pick(&["DAT", "TXT", "X", ""]);
            let typed = match kind {
                "" => format!("EICH{number:02}"),
                kind => format!("PULS{number:02}/{kind}"),
            };
            let name: Name = typed.parse().unwrap();
            let new = NewFile::open(g, Date::new(1983, 10, 9)).with_record_length(1 + random.below(256));
            match disk.create(&name, &new) {
                Ok(_) => names.push(name),
                Err(Refusal::NoSlot) => break,
                Err(refusal) => panic!("{refusal}"),
            }
        }
        let large: Vec<Name> = names.iter().copied().take(3).collect();
        for _ in 0..40 + random.below(40) {
            let name = if random.one_in(2) { *random.pick(&large) } else { *random.pick(&names) };
            grow(&mut disk, &name, random, large.contains(&name));
        }
        for _ in 0..random.below(4) {
            let name = *random.pick(&names);
            let handle = disk.open(&name, 1, Password::Unchecked);
            if let Ok(handle) = handle {
                disk.kill(&handle).unwrap();
                names.retain(|other| *other != name);
            }
            if names.len() < 4 {
                break;
            }
            let name = *random.pick(&names);
            grow(&mut disk, &name, random, false);
        }
        assert_eq!(disk.check(), Ok(()));
        let files = disk.entries().unwrap().iter().map(|entry| known(&disk, entry)).collect();
        Sound { disk, sectors, files }
    }
}

/// Some bytes more at a file's end, or a granule allotted; small files stay small.
fn grow(disk: &mut Disk, name: &Name, random: &mut Random, large: bool) {
    let entries = disk.entries().unwrap();
    let entry = entries.iter().find(|entry| entry.name() == *name).unwrap();
    let (size, width) = (entry.size(), disk.geometry().granule_bytes());
    let most = if large { 9 * width } else { width + 120 };
    if size >= most || entry.granules() > 10 {
        return;
    }
    if random.one_in(12) {
        let handle = disk.open(name, 1, Password::Unchecked).unwrap();
        let _ = disk.allot(&handle, size / 256 + random.below(disk.geometry().granule_sectors + 1));
        return;
    }
    let step = if large { width } else { 300 };
    let length = 1 + random.below(256);
    let mut handle = disk.open(name, length, Password::Unchecked).unwrap();
    handle.set_position((size + if large { step - length } else { 0 }) as u32);
    let record = random.bytes(length);
    let _ = disk.write_record(&mut handle, Kind::Random, &record);
    // What a jump left as zeros is filled, so that each granule's bytes are its own.
    for at in (size..size + step.saturating_sub(length)).step_by(256).filter(|_| large) {
        let mut handle = disk.open(name, 256, Password::Unchecked).unwrap();
        handle.set_position(at as u32);
        let record = random.bytes(256);
        let _ = disk.write_record(&mut handle, Kind::Random, &record);
    }
}

fn known(disk: &Disk, entry: &Entry) -> Known {
    let (g, image) = (disk.geometry(), disk.image());
    let mut slots = vec![entry.slot()];
    loop {
        let at = entry_at(g, slots[slots.len() - 1]);
        match image[at + 0x1e] {
            0xfe => slots.push(image[at + 0x1f]),
            _ => break,
        }
    }
    let granules = entry.runs().iter().flat_map(|run| run.first..run.first + run.granules).collect();
    let handle = disk.open(&entry.name(), 1, Password::Unchecked).unwrap();
    Known { name: entry.name(), slots, granules, bytes: disk.contents(&handle).unwrap() }
}
