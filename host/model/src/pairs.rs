//! Pairs of disks for request 02, §1: compare as a call on any library, the same files laid out on another disk, and
//! changes of one thing with the differences that must then be told.

use crate::call::Lent;
use crate::calls::{Number, ACCEPTED};
use crate::differences::{Difference, CONTENTS, DATE, NO_MORE, ONLY_IN_FIRST, ONLY_IN_SECOND, OTHER, SIZE, UNLIKE};
use crate::directory::{
    directory_granules, entry_place, hit_place, put_entry, set_taken, slots, Entry, Pair, ENTRY_BYTES,
    EXTENSION_FLAGS, LENGTH_PLACE, MARKER_LAST, MARKER_LINK, PAIRS,
};
use crate::disks::{directory_lengths, random_granule_sectors, random_name, Disk};
use crate::geometry::{Geometry, LEAST_DIRECTORY_SECTORS, MOST_BLOCKS, MOST_UNITS, SECTOR_BYTES};
use crate::library::Library;
use crate::names::{hash, Name, FULL_NAME_BYTES};
use crate::plain::{File, Files};
use crate::random::Random;
use crate::space::LONGEST_RUN;

/// An image and its geometry.
pub type Side<'a> = (&'a [u8], &'a Geometry);

/// The side of a disk.
pub fn side(disk: &Disk) -> Side<'_> {
    (&disk.image, &disk.g)
}

/// All that compare answers and leaves.
#[derive(Clone, Debug, PartialEq, Eq)]
pub struct Told {
    pub number: Number,
    pub image: usize,
    pub kind: usize,
    pub position: usize,
    pub flags: usize,
    pub fault_slot: usize,
    pub name: Vec<u8>,
    /// Nothing was written beside the name buffer.
    pub within: bool,
}

/// What outgoing numbers hold before the call: whoever leaves one alone is found out.
const UNSET: usize = 0x5EED_0B57_AC1E_D00D;

/// Compare with a name buffer of this content.
pub fn tell(library: &dyn Library, (first, g): Side, (second, h): Side, number: usize, room: &[u8]) -> Told {
    let mut name = Lent::new(room);
    let (mut image, mut kind, mut position, mut flags) = (UNSET, UNSET, UNSET, UNSET);
    let mut fault_slot = UNSET;
    let answer = library.compare(
        first,
        g,
        second,
        h,
        number,
        name.lend(),
        &mut image,
        &mut kind,
        &mut position,
        &mut flags,
        &mut fault_slot,
    );
    let (within, name) = (name.edges_whole(), name.bytes().to_vec());
    Told { number: answer, image, kind, position, flags, fault_slot, name, within }
}

/// All differences, one a call from 0 up to "no more"; or the refusal and the image that it names. Panics if an answer is
/// not as every answer must be: the name buffer's rest untouched, its beginning too where there is no name to tell.
pub fn tell_all(library: &dyn Library, first: Side, second: Side) -> Result<Vec<Difference>, (Number, usize)> {
    let room: Vec<u8> = (0..FULL_NAME_BYTES as u8 + 5).map(|i| 0xE0 + i).collect();
    let mut all = Vec::new();
    loop {
        let told = tell(library, first, second, all.len(), &room);
        assert!(told.within);
        assert_eq!(told.name[FULL_NAME_BYTES..], room[FULL_NAME_BYTES..], "the buffer's rest");
        if told.kind == NO_MORE {
            assert_eq!((told.position, told.flags), (0, 0));
            assert_eq!(told.name, room);
        }
        if told.number != ACCEPTED {
            assert_eq!(told.kind, NO_MORE);
            return Err((told.number, told.image));
        }
        assert_eq!(told.image, 0);
        if told.kind == NO_MORE {
            return Ok(all);
        }
        let name = told.name[..FULL_NAME_BYTES].try_into().expect("11 bytes");
        all.push(Difference { name, kind: told.kind, position: told.position, flags: told.flags });
    }
}

/// The same differences seen from the other side.
pub fn swapped(all: &[Difference]) -> Vec<Difference> {
    let other = |kind: usize| match kind {
        ONLY_IN_FIRST => ONLY_IN_SECOND,
        ONLY_IN_SECOND => ONLY_IN_FIRST,
        kind => kind,
    };
    all.iter().map(|one| Difference { kind: other(one.kind), ..one.clone() }).collect()
}

/// A disk that holds these files. Its geometry, their slots and granules, surplus granules, and all that is no file are
/// drawn at random. None if a hundred trials find no room for them.
pub fn holding(random: &mut Random, files: &Files) -> Option<Disk> {
    (0..100).find_map(|_| try_holding(random, files))
}

fn try_holding(random: &mut Random, files: &Files) -> Option<Disk> {
    let granule_sectors = random_granule_sectors(random);
    let width = granule_sectors * SECTOR_BYTES;
    let needed: usize = files.values().map(|file| file.bytes.len().div_ceil(width)).sum();
    let d = *random.pick(&directory_lengths(usize::MAX));
    let directory = d.div_ceil(granule_sectors);
    let least = needed + directory;
    let units = if least > MOST_BLOCKS { MOST_UNITS } else { random.within(1, MOST_UNITS) };
    let blocks = (least + random.within(0, least / 2 + 8)).div_ceil(units).min(MOST_BLOCKS);
    if blocks * units < least {
        return None;
    }
    let start = random.within(0, blocks * units - directory) * granule_sectors;
    let (open_code, system_disk) = (random.draw() as u16, random.percent(60));
    let g = Geometry { blocks, units, start, open_code, system_disk, granule_sectors };

    let mut image = vec![0; g.granules() * width];
    random.fill(&mut image);
    image[hit_place(&g, LENGTH_PLACE as u8)] = (d - LEAST_DIRECTORY_SECTORS) as u8;
    let mut free_slots: Vec<u8> = slots(d).collect();
    for &slot in &free_slots {
        image[hit_place(&g, slot)] = 0;
        image[entry_place(&g, slot)] &= !(1 << 4);
    }
    random.shuffle(&mut free_slots);

    // Granules in the order in which files get them: as they stand, from some place on, or scattered.
    let mut pool: Vec<usize> =
        (0..g.granules()).filter(|granule| !directory_granules(&g, d).contains(granule)).collect();
    match random.within(0, 2) {
        0 => random.shuffle(&mut pool),
        1 if !pool.is_empty() => {
            let from = random.within(0, pool.len() - 1);
            pool.rotate_left(from);
        }
        _ => {}
    }
    let mut surplus = pool.len() - needed;
    for granule in 0..g.granules() {
        set_taken(&mut image, &g, granule, directory_granules(&g, d).contains(&granule));
    }

    let mut names: Vec<&Name> = files.keys().collect();
    random.shuffle(&mut names);
    let mut taken = pool.into_iter();
    for name in names {
        let file = &files[name];
        let more = if random.percent(30) { random.within(0, surplus.min(3)) } else { 0 };
        surplus -= more;
        let own: Vec<usize> = taken.by_ref().take(file.bytes.len().div_ceil(width) + more).collect();
        for (part, &granule) in file.bytes.chunks(width).zip(&own) {
            image[granule * width..][..part.len()].copy_from_slice(part);
        }
        for &granule in &own {
            set_taken(&mut image, &g, granule, true);
        }
        let runs = runs(random, &g, &own);
        let entries = runs.len().div_ceil(PAIRS).max(1);
        if free_slots.len() < entries {
            return None;
        }
        let chain: Vec<u8> = free_slots.drain(..entries).collect();
        put_file(&mut image, &g, name, file, &runs, &chain);
    }
    // Reserved granules.
    for granule in taken {
        if random.percent(20) {
            set_taken(&mut image, &g, granule, true);
        }
    }
    Some(Disk { g, image, codes: vec![g.open_code] })
}

/// The pairs of granules in a file's order; a run may be broken off early.
fn runs(random: &mut Random, g: &Geometry, granules: &[usize]) -> Vec<Pair> {
    let mut pairs: Vec<Pair> = Vec::new();
    let mut end = None;
    for &granule in granules {
        match pairs.last_mut() {
            Some(last)
                if end == Some(granule) && usize::from(last.further) + 1 < LONGEST_RUN && random.percent(97) =>
            {
                last.further += 1;
            }
            _ => pairs.push(Pair::of_granule(g, granule)),
        }
        end = Some(granule + 1);
    }
    pairs
}

fn put_file(image: &mut [u8], g: &Geometry, name: &Name, file: &File, runs: &[Pair], chain: &[u8]) {
    for (i, &slot) in chain.iter().enumerate() {
        let mut bytes = Entry([0; ENTRY_BYTES]);
        if i == 0 {
            let attributes = &file.attributes;
            bytes.0[0x00..0x03].copy_from_slice(&attributes[..3]);
            bytes.0[0x04] = attributes[3];
            bytes.0[0x05..0x10].copy_from_slice(name);
            bytes.0[0x10..0x14].copy_from_slice(&attributes[4..]);
            bytes.set_size(file.bytes.len());
        } else {
            (bytes.0[0x00], bytes.0[0x01]) = (EXTENSION_FLAGS, chain[i - 1]);
        }
        bytes.0[0x16..].fill(0xFF);
        for (pair, &run) in runs.iter().skip(PAIRS * i).take(PAIRS).enumerate() {
            bytes.set_pair(pair, run);
        }
        match chain.get(i + 1) {
            Some(&next) => bytes.set_link(MARKER_LINK, next),
            None => bytes.set_link(MARKER_LAST, 0xFF),
        }
        put_entry(image, g, slot, &bytes);
        image[hit_place(g, slot)] = hash(name);
    }
}

/// One thing that can become otherwise between two disks.
#[derive(Clone, Copy, Debug, PartialEq, Eq)]
pub enum Change {
    Byte,
    Longer,
    Shorter,
    Date,
    Attribute,
    Rename,
    Kill,
    New,
    /// A file becomes a system file, and its content another.
    BecomesSystem,
    /// A system file's content and attributes.
    OfSystem,
    /// Nothing but the places of files.
    Placement,
}

pub const CHANGES: [Change; 11] = [
    Change::Byte,
    Change::Longer,
    Change::Shorter,
    Change::Date,
    Change::Attribute,
    Change::Rename,
    Change::Kill,
    Change::New,
    Change::BecomesSystem,
    Change::OfSystem,
    Change::Placement,
];

const SYSTEM: u8 = 0x40;

impl Change {
    /// Changes one file of a list and says which differences must be told: by the change itself, not by comparing. None
    /// if the list has nothing to change so; it is then as it was.
    pub fn apply(self, random: &mut Random, files: &mut Files) -> Option<Vec<Difference>> {
        let is_system = |file: &File| file.attributes[0] & SYSTEM != 0;
        let wanted = |file: &File| match self {
            Change::OfSystem => is_system(file),
            Change::Byte | Change::Shorter => !is_system(file) && !file.bytes.is_empty(),
            Change::Rename | Change::Kill => true,
            _ => !is_system(file),
        };
        let good: Vec<Name> = files.iter().filter(|(_, file)| wanted(file)).map(|(name, _)| *name).collect();
        let told = |name: Name, kind: usize| Difference { name, kind, position: 0, flags: 0 };
        match self {
            Change::Placement => return Some(Vec::new()),
            Change::New => {
                let name = new_name(random, files);
                let mut bytes = vec![0; random.within(0, 2000)];
                random.fill(&mut bytes);
                let mut attributes = [0; 8];
                random.fill(&mut attributes);
                attributes[0] = 0x10 | attributes[0] & 0x4F;
                // How many granules it gets is for the disk to say that it is put on.
                files.insert(name, File { attributes, bytes, granules: 0 });
                return Some(vec![told(name, ONLY_IN_SECOND)]);
            }
            _ if good.is_empty() => return None,
            _ => {}
        }
        let name = *random.pick(&good);
        match self {
            Change::Kill => {
                files.remove(&name);
                return Some(vec![told(name, ONLY_IN_FIRST)]);
            }
            Change::Rename => {
                let new = new_name(random, files);
                let file = files.remove(&name).expect("picked");
                files.insert(new, file);
                let mut both = vec![told(name, ONLY_IN_FIRST), told(new, ONLY_IN_SECOND)];
                both.sort_by_key(|difference| difference.name);
                return Some(both);
            }
            _ => {}
        }
        let file = files.get_mut(&name).expect("picked");
        let size = file.bytes.len();
        let (position, flags) = match self {
            Change::Byte => {
                let at = *random.pick(&[0, size - 1, size / 2, random.clone().within(0, size - 1)]);
                file.bytes[at] ^= 1 << random.within(0, 7);
                (at, CONTENTS)
            }
            Change::Longer => {
                let more = *random.pick(&[1, 1, 255, 256, 1280, random.clone().within(1, 2000)]);
                let byte = if random.percent(50) { 0 } else { random.byte() };
                file.bytes.resize(size + more, byte);
                (size, SIZE + CONTENTS)
            }
            Change::Shorter => {
                let left = *random.pick(&[0, size - 1, random.clone().within(0, size - 1)]);
                file.bytes.truncate(left);
                (left, SIZE + CONTENTS)
            }
            Change::Date => {
                match random.percent(50) {
                    true => file.attributes[2] ^= random.within(1, 255) as u8,
                    false => file.attributes[1] ^= random.within(1, 31) as u8,
                }
                (size, DATE)
            }
            Change::Attribute => {
                match random.within(0, 3) {
                    0 => file.attributes[0] ^= random.within(1, 15) as u8,
                    1 => file.attributes[1] ^= (random.within(1, 7) as u8) << 5,
                    _ => file.attributes[random.within(3, 7)] ^= random.within(1, 255) as u8,
                }
                (size, OTHER)
            }
            Change::BecomesSystem | Change::OfSystem => {
                file.attributes[0] |= SYSTEM;
                file.attributes[2] ^= 1;
                file.bytes.push(random.byte());
                return Some(Vec::new());
            }
            _ => unreachable!("told above"),
        };
        Some(vec![Difference { name, kind: UNLIKE, position, flags }])
    }
}

/// A name that no file has, often one byte away from one that a file has.
fn new_name(random: &mut Random, files: &Files) -> Name {
    let there: Vec<&Name> = files.keys().collect();
    loop {
        let mut name = random_name(random);
        if !there.is_empty() && random.percent(50) {
            name = **random.pick(&there);
            // The first byte and the type's first one may be any letter and leave the name well formed.
            name[*random.pick(&[0, 8])] = *random.pick(b"0A]Z");
        }
        if !files.contains_key(&name) {
            return name;
        }
    }
}
