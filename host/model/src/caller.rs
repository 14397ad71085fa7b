//! Calls made up at random for the disk as it stands: mostly sensible ones at the edges of what is
//! accepted, some of every senseless kind.

use crate::call::{Call, Outcome};
use crate::calls::{Birth, ACCEPTED};
use crate::directory::{directory_sectors, entry, files, owned, slots, MARKER_LINK};
use crate::disks::{in_small_letters, random_name, random_name_like, Disk};
use crate::geometry::{Geometry, GRANULE_SIZES, MOST_UNITS};
use crate::handle::{Handle, HANDLE_BYTES};
use crate::load::LEAST_BUFFER;
use crate::names::{well_formed, Name, BLANK, FULL_NAME_BYTES};
use crate::play::{pack, Recorded};
use crate::random::Random;
use crate::space::free_granules;

const MOST_HANDLES: usize = 24;

pub struct Caller {
    /// Handles that calls gave, the newest last; many of them get stale.
    handles: Vec<Handle>,
    codes: Vec<u16>,
    /// A sober caller sends few senseless numbers: its calls go deeper into a disk's life.
    sober: bool,
}

/// The number of directory sectors, where the image holds them: the disk may be damaged.
fn directory_within(image: &[u8], g: &Geometry) -> Option<usize> {
    directory_sectors(image, g).filter(|d| g.start + d <= g.sectors())
}

/// A number of any kind, huge ones included.
pub fn wild(random: &mut Random) -> usize {
    match random.within(0, 3) {
        0 => *random.pick(&[0, 1, 255, 256, 257, 65_535, 65_536, 1 << 31, 1 << 32, (1 << 32) + 1]),
        1 => usize::MAX - random.within(0, 2),
        2 => (1 << 63) + random.within(0, 2) - 1,
        _ => (random.draw() as usize) >> random.within(0, 63),
    }
}

/// A geometry that is not the disk's, or a wrong image length.
pub fn odd_geometry(random: &mut Random, g: &Geometry, image_len: usize) -> (Geometry, usize) {
    let mut odd = *g;
    let mut length = image_len;
    match random.within(0, 12) {
        0 => odd.blocks = wild(random),
        1 => odd.units = wild(random),
        2 => odd.start = wild(random),
        // The same length, told otherwise.
        3 => (odd.blocks, odd.units) = (g.units, g.blocks),
        4 if g.units.is_multiple_of(2) => (odd.blocks, odd.units) = (g.blocks * 2, g.units / 2),
        4 if g.blocks.is_multiple_of(2) => (odd.blocks, odd.units) = (g.blocks / 2, g.units * 2),
        4 => odd.blocks = 0,
        5 => odd.start = random.within(0, g.sectors() / g.granule_sectors + 1) * g.granule_sectors,
        6 => odd.start = g.start + random.within(1, 4),
        7 => length = *random.pick(&[0, 1, g.granule_bytes(), image_len - 1, image_len - g.granule_bytes()]),
        8 => odd.start = g.sectors() - *random.pick(&[0, 5, 10]),
        9 => odd.granule_sectors = wild(random),
        10 => odd.granule_sectors = *random.pick(&[0, 1, 4, 6, 15, 25, 40]),
        // The same length by granules of another size: consistent or not, refused or not.
        11 => retold(random, &mut odd),
        _ => {
            // Sums and products that wrap around to the right length.
            odd.blocks = g.blocks.wrapping_add(1 << random.within(56, 63));
            if random.percent(50) {
                (odd.blocks, odd.units) = (1 << 60, 16 * g.units);
            }
        }
    }
    (odd, length)
}

/// States the same length with granules of another size, if blocks or units can make up for it.
fn retold(random: &mut Random, odd: &mut Geometry) {
    let size = *random.pick(&GRANULE_SIZES);
    let granules = odd.sectors() / size;
    odd.granule_sectors = size;
    let units = (1..=MOST_UNITS).rev().find(|units| granules.is_multiple_of(*units)).expect("1 divides");
    (odd.blocks, odd.units) = (granules / units, units);
    odd.start -= odd.start % size;
}

impl Caller {
    pub fn new(disk: &Disk, sober: bool) -> Caller {
        Caller { handles: Vec::new(), codes: disk.codes.clone(), sober }
    }

    /// Keeps the handles that a call gave.
    pub fn learn(&mut self, call: &Call, outcome: &Outcome) {
        let gives = matches!(
            call,
            Call::Open { .. }
                | Call::Create { .. }
                | Call::ReadRecord { .. }
                | Call::ReadBytes { .. }
                | Call::LoadRecord { .. }
                | Call::WriteRecord { .. }
                | Call::WriteBytes { .. }
        );
        if gives && outcome.number == ACCEPTED {
            self.handles.push(Handle::read(&outcome.handle).expect("19 bytes"));
            if self.handles.len() > MOST_HANDLES {
                self.handles.remove(0);
            }
        }
    }

    fn code(&self, random: &mut Random) -> u16 {
        if random.percent(90) {
            *random.pick(&self.codes)
        } else {
            random.draw() as u16
        }
    }

    fn some_file(random: &mut Random, image: &[u8], g: &Geometry) -> Option<u8> {
        let d = directory_within(image, g)?;
        let all = files(image, g, d);
        (!all.is_empty()).then(|| *random.pick(&all))
    }

    /// A name as a caller gives it, often with small letters.
    fn name(&self, random: &mut Random, image: &[u8], g: &Geometry) -> Vec<u8> {
        let mut bytes = self.capital_name(random, image, g);
        if random.percent(40) {
            in_small_letters(random, &mut bytes);
        }
        bytes
    }

    fn capital_name(&self, random: &mut Random, image: &[u8], g: &Geometry) -> Vec<u8> {
        let there = Self::some_file(random, image, g).map(|slot| entry(image, g, slot).name());
        match (random.within(0, 19), there) {
            (0..=10, Some(name)) => name.to_vec(),
            (11 | 12, Some(name)) => random_name_like(random, &name).to_vec(),
            (13, Some(mut name)) => {
                // One byte away from a name that is there.
                name[random.within(0, FULL_NAME_BYTES - 1)] = *random.pick(b"A0]Z ");
                name.to_vec()
            }
            (14, _) => Self::bad_name(random),
            (15, Some(name)) => {
                // The right bytes, but not 11 of them.
                let mut bytes = name.to_vec();
                bytes.extend([BLANK; 5]);
                bytes.truncate(*random.pick(&[0, 1, 8, 10, 12, 16]));
                bytes
            }
            _ => random_name(random).to_vec(),
        }
    }

    /// A name with a bad byte at any place, or with two; seldom it is good all the same.
    fn bad_name(random: &mut Random) -> Vec<u8> {
        const BAD: [u8; 14] = [0, 0x1F, 0x21, 0x2F, 0x3A, 0x40, 0x5E, 0x60, 0x7E, 0x7F, 0x80, 0xA0, 0xC1, 0xE1];
        let mut bytes = if random.percent(50) { [b'A'; FULL_NAME_BYTES] } else { random_name(random) };
        for _ in 0..random.within(1, 2) {
            let at = random.within(0, FULL_NAME_BYTES - 1);
            match random.within(0, 3) {
                0 => bytes[0] = BLANK,
                1 => bytes[at] = BLANK,
                2 => bytes[at] = random.byte(),
                _ => bytes[at] = *random.pick(&BAD),
            }
        }
        bytes.to_vec()
    }

    fn length(&self, random: &mut Random) -> usize {
        match random.within(if self.sober { 2 } else { 0 }, 19) {
            0 => *random.pick(&[0, 257]),
            1 => wild(random),
            2..=6 => 256,
            7 | 8 => 1,
            9 => 255,
            _ => random.within(1, 256),
        }
    }

    /// A handle's bytes, mostly good, of a buffer that may be longer, seldom shorter.
    fn lent_handle(&self, random: &mut Random, handle: &Handle) -> Vec<u8> {
        let mut bytes = handle.bytes().to_vec();
        match random.within(if self.sober { 1 } else { 0 }, 39) {
            0 => bytes.truncate(random.within(0, HANDLE_BYTES - 1)),
            1..=4 => bytes.extend((0..random.within(1, 20)).map(|_| random.byte())),
            _ => {}
        }
        bytes
    }

    /// A place for a handle to come.
    fn handle_room(random: &mut Random) -> Vec<u8> {
        let length = match random.within(0, 29) {
            0 => random.within(0, HANDLE_BYTES - 1),
            1..=3 => random.within(HANDLE_BYTES, 40),
            _ => HANDLE_BYTES,
        };
        (0..length).map(|_| random.byte()).collect()
    }

    /// A place for a name to come.
    fn name_room(random: &mut Random) -> Vec<u8> {
        let length = match random.within(0, 9) {
            0 => random.within(0, FULL_NAME_BYTES - 1),
            1 => random.within(FULL_NAME_BYTES, 20),
            _ => FULL_NAME_BYTES,
        };
        (0..length).map(|_| random.byte()).collect()
    }

    fn position(
        random: &mut Random,
        g: &Geometry,
        size: usize,
        granules: usize,
        free: usize,
        length: usize,
    ) -> u32 {
        let (width, highest) = (g.granule_bytes(), g.highest_position());
        let around =
            |random: &mut Random, at: usize| (at + random.within(0, 3)).saturating_sub(random.within(0, 2));
        let position = match random.within(0, 29) {
            0..=5 => random.within(0, size),
            6 | 7 => size,
            8..=10 => around(random, size.saturating_sub(length)),
            11 | 12 => around(random, size),
            13..=15 => around(random, (granules * width).saturating_sub(length)),
            16..=18 => random.within(0, (granules + 2) * width),
            19 => around(random, ((granules + free) * width).saturating_sub(length)),
            20 => random.within(0, (granules + free + 1) * width),
            21 => around(random, highest - 256),
            22 => around(random, highest.saturating_sub(length)),
            23 => *random.pick(&[highest, highest + 1, u32::MAX as usize, 1 << 31]),
            24 => random.draw() as usize,
            25..=27 => (granules + random.within(2, 12)) * width,
            _ => 0,
        };
        position as u32
    }

    /// A handle, with its position set, for the disk as it stands.
    fn handle(&self, random: &mut Random, image: &[u8], g: &Geometry, kind: &str) -> Handle {
        let there = Self::some_file(random, image, g);
        let mut handle = match there {
            _ if !self.handles.is_empty() && random.percent(40) => *random.pick(&self.handles),
            Some(slot) => Handle {
                slot,
                level: 0,
                length: self.length(random) as u16,
                position: 0,
                name: entry(image, g, slot).name(),
            },
            None => Handle { slot: random.byte(), level: 0, length: 1, position: 0, name: random_name(random) },
        };
        if random.percent(if self.sober { 3 } else { 25 }) {
            handle.level = *random.pick(&[1, 2, 4, 5, 6, 7, 8, 255]);
        }
        match random.within(0, if self.sober { 399 } else { 39 }) {
            0 => handle.slot = random.byte(),
            1 => handle.name = random_name(random),
            2 => random.fill(&mut handle.name),
            3 => handle.length = *random.pick(&[0, 257, 256 + 12, 65_535]),
            4 => handle.slot = handle.slot.wrapping_add(32),
            5 => handle.slot |= 0x1F,
            6 => {
                // A handle of an extension, should its bytes look like a name.
                if let Some(d) = directory_within(image, g) {
                    handle.slot = *random.pick(&slots(d).collect::<Vec<_>>());
                    handle.name = entry(image, g, handle.slot).name();
                }
            }
            7 => handle = Handle { slot: 0, level: 0, length: 0, position: 0, name: [0; 11] },
            // The library puts no small letter into a handle.
            8 => in_small_letters(random, &mut handle.name),
            _ => {}
        }
        let (size, granules) = Self::extent(image, g, &handle);
        let free = if kind == "read" { 0 } else { free_granules(image, g).count() };
        let length = handle.length as usize;
        handle.position = match self.sober {
            true if kind == "read" => random.within(0, size.saturating_sub(length)) as u32,
            true if random.percent(50) => size as u32,
            _ => Self::position(random, g, size, granules, free, length),
        };
        handle
    }

    /// Size and granules of the file in a handle's slot, as far as there is one.
    fn extent(image: &[u8], g: &Geometry, handle: &Handle) -> (usize, usize) {
        match directory_within(image, g) {
            Some(d) if !handle.is_stale(image, g, d) => {
                let size = entry(image, g, handle.slot).size().unwrap_or(0);
                (size, owned(image, g, d, handle.slot).len())
            }
            _ => (0, 0),
        }
    }

    fn buffer(random: &mut Random, handle: &Handle) -> Vec<u8> {
        let length = (handle.length as usize).min(300);
        let room = match random.within(0, 29) {
            0 => random.within(0, length),
            1 => length.saturating_sub(1),
            2..=9 => length + random.within(1, 40),
            _ => length,
        };
        (0..room).map(|_| random.byte()).collect()
    }

    /// A buffer of about as many bytes as a read or write has room for; seldom one that is longer than any position.
    fn bytes(&self, random: &mut Random, g: &Geometry, room: usize) -> Vec<u8> {
        let length = match random.within(if self.sober { 1 } else { 0 }, 19) {
            0 => g.highest_position() + random.within(0, 1),
            1 | 2 => 0,
            3 => room + 1,
            4 | 5 => random.within(0, 3 * g.granule_bytes()),
            6..=9 => random.within(0, room),
            _ => room,
        };
        let mut bytes = vec![random.byte(); length];
        // The ends are what can go wrong.
        let end = length.min(2 * g.granule_bytes());
        random.fill(&mut bytes[..end]);
        random.fill(&mut bytes[length - end..]);
        bytes
    }

    fn sector(random: &mut Random, image: &[u8], g: &Geometry, handle: &Handle, growth: bool) -> usize {
        let (size, granules) = Self::extent(image, g, handle);
        let (n, owned) = (size.div_ceil(256), granules * g.granule_sectors);
        let around = |random: &mut Random, at: usize| (at + random.within(0, 2)).saturating_sub(1);
        match random.within(0, 19) {
            0 => *random.pick(&[g.highest_sector(), g.highest_sector() + 1]),
            1 => wild(random),
            2 if growth => around(random, owned + free_granules(image, g).count() * g.granule_sectors),
            3 if growth => random.within(0, g.sectors()),
            4..=8 if growth => {
                let further = random.within(0, 4);
                around(random, owned + g.granule_sectors * further)
            }
            9..=11 if growth => owned + g.granule_sectors * random.within(0, 24),
            4..=8 => around(random, n),
            _ => random.within(0, n),
        }
    }

    /// Some call.
    pub fn make(&self, random: &mut Random, image: &[u8], g: &Geometry) -> Call {
        match random.within(0, 138) {
            123..=128 => {
                let handle = self.handle(random, image, g, "read");
                let left = Self::extent(image, g, &handle).0.saturating_sub(handle.position());
                let buffer = self.bytes(random, g, left);
                Call::ReadBytes { handle: self.lent_handle(random, &handle), buffer }
            }
            129..=138 => {
                let handle = self.handle(random, image, g, "write");
                let (size, granules) = Self::extent(image, g, &handle);
                let room = match random.within(0, 3) {
                    0 => size,
                    1 => granules * g.granule_bytes(),
                    2 => (granules + random.within(1, 40)) * g.granule_bytes(),
                    _ => (granules + free_granules(image, g).count()) * g.granule_bytes(),
                };
                let buffer = self.bytes(random, g, room.saturating_sub(handle.position()));
                let sequential = random.percent(50);
                Call::WriteBytes { handle: self.lent_handle(random, &handle), sequential, buffer }
            }
            111..=118 => {
                let handle = self.loading_handle(random, image, g);
                let least = LEAST_BUFFER - usize::from(random.percent(4));
                let buffer = (0..least + random.within(0, 40)).map(|_| random.byte()).collect();
                Call::LoadRecord { handle: self.lent_handle(random, &handle), buffer }
            }
            119..=122 => {
                let (trace, calls) = self.trace(random, image, g);
                let room = match random.within(0, 9) {
                    0 => random.within(0, calls),
                    1..=3 => calls + random.within(0, 9),
                    _ => calls,
                };
                Call::Play { trace, results: (0..room).map(|_| random.byte()).collect() }
            }
            0..=2 => Call::Check,
            3..=9 => Call::LookUp { name: self.name(random, image, g) },
            10..=19 => Call::Open {
                name: self.name(random, image, g),
                length: self.length(random),
                checking: random.percent(80),
                code: self.code(random),
                handle: Self::handle_room(random),
            },
            20..=29 => Call::Create {
                name: self.name(random, image, g),
                birth: self.birth(random),
                handle: Self::handle_room(random),
            },
            30..=40 => {
                let handle = self.handle(random, image, g, "read");
                let buffer = Self::buffer(random, &handle);
                Call::ReadRecord { handle: self.lent_handle(random, &handle), buffer }
            }
            41..=49 => {
                let handle = self.handle(random, image, g, "read");
                let k = Self::sector(random, image, g, &handle, false);
                Call::ReadSector { handle: self.lent_handle(random, &handle), k }
            }
            50..=69 => {
                let handle = self.handle(random, image, g, "write");
                let mut buffer = Self::buffer(random, &handle);
                if random.percent(25) {
                    Self::program(random, &mut buffer);
                }
                Call::WriteRecord {
                    handle: self.lent_handle(random, &handle),
                    sequential: random.percent(50),
                    buffer,
                }
            }
            70..=78 => {
                let handle = self.handle(random, image, g, "allot");
                let k = Self::sector(random, image, g, &handle, true);
                Call::Allot { handle: self.lent_handle(random, &handle), k }
            }
            79..=86 => {
                let handle = self.handle(random, image, g, "trim");
                Call::Trim { handle: self.lent_handle(random, &handle) }
            }
            87..=91 => {
                let handle = self.handle(random, image, g, "kill");
                Call::Kill { handle: self.lent_handle(random, &handle) }
            }
            92..=96 => {
                let which = if random.percent(20) { wild(random) } else { random.within(0, 30) };
                Call::List { which, name: Self::name_room(random) }
            }
            97 | 98 => Call::Count,
            99 => Call::Free,
            100..=106 => Call::BringBack { slot: self.killed_slot(random, image, g) },
            _ => {
                let name = if random.percent(30) { Self::bad_name(random) } else { self.name(random, image, g) };
                Call::Name { name, folded: Self::name_room(random) }
            }
        }
    }

    /// Fills bytes with the records of a program file, as far as they go: good ones, and now and then none.
    fn program(random: &mut Random, bytes: &mut [u8]) {
        let mut text = Vec::new();
        while text.len() < bytes.len() {
            let count = *random.pick(&[0, 1, 2, 2, 3, 4, 5, 9]);
            match random.within(0, 9) {
                0..=4 => text.extend([1, count]),
                5 | 6 => text.extend([5, count]),
                7 => text.extend([2, 2]),
                8 => text.extend([2, count]),
                _ => text.push(random.byte()),
            }
            let whole = text.ends_with(&[2, 2]) || random.percent(85);
            let follow = if whole { count.into() } else { random.within(0, count.into()) };
            text.extend((0..follow).map(|_| random.byte()));
        }
        bytes.copy_from_slice(&text[..bytes.len()]);
    }

    /// A handle for a load read, its position mostly where a record may stand; of some files one that looks like a program.
    fn loading_handle(&self, random: &mut Random, image: &[u8], g: &Geometry) -> Handle {
        let mut handle = self.handle(random, image, g, "read");
        for _ in 0..4 {
            let (size, _) = Self::extent(image, g, &handle);
            let granules = match directory_within(image, g) {
                Some(d) if size > 0 => owned(image, g, d, handle.slot),
                _ => Vec::new(),
            };
            let width = g.granule_bytes();
            let byte =
                |i: usize| granules.get(i / width).and_then(|granule| image.get(granule * width + i % width));
            // A record of data that passes a granule's end; counts 0 and 1 mean 254 and 255 bytes.
            let crosses = |i: usize, count: u8| {
                let end = i + 4 + usize::from(count.wrapping_sub(2));
                end <= size && i / width != (end - 1) / width
            };
            // Start addresses, records without data and comments are rare in other files.
            let (mut codes, mut rare, mut crossing) = (Vec::new(), Vec::new(), Vec::new());
            for i in 0..size {
                match (byte(i), byte(i + 1)) {
                    (Some(1), Some(&count)) if crosses(i, count) => crossing.push(i),
                    (Some(1 | 2), Some(2)) | (Some(5), Some(..=9)) => rare.push(i),
                    (Some(1 | 2 | 5), _) => codes.push(i),
                    _ => {}
                }
            }
            match random.within(0, 9) {
                0 => return Handle { position: size as u32, ..handle },
                1 => return handle,
                2 if !crossing.is_empty() => return Handle { position: *random.pick(&crossing) as u32, ..handle },
                2..=7 if !rare.is_empty() => return Handle { position: *random.pick(&rare) as u32, ..handle },
                8 if !codes.is_empty() => return Handle { position: *random.pick(&codes) as u32, ..handle },
                _ => handle = self.handle(random, image, g, "read"),
            }
        }
        handle
    }

    /// A trace, mostly a good one, and how many calls it was packed from.
    fn trace(&self, random: &mut Random, image: &[u8], g: &Geometry) -> (Vec<u8>, usize) {
        let mut names: Vec<Vec<u8>> = (0..random.within(1, 6)).map(|_| self.name(random, image, g)).collect();
        names.iter_mut().for_each(|name| name.resize(FULL_NAME_BYTES, BLANK));
        let calls: Vec<Recorded> = (0..random.within(0, 12))
            .map(|_| {
                let (mut position, mut length, mut fill) = (0, 0, 0);
                let operation = random.within(1, 7);
                if matches!(operation, 2 | 3 | 7) {
                    position = match random.within(0, 9) {
                        0 => random.within(0, (1 << 24) - 1),
                        1 => g.highest_position() - random.within(0, 300),
                        _ => random.within(0, 4 * g.granule_bytes()),
                    };
                }
                if operation == 4 {
                    position = random.within(0, 4 * g.granule_sectors);
                }
                if matches!(operation, 1 | 2 | 3 | 7) {
                    length = if random.percent(8) { random.within(0, 511) } else { random.within(1, 256) };
                }
                if matches!(operation, 2 | 3) {
                    fill = random.byte().into();
                }
                let zero = usize::from(random.percent(1));
                Recorded { operation, file: random.within(0, names.len() - 1), position, length, fill, zero }
            })
            .collect();
        let mut trace = pack(&names, &calls);
        match random.within(0, 9) {
            0 => trace.truncate(random.within(0, trace.len())),
            1 => {
                let place = random.within(0, 8 * trace.len() - 1);
                trace[place / 8] ^= 0x80 >> (place % 8);
            }
            2 => trace.extend((0..random.within(1, 9)).map(|_| random.byte())),
            _ => {}
        }
        (trace, calls.len())
    }

    /// A slot to bring a file back from: mostly one whose entry looks like a killed file's.
    fn killed_slot(&self, random: &mut Random, image: &[u8], g: &Geometry) -> usize {
        let Some(d) = directory_within(image, g) else {
            return random.byte() as usize;
        };
        let dead: Vec<u8> = slots(d).filter(|&slot| !entry(image, g, slot).in_use()).collect();
        let looks_killed = |slot: &u8| {
            let this = entry(image, g, *slot);
            well_formed(&this.name()) && !this.is_extension()
        };
        let killed: Vec<u8> = dead.iter().copied().filter(looks_killed).collect();
        // A chain to be whole in: seldom there, so asked for often.
        let long: Vec<u8> =
            killed.iter().copied().filter(|&slot| entry(image, g, slot).marker() == MARKER_LINK).collect();
        match random.within(if self.sober { 2 } else { 0 }, 19) {
            0 => wild(random),
            1 | 2 => random.byte() as usize,
            5..=9 if !long.is_empty() => *random.pick(&long) as usize,
            3 if !dead.is_empty() => *random.pick(&dead) as usize,
            4 => Self::some_file(random, image, g).unwrap_or(0) as usize,
            _ if !killed.is_empty() => *random.pick(&killed) as usize,
            _ => *random.pick(&slots(d).collect::<Vec<_>>()) as usize,
        }
    }

    fn birth(&self, random: &mut Random) -> Birth {
        let part = |random: &mut Random, highest: usize| match random.within(0, 29) {
            0 => highest + 1,
            1 => wild(random),
            2 => highest,
            _ => random.within(0, highest),
        };
        Birth {
            day: part(random, 31),
            month: part(random, 15),
            year: part(random, 15),
            length: self.length(random),
            main_code: self.code(random),
            worker_code: self.code(random),
            checking: random.percent(80),
        }
    }

    /// A name for tests that want a new file.
    pub fn new_name(random: &mut Random, image: &[u8], g: &Geometry) -> Name {
        let d = directory_sectors(image, g).expect("a consistent disk");
        let there: Vec<Name> = files(image, g, d).iter().map(|&slot| entry(image, g, slot).name()).collect();
        loop {
            let name = random_name(random);
            if !there.contains(&name) {
                return name;
            }
        }
    }
}
