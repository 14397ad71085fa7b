//! Random consistent disks, built by placing files at random, not by calls: scattered files,
//! extensions, system files that own directory granules, reserved granules, killed files, files and extensions
//! in kept slots, all flags, levels and codes, and odd bytes wherever 01 tests none.

use crate::directory::{
    chain, directory_granules, entry, entry_place, files, hit_place, owned, put_entry, set_taken, slots, Entry,
    Pair, ENTRY_BYTES, EXTENSION_FLAGS, LENGTH_PLACE, MARKER_LAST, MARKER_LINK, PAIRS,
};
use crate::geometry::{Geometry, GRANULE_SIZES, LEAST_DIRECTORY_SECTORS, MOST_BLOCKS, MOST_UNITS, SECTOR_BYTES};
use crate::names::{hash, Name, BLANK, FULL_NAME_BYTES, NAME_BYTES};
use crate::random::Random;
use crate::space::{permitted, LONGEST_RUN};

#[derive(Clone)]
pub struct Disk {
    pub g: Geometry,
    pub image: Vec<u8>,
    /// The codes in use on it: tests pick from them, so that they meet.
    pub codes: Vec<u16>,
}

/// How a disk is filled.
#[derive(Clone, Copy, Debug)]
struct Plan {
    g: Geometry,
    /// Directory sectors.
    d: usize,
    /// Files wanted, and how many granules in a hundred they may take together.
    files: usize,
    filling: usize,
    /// Reserved granules in a hundred; with a comb every second granule is reserved.
    reserved: usize,
    comb: bool,
    /// How many permitted slots stay free, if that is planned.
    slots_left: Option<usize>,
    /// The most runs that a file gets.
    runs: usize,
    /// Chance in a hundred that a place 01 does not test holds odd bytes.
    odd: usize,
}

/// The size of granules: mostly 5 sectors.
pub fn random_granule_sectors(random: &mut Random) -> usize {
    if random.percent(60) {
        5
    } else {
        *random.pick(&GRANULE_SIZES)
    }
}

/// The lengths that a directory can have on so many sectors.
pub fn directory_lengths(sectors: usize) -> Vec<usize> {
    [0, 5, 10, 15, 20].map(|above| LEAST_DIRECTORY_SECTORS + above).into_iter().filter(|&d| d <= sectors).collect()
}

fn plan(random: &mut Random) -> Plan {
    let granule_sectors = random_granule_sectors(random);
    let (blocks, units) = loop {
        let (blocks, units) = match random.within(0, 9) {
            0 => (MOST_BLOCKS, random.within(1, MOST_UNITS)),
            1 => (random.within(1, MOST_BLOCKS), MOST_UNITS),
            2 | 3 => (random.within(1, MOST_BLOCKS), random.within(1, MOST_UNITS)),
            4 => (random.within(1, 3), random.within(1, MOST_UNITS)),
            _ => (random.within(4, 40), random.within(1, MOST_UNITS)),
        };
        // Large images of large granules are few: they take their time.
        let large = blocks * units * granule_sectors > MOST_BLOCKS * MOST_UNITS * 5;
        if blocks * units * granule_sectors >= LEAST_DIRECTORY_SECTORS && (!large || random.percent(10)) {
            break (blocks, units);
        }
    };
    let sectors = blocks * units * granule_sectors;
    let lengths = directory_lengths(sectors);
    let d = if random.percent(40) { lengths[lengths.len() - 1] } else { *random.pick(&lengths) };
    let last_start = (sectors - d) / granule_sectors;
    let start = match random.within(0, 4) {
        0 => 0,
        1 => last_start,
        _ => random.within(0, last_start),
    };
    let open_code = if random.percent(30) { 0xFFFF } else { random.draw() as u16 };
    let system_disk = random.percent(60);
    Plan {
        g: Geometry { blocks, units, start: start * granule_sectors, open_code, system_disk, granule_sectors },
        d,
        files: match random.within(0, 5) {
            0 => random.within(0, 3),
            1 => random.within(0, 8 * (d - 2)),
            _ => random.within(2, 24),
        },
        filling: *random.pick(&[0, 30, 60, 80, 95, 100]),
        reserved: *random.pick(&[0, 0, 5, 30]),
        comb: random.percent(35),
        slots_left: if random.percent(45) { Some(random.within(0, 4)) } else { None },
        runs: if random.percent(4) { 900 } else { 60 },
        odd: *random.pick(&[0, 30, 100]),
    }
}

/// Fills a name or a type with at least so many letters.
fn random_part(random: &mut Random, least: usize, part: &mut [u8]) {
    const ALLOWED: &[u8] = b"0123456789ABCDEFGHIJKLMNOPQRSTUVWXYZ[\\]";
    const FEW: &[u8] = b"0A]";
    let letters = if random.percent(30) { FEW } else { ALLOWED };
    let filled = if random.percent(25) { part.len() } else { random.within(least, part.len()) };
    for (i, byte) in part.iter_mut().enumerate() {
        *byte = if i < filled { *random.pick(letters) } else { BLANK };
    }
}

/// A well-formed name.
pub fn random_name(random: &mut Random) -> Name {
    let mut bytes = [BLANK; FULL_NAME_BYTES];
    random_part(random, 1, &mut bytes[..NAME_BYTES]);
    random_part(random, 0, &mut bytes[NAME_BYTES..]);
    bytes
}

/// The same name as another caller might give it (02 §7): some of the bytes 41H to 5DH are 61H to 7DH. Bytes of all kinds may be
/// given; those stay.
pub fn in_small_letters(random: &mut Random, bytes: &mut [u8]) {
    for byte in bytes {
        if (0x41..=0x5D).contains(byte) && random.percent(60) {
            *byte += 0x20;
        }
    }
}

/// A well-formed name with the hash of another one, if a few hundred trials find one.
pub fn random_name_like(random: &mut Random, like: &Name) -> Name {
    for _ in 0..700 {
        let bytes = random_name(random);
        if hash(&bytes) == hash(like) {
            return bytes;
        }
    }
    random_name(random)
}

/// A size for a file with so many granules; often at the edges of sectors and granules.
fn random_size(random: &mut Random, g: &Geometry, granules: usize) -> usize {
    let most = granules * g.granule_bytes();
    let near = |random: &mut Random, step: usize| {
        let edge = random.within(0, most / step) * step;
        (edge + random.within(0, 2)).saturating_sub(1)
    };
    let size = match random.within(0, 6) {
        0 => 0,
        1 => most,
        2 => near(random, SECTOR_BYTES),
        3 => near(random, g.granule_bytes()),
        _ => random.within(0, most),
    };
    size.min(most)
}

struct Builder<'a> {
    random: &'a mut Random,
    plan: Plan,
    image: Vec<u8>,
    /// Granules that nothing holds yet.
    free: Vec<bool>,
    free_slots: Vec<u8>,
    names: Vec<Name>,
    codes: Vec<u16>,
}

impl Builder<'_> {
    fn g(&self) -> Geometry {
        self.plan.g
    }

    fn take_slot(&mut self, kept: bool) -> Option<u8> {
        let g = self.g();
        let wanted = |slot: &u8| permitted(&g, *slot) != kept;
        let at =
            self.free_slots.iter().position(wanted).or(if self.free_slots.is_empty() { None } else { Some(0) })?;
        Some(self.free_slots.remove(at))
    }

    fn new_name(&mut self) -> Name {
        loop {
            let bytes = match self.names.is_empty() {
                false if self.random.percent(25) => {
                    let like = *self.random.pick(&self.names);
                    random_name_like(self.random, &like)
                }
                _ => random_name(self.random),
            };
            if !self.names.contains(&bytes) {
                self.names.push(bytes);
                return bytes;
            }
        }
    }

    /// A run of free granules: its first granule and its length.
    fn place_run(&mut self, after: Option<usize>) -> Option<(usize, usize)> {
        let granules = self.free.len();
        let first = match after {
            Some(next) if next < granules && self.free[next] && self.random.percent(20) => next,
            _ => {
                let from = self.random.within(0, granules - 1);
                (from..granules).chain(0..from).find(|&granule| self.free[granule])?
            }
        };
        let wanted = match self.random.within(0, 9) {
            0 => LONGEST_RUN,
            1 => self.random.within(1, LONGEST_RUN),
            2..=4 => self.random.within(1, 4),
            _ => 1,
        };
        let length = (first..granules.min(first + wanted)).take_while(|&granule| self.free[granule]).count();
        self.free[first..first + length].fill(false);
        Some((first, length))
    }

    /// The pair of a run.
    fn pair(&self, (first, length): (usize, usize)) -> Pair {
        Pair { further: (length - 1) as u8, ..Pair::of_granule(&self.g(), first) }
    }

    /// Writes the entries of a file with these runs.
    fn place_file(&mut self, system: bool, runs: &[(usize, usize)]) -> bool {
        let entries = runs.len().div_ceil(PAIRS).max(1);
        if self.free_slots.len() < entries {
            return false;
        }
        let mut slots = Vec::new();
        for _ in 0..entries {
            let kept = self.random.percent(if system { 80 } else { 15 });
            slots.push(self.take_slot(kept).expect("counted"));
        }
        let g = self.g();
        let name = self.new_name();
        let granules: usize = runs.iter().map(|run| run.1).sum();
        for &(first, length) in runs {
            for granule in first..first + length {
                set_taken(&mut self.image, &g, granule, true);
            }
        }
        for (i, &slot) in slots.iter().enumerate() {
            let mut bytes = Entry([0; ENTRY_BYTES]);
            if i == 0 {
                self.random.fill(&mut bytes.0);
                bytes.0[0x00] = 0x10 | if system { 0x40 } else { 0 } | self.random.byte() & 0x0F;
                if self.random.percent(60) {
                    bytes.0[0x00] &= 0xF8;
                }
                bytes.0[0x01] &= if self.random.percent(60) { 0x3F } else { 0xFF };
                bytes.0[0x05..0x10].copy_from_slice(&name);
                let main = *self.random.pick(&self.codes);
                let worker = *self.random.pick(&self.codes);
                bytes.0[0x10..0x12].copy_from_slice(&main.to_le_bytes());
                bytes.0[0x12..0x14].copy_from_slice(&worker.to_le_bytes());
                bytes.set_size(random_size(self.random, &self.plan.g, granules));
            } else {
                match self.random.within(0, 3) {
                    0 => self.random.fill(&mut bytes.0[0x02..0x16]),
                    1 => bytes.0[0x05..0x10].copy_from_slice(&name),
                    _ => {}
                }
                bytes.0[0x00] = EXTENSION_FLAGS;
                bytes.0[0x01] = slots[i - 1];
            }
            bytes.0[0x16..].fill(0xFF);
            for pair in 0..PAIRS {
                match runs.get(PAIRS * i + pair) {
                    Some(&run) => bytes.set_pair(pair, self.pair(run)),
                    None => {
                        if self.random.percent(self.plan.odd) {
                            bytes.0[0x17 + 2 * pair] = self.random.byte();
                        }
                    }
                }
            }
            match slots.get(i + 1) {
                Some(&next) => bytes.set_link(MARKER_LINK, next),
                None => {
                    let link = if self.random.percent(self.plan.odd) { self.random.byte() } else { 0xFF };
                    bytes.set_link(MARKER_LAST, link);
                }
            }
            put_entry(&mut self.image, &g, slot, &bytes);
            self.image[hit_place(&g, slot)] = hash(&name);
        }
        true
    }

    /// System files; some own directory granules, in any order, alone or with their neighbours.
    fn place_system_files(&mut self) {
        let mut directory: Vec<usize> = directory_granules(&self.g(), self.plan.d).collect();
        self.random.shuffle(&mut directory);
        for _ in 0..self.random.within(0, 3) {
            let mut runs = Vec::new();
            for _ in 0..self.random.within(0, 6) {
                let of_directory = self.random.percent(50);
                if of_directory && !directory.is_empty() {
                    let first = directory.pop().expect("not empty");
                    let mut length = 1;
                    while length < LONGEST_RUN && self.random.percent(50) {
                        let next = first + length;
                        let own = directory.iter().position(|&granule| granule == next);
                        match own {
                            Some(at) => {
                                directory.remove(at);
                            }
                            None if next < self.free.len() && self.free[next] => self.free[next] = false,
                            None => break,
                        }
                        length += 1;
                    }
                    runs.push((first, length));
                } else {
                    let after = runs.last().map(|&(first, length): &(usize, usize)| first + length);
                    runs.extend(self.place_run(after));
                }
            }
            if !self.place_file(true, &runs) {
                self.give_back(&runs);
            }
        }
    }

    /// Runs that found no slots are free again; directory granules among them stay reserved.
    fn give_back(&mut self, runs: &[(usize, usize)]) {
        for &(first, length) in runs {
            for granule in first..first + length {
                self.free[granule] = !directory_granules(&self.g(), self.plan.d).contains(&granule);
            }
        }
    }

    fn place_files(&mut self) {
        let most = self.free.len() * self.plan.filling / 100;
        let mut used = 0;
        for _ in 0..self.plan.files {
            let wanted = match self.random.within(0, 9) {
                0 => 0,
                1..=6 => self.random.within(1, PAIRS),
                7 | 8 => self.random.within(5, 12),
                _ => self.random.within(13, self.plan.runs),
            };
            let mut runs: Vec<(usize, usize)> = Vec::new();
            for _ in 0..wanted {
                if used >= most {
                    break;
                }
                let after = runs.last().map(|&(first, length)| first + length);
                let Some(run) = self.place_run(after) else {
                    break;
                };
                used += run.1;
                runs.push(run);
            }
            while runs.len().div_ceil(PAIRS).max(1) > self.free_slots.len() && !runs.is_empty() {
                let run = runs.pop().expect("not empty");
                self.give_back(&[run]);
            }
            if !self.place_file(false, &runs) {
                break;
            }
        }
        if let Some(left) = self.plan.slots_left {
            let g = self.g();
            while self.free_slots.iter().filter(|&&slot| permitted(&g, slot)).count() > left {
                let at = self.free_slots.iter().position(|&slot| permitted(&g, slot)).expect("counted");
                self.free_slots.swap(0, at);
                let only = vec![self.free_slots.remove(0)];
                let others = std::mem::replace(&mut self.free_slots, only);
                self.place_file(false, &[]);
                self.free_slots = others;
            }
        }
    }
}

/// Kills some of the files, system files too, as the call would; some of the dead entries are then spoilt, or
/// get the name of a file that is there.
fn leave_killed(random: &mut Random, image: &mut [u8], g: &Geometry, d: usize) {
    let mut all = files(image, g, d);
    random.shuffle(&mut all);
    all.truncate(random.within(0, all.len().min(8)));
    for &file in &all {
        let (dead, granules) = (chain(image, g, d, file), owned(image, g, d, file));
        let of_directory = granules.iter().any(|granule| directory_granules(g, d).contains(granule));
        if of_directory {
            continue;
        }
        for &slot in &dead {
            image[entry_place(g, slot)] &= !(1 << 4);
            image[hit_place(g, slot)] = 0;
        }
        for granule in granules {
            set_taken(image, g, granule, false);
        }
        match random.within(0, 9) {
            0 => {
                let spoilt = entry_place(g, *random.pick(&dead));
                let at = *random.pick(&[0x00, 0x01, 0x03, 0x05, 0x14, 0x15, 0x16, 0x17, 0x18, 0x1E, 0x1F]);
                image[spoilt + at] = random.byte() & if at == 0 { !(1 << 4) } else { 0xFF };
            }
            1 => {
                if let Some(&other) = files(image, g, d).first() {
                    let name = entry(image, g, other).name();
                    let place = entry_place(g, file);
                    image[place + 0x05..place + 0x10].copy_from_slice(&name);
                }
            }
            _ => {}
        }
    }
}

pub fn random_disk(random: &mut Random) -> Disk {
    let plan = plan(random);
    filled(random, plan)
}

/// A random disk of this geometry, with so many directory sectors.
pub fn random_disk_of(random: &mut Random, g: Geometry, d: usize) -> Disk {
    let plan = Plan { g, d, ..plan(random) };
    filled(random, plan)
}

fn filled(random: &mut Random, plan: Plan) -> Disk {
    let (g, d) = (plan.g, plan.d);
    let mut image = vec![0; g.granules() * g.granule_bytes()];
    // Whatever is not set below holds anything: data, GAT and HIT places out of range, dead entries.
    random.fill(&mut image);
    image[hit_place(&g, LENGTH_PLACE as u8)] = (d - 10) as u8;
    let mut free_slots: Vec<u8> = slots(d).collect();
    for &slot in &free_slots {
        image[hit_place(&g, slot)] = 0;
        let place = entry_place(&g, slot);
        image[place] &= !(1 << 4);
    }
    random.shuffle(&mut free_slots);

    let mut free = Vec::new();
    for granule in 0..g.granules() {
        let of_directory = directory_granules(&g, d).contains(&granule);
        let tooth = plan.comb && granule.is_multiple_of(2);
        let reserved = of_directory || tooth || random.percent(plan.reserved);
        free.push(!reserved);
        set_taken(&mut image, &g, granule, reserved);
    }
    let codes = vec![g.open_code, 0, 0xFFFF, random.draw() as u16, random.draw() as u16];
    let mut builder = Builder { random, plan, image, free, free_slots, names: Vec::new(), codes };
    builder.place_system_files();
    builder.place_files();
    let (mut image, codes) = (builder.image, builder.codes);
    if random.percent(50) {
        leave_killed(random, &mut image, &g, d);
    }
    Disk { g, image, codes }
}

/// An empty disk: zeros, but for the directory's length and its reserved granules.
pub fn empty_disk(g: Geometry, d: usize, reserved: &[usize]) -> Disk {
    let mut image = vec![0; g.granules() * g.granule_bytes()];
    image[hit_place(&g, LENGTH_PLACE as u8)] = (d - 10) as u8;
    for granule in directory_granules(&g, d).chain(reserved.iter().copied()) {
        set_taken(&mut image, &g, granule, true);
    }
    Disk { g, image, codes: vec![g.open_code] }
}
