//! Damage: for each clause of "A consistent disk" at least one way to break it, where possible it alone.

use crate::consistency::Clause;
use crate::directory::{
    chain, directory_granules, directory_sectors, entry, files, hit, hit_place, owned, put_entry, set_taken, slots,
    taken, Entry, Pair, ENTRY_BYTES, EXTENSION_FLAGS, LENGTH_PLACE, MARKER_LAST, MARKER_LINK, PAIRS,
};
use crate::disks::Disk;
use crate::geometry::Geometry;
use crate::names::{hash, Name, BLANK};
use crate::random::Random;
use crate::space::{free_granules, reserved_granules};

/// A way to damage a consistent disk; None if the disk has nothing to damage so.
type Way = fn(&mut Victim) -> Option<()>;

pub struct Damage {
    pub title: &'static str,
    /// The clause that is broken, perhaps with others.
    pub breaks: Clause,
    way: Way,
}

impl Damage {
    /// False if the disk has nothing to damage so; it is then as it was.
    pub fn apply(&self, disk: &mut Disk, random: &mut Random) -> bool {
        let d = directory_sectors(&disk.image, &disk.g).expect("a consistent disk");
        let mut victim = Victim { image: disk.image.clone(), g: disk.g, d, random };
        let done = (self.way)(&mut victim).is_some();
        if done {
            disk.image = victim.image;
        }
        done
    }
}

struct Victim<'a> {
    image: Vec<u8>,
    g: Geometry,
    d: usize,
    random: &'a mut Random,
}

impl Victim<'_> {
    fn entry(&self, slot: u8) -> Entry {
        entry(&self.image, &self.g, slot)
    }

    fn put(&mut self, slot: u8, new: &Entry) {
        put_entry(&mut self.image, &self.g, slot, new);
    }

    fn set_hit(&mut self, slot: u8, to: u8) {
        let place = hit_place(&self.g, slot);
        self.image[place] = to;
    }

    /// A slot picked among those for which the condition holds.
    fn slot(&mut self, holds: impl Fn(&Self, u8) -> bool) -> Option<u8> {
        let good: Vec<u8> = slots(self.d).filter(|&slot| holds(self, slot)).collect();
        (!good.is_empty()).then(|| *self.random.pick(&good))
    }

    fn slot_in_use(&mut self, holds: impl Fn(&Entry) -> bool) -> Option<u8> {
        self.slot(|v, slot| v.entry(slot).in_use() && holds(&v.entry(slot)))
    }

    fn extension(&mut self) -> Option<u8> {
        self.slot_in_use(|e| e.is_extension())
    }

    fn file(&mut self) -> Option<u8> {
        self.slot_in_use(|e| !e.is_extension())
    }

    fn free_slot(&mut self) -> Option<u8> {
        self.slot(|v, slot| !v.entry(slot).in_use())
    }

    /// The slot of the file to which an entry belongs.
    fn file_of(&self, slot: u8) -> u8 {
        *files(&self.image, &self.g, self.d)
            .iter()
            .find(|&&file| chain(&self.image, &self.g, self.d, file).contains(&slot))
            .expect("a consistent disk")
    }

    /// Another name, and the HIT bytes to it.
    fn rename(&mut self, file: u8, to: &Name) {
        for slot in chain(&self.image, &self.g, self.d, file) {
            self.set_hit(slot, hash(to));
        }
        let mut e = self.entry(file);
        e.0[0x05..0x10].copy_from_slice(to);
        self.put(file, &e);
    }

    fn set_size(&mut self, file: u8, size: usize) {
        let mut e = self.entry(file);
        e.set_size(size);
        self.put(file, &e);
    }

    /// A size that still fits after runs were lost.
    fn shrink(&mut self, file: u8) {
        self.set_size(file, 0);
    }

    fn free_granules(&self) -> Vec<usize> {
        free_granules(&self.image, &self.g).collect()
    }

    /// An extension in use in a free slot, with so many runs of one free granule each.
    fn new_extension(&mut self, slot: u8, before: u8, runs: usize, code: u8) -> Option<()> {
        let granules = self.free_granules();
        if granules.len() < runs {
            return None;
        }
        let mut e = Entry([0; ENTRY_BYTES]);
        e.0[0x00] = EXTENSION_FLAGS;
        e.0[0x01] = before;
        e.0[0x16..].fill(0xFF);
        for (i, &granule) in granules[..runs].iter().enumerate() {
            e.set_pair(i, Pair::of_granule(&self.g, granule));
            set_taken(&mut self.image, &self.g, granule, true);
        }
        self.put(slot, &e);
        self.set_hit(slot, code);
        Some(())
    }

    /// An entry in use with a pair, and that pair's number.
    fn pair(&mut self, holds: impl Fn(&Self, u8, &Pair) -> bool) -> Option<(u8, usize)> {
        let mut good = Vec::new();
        for slot in slots(self.d).filter(|&slot| self.entry(slot).in_use()) {
            for (i, pair) in self.entry(slot).pairs().iter().enumerate() {
                if holds(self, slot, pair) {
                    good.push((slot, i));
                }
            }
        }
        (!good.is_empty()).then(|| *self.random.pick(&good))
    }

    fn change(&mut self, slot: u8, with: impl FnOnce(&mut Entry, &mut Random)) -> Option<()> {
        let mut e = self.entry(slot);
        with(&mut e, self.random);
        self.put(slot, &e);
        Some(())
    }

    /// A byte other than this one and than 0.
    fn other(&mut self, than: u8) -> u8 {
        loop {
            let byte = self.random.byte();
            if byte != than && byte != 0 {
                return byte;
            }
        }
    }

    /// A last entry of a chain with all four runs.
    fn full_last_entry(&mut self) -> Option<u8> {
        self.slot_in_use(|e| e.marker() == MARKER_LAST && e.pairs().len() == PAIRS)
    }

    /// A slot number that is no slot of this directory.
    fn no_slot(&mut self) -> u8 {
        let row = self.random.within(0, 7);
        (row * 32 + self.random.within(self.d - 2, 31)) as u8
    }

    fn bad_name(&mut self, name: Name) -> Name {
        const BAD: &[u8] = &[0x00, 0x1F, 0x21, 0x2F, 0x3A, 0x40, 0x5E, 0x5F, 0x61, 0x7D, 0x80, 0xB0, 0xC1, 0xFF];
        let mut bytes = name;
        match self.random.within(0, 3) {
            0 => bytes[0] = BLANK,
            1 => {
                // A blank with something behind it, in the name or in the type.
                let (at, behind) = *self.random.pick(&[(1, 2), (1, 7), (6, 7), (8, 9), (8, 10), (9, 10)]);
                bytes[at] = BLANK;
                bytes[behind] = b'A';
            }
            _ => bytes[self.random.within(0, 10)] = *self.random.pick(BAD),
        }
        bytes
    }
}

/// All ways. The order means nothing.
pub const DAMAGES: &[Damage] = &[
    Damage {
        title: "1FH byte",
        breaks: Clause::LengthByte,
        way: |v| {
            let allowed = [0, 5, 10, 15, 20];
            let to = loop {
                let highest = if v.random.percent(50) { 30 } else { 255 };
                let byte = v.random.within(0, highest) as u8;
                if !allowed.contains(&byte) {
                    break byte;
                }
            };
            v.set_hit(LENGTH_PLACE as u8, to);
            Some(())
        },
    },
    Damage {
        title: "directory past the end",
        breaks: Clause::DirectoryFits,
        way: |v| {
            let room = v.g.sectors() - v.g.start;
            let too_many: Vec<u8> =
                [5u8, 10, 15, 20].into_iter().filter(|&above| 10 + above as usize > room).collect();
            if too_many.is_empty() {
                return None;
            }
            let to = *v.random.pick(&too_many);
            v.set_hit(LENGTH_PLACE as u8, to);
            Some(())
        },
    },
    Damage {
        title: "HIT byte gone",
        breaks: Clause::HitAgainstEntry,
        way: |v| {
            let slot = v.slot_in_use(|_| true)?;
            v.set_hit(slot, 0);
            Some(())
        },
    },
    Damage {
        title: "HIT byte of a dead entry",
        breaks: Clause::HitAgainstEntry,
        way: |v| {
            let slot = v.free_slot()?;
            let to = v.other(0);
            v.set_hit(slot, to);
            Some(())
        },
    },
    Damage {
        title: "entry dead under its HIT byte",
        breaks: Clause::HitAgainstEntry,
        way: |v| {
            let slot = v.slot_in_use(|_| true)?;
            v.change(slot, |e, _| e.0[0x00] &= !(1 << 4))
        },
    },
    Damage {
        title: "entry in use without HIT byte",
        breaks: Clause::HitAgainstEntry,
        way: |v| {
            let slot = v.free_slot()?;
            v.change(slot, |e, _| e.0[0x00] |= 1 << 4)
        },
    },
    Damage {
        title: "malformed name",
        breaks: Clause::NameForm,
        way: |v| {
            let file = v.file()?;
            let to = v.bad_name(v.entry(file).name());
            v.rename(file, &to);
            Some(())
        },
    },
    Damage {
        title: "the same name twice",
        breaks: Clause::NamesDiffer,
        way: |v| {
            let first = v.file()?;
            let second = v.slot(|v, slot| v.entry(slot).is_primary_in_use() && slot != first)?;
            let name = v.entry(first).name();
            v.rename(second, &name);
            Some(())
        },
    },
    Damage {
        title: "bit 5",
        breaks: Clause::BitFive,
        way: |v| {
            let file = v.file()?;
            v.change(file, |e, _| e.0[0x00] |= 1 << 5)
        },
    },
    Damage {
        title: "a file's HIT byte",
        breaks: Clause::FileHash,
        way: |v| {
            let file = v.file()?;
            let to = v.other(hit(&v.image, &v.g, file));
            v.set_hit(file, to);
            Some(())
        },
    },
    Damage {
        title: "an extension's HIT byte",
        breaks: Clause::ExtensionHash,
        way: |v| {
            let slot = v.extension()?;
            let to = v.other(hit(&v.image, &v.g, slot));
            v.set_hit(slot, to);
            Some(())
        },
    },
    Damage {
        title: "extension in no chain",
        breaks: Clause::OneChain,
        way: |v| {
            let slot = v.free_slot()?;
            let before = if v.random.percent(30) { slot } else { v.slot(|_, _| true)? };
            let code = v.other(0);
            v.new_extension(slot, before, 1, code)
        },
    },
    Damage {
        title: "ring of one extension",
        breaks: Clause::OneChain,
        way: |v| {
            let slot = v.free_slot()?;
            let code = v.other(0);
            v.new_extension(slot, slot, PAIRS, code)?;
            v.change(slot, |e, _| e.set_link(MARKER_LINK, slot))
        },
    },
    Damage {
        title: "ring of two extensions",
        breaks: Clause::OneChain,
        way: |v| {
            let first = v.free_slot()?;
            let second = v.slot(|v, slot| !v.entry(slot).in_use() && slot != first)?;
            let code = v.other(0);
            v.new_extension(first, second, PAIRS, code)?;
            v.new_extension(second, first, PAIRS, code)?;
            v.change(first, |e, _| e.set_link(MARKER_LINK, second))?;
            v.change(second, |e, _| e.set_link(MARKER_LINK, first))
        },
    },
    Damage {
        title: "file turned extension",
        breaks: Clause::OneChain,
        way: |v| {
            let file = v.slot_in_use(|e| !e.is_extension() && e.pair(0).is_some())?;
            v.change(file, |e, _| e.0[0x00] = EXTENSION_FLAGS)
        },
    },
    Damage {
        title: "chain that runs into itself",
        breaks: Clause::OneChain,
        way: |v| {
            let last =
                v.slot_in_use(|e| e.is_extension() && e.marker() == MARKER_LAST && e.pairs().len() == PAIRS)?;
            let walked = chain(&v.image, &v.g, v.d, v.file_of(last));
            let to = *v.random.pick(&walked[1..]);
            v.change(last, |e, _| e.set_link(MARKER_LINK, to))
        },
    },
    Damage {
        title: "extension's byte 00",
        breaks: Clause::ExtensionFlags,
        way: |v| {
            let slot = v.extension()?;
            v.change(slot, |e, random| {
                let bit = *random.pick(&[0u8, 1, 2, 3, 5, 6]);
                e.0[0x00] ^= 1 << bit;
            })
        },
    },
    Damage {
        title: "extension's back link",
        breaks: Clause::PointsBack,
        way: |v| {
            let slot = v.extension()?;
            let before = v.entry(slot).slot_before();
            let to = if before != 0 && v.random.percent(20) { 0 } else { v.other(before) };
            v.change(slot, |e, _| e.0[0x01] = to)
        },
    },
    Damage {
        title: "two links to one extension",
        breaks: Clause::OneChain,
        way: |v| {
            let slot = v.extension()?;
            let last = v.full_last_entry()?;
            v.change(last, |e, _| e.set_link(MARKER_LINK, slot))
        },
    },
    Damage {
        title: "extension without run",
        breaks: Clause::ExtensionRun,
        way: |v| {
            let slot = v.slot_in_use(|e| e.is_extension() && e.marker() == MARKER_LAST)?;
            let file = v.file_of(slot);
            v.shrink(file);
            v.change(slot, |e, _| (0..PAIRS).for_each(|i| e.empty_pair(i)))
        },
    },
    Damage {
        title: "link to no slot",
        breaks: Clause::LinkLeads,
        way: |v| {
            let last = v.full_last_entry()?;
            let to = v.no_slot();
            v.change(last, |e, _| e.set_link(MARKER_LINK, to))
        },
    },
    Damage {
        title: "link to a dead entry",
        breaks: Clause::LinkLeads,
        way: |v| {
            let last = v.full_last_entry()?;
            let to = v.free_slot()?;
            if v.random.percent(50) {
                // It looks like a killed extension of this very file.
                v.change(to, |e, _| (e.0[0x00], e.0[0x01]) = (0x80, last))?;
            }
            v.change(last, |e, _| e.set_link(MARKER_LINK, to))
        },
    },
    Damage {
        title: "link to a file",
        breaks: Clause::LinkLeads,
        way: |v| {
            let last = v.full_last_entry()?;
            let to = v.file()?;
            v.change(last, |e, _| e.set_link(MARKER_LINK, to))
        },
    },
    Damage {
        title: "link changed",
        breaks: Clause::OneChain,
        way: |v| {
            let slot = v.slot_in_use(|e| e.marker() == MARKER_LINK)?;
            let link = v.entry(slot).link();
            let to = v.other(link);
            v.change(slot, |e, _| e.set_link(MARKER_LINK, to))
        },
    },
    Damage {
        title: "marker says last too early",
        breaks: Clause::OneChain,
        way: |v| {
            let slot = v.slot_in_use(|e| e.marker() == MARKER_LINK)?;
            let file = v.file_of(slot);
            v.shrink(file);
            v.change(slot, |e, _| e.0[0x1E] = MARKER_LAST)
        },
    },
    Damage {
        title: "three runs before an extension",
        breaks: Clause::FourRuns,
        way: |v| {
            let slot = v.slot_in_use(|e| e.marker() == MARKER_LINK)?;
            let file = v.file_of(slot);
            v.shrink(file);
            v.change(slot, |e, random| {
                let kept = random.within(if e.is_extension() { 1 } else { 0 }, 3);
                (kept..PAIRS).for_each(|i| e.empty_pair(i));
            })
        },
    },
    Damage {
        title: "extension behind an entry with room",
        breaks: Clause::FourRuns,
        way: |v| {
            let last = v.slot_in_use(|e| e.marker() == MARKER_LAST && e.pairs().len() < PAIRS)?;
            let slot = v.free_slot()?;
            let code = hit(&v.image, &v.g, last);
            v.new_extension(slot, last, 1, code)?;
            v.change(last, |e, _| e.set_link(MARKER_LINK, slot))
        },
    },
    Damage {
        title: "marker neither FEH nor FFH",
        breaks: Clause::Marker,
        way: |v| {
            let slot = v.slot_in_use(|e| e.marker() == MARKER_LAST)?;
            v.change(slot, |e, random| e.0[0x1E] = random.within(0, 0xFD) as u8)
        },
    },
    Damage {
        title: "pair behind the end of the list",
        breaks: Clause::PairOrder,
        way: |v| {
            let slot = v.slot_in_use(|e| e.pairs().len() < PAIRS - 1)?;
            let granule = *v.free_granules().first()?;
            set_taken(&mut v.image, &v.g, granule, true);
            let pair = Pair::of_granule(&v.g, granule);
            v.change(slot, |e, random| {
                let at = random.within(e.pairs().len() + 1, PAIRS - 1);
                e.set_pair(at, pair);
            })
        },
    },
    Damage {
        title: "gap in the pairs",
        breaks: Clause::PairOrder,
        way: |v| {
            let slot = v.slot_in_use(|e| e.pairs().len() >= 2)?;
            v.change(slot, |e, random| {
                let at = random.within(0, e.pairs().len() - 2);
                e.0[0x16 + 2 * at] = 0xFF;
            })
        },
    },
    Damage {
        title: "block off the disk",
        breaks: Clause::RunOnDisk,
        way: |v| {
            let (slot, i) = v.pair(|_, _, _| true)?;
            let block = v.random.within(v.g.blocks, 0xFE) as u8;
            v.change(slot, |e, _| e.0[0x16 + 2 * i] = block)
        },
    },
    Damage {
        title: "run past the end",
        breaks: Clause::RunOnDisk,
        way: |v| {
            let most = v.g.granules();
            let (slot, i) = v.pair(|v, _, pair| pair.run(&v.g).start + 32 > most)?;
            let first = v.entry(slot).pairs()[i].run(&v.g).start;
            // All that the run now covers is taken and in no other run, if the disk can have it so.
            let least = most - first;
            let further = if v.random.percent(60) { least } else { v.random.within(least, 31) };
            v.change(slot, |e, _| {
                let pair = e.pairs()[i];
                e.set_pair(i, Pair { further: further as u8, ..pair });
            })
        },
    },
    Damage {
        title: "first unit too high",
        breaks: Clause::FirstUnit,
        way: |v| {
            let units = v.g.units;
            let (slot, i) = v.pair(|_, _, pair| pair.block > 0 && (pair.unit as usize) + units < 8)?;
            // The same granules, told from the block before.
            v.change(slot, |e, _| {
                let pair = e.pairs()[i];
                e.set_pair(i, Pair { block: pair.block - 1, unit: pair.unit + units as u8, further: pair.further });
            })
        },
    },
    Damage {
        title: "GAT bit of a run clear",
        breaks: Clause::RunTaken,
        way: |v| {
            let (slot, i) = v.pair(|_, _, _| true)?;
            let run = v.entry(slot).pairs()[i].run(&v.g);
            let granule = v.random.within(run.start, run.end - 1);
            set_taken(&mut v.image, &v.g, granule, false);
            Some(())
        },
    },
    Damage {
        title: "two pairs alike",
        breaks: Clause::RunsDisjoint,
        way: |v| {
            let (first, i) = v.pair(|_, _, _| true)?;
            let (second, j) = v.pair(|_, _, _| true)?;
            if (first, i) == (second, j) {
                return None;
            }
            let pair = v.entry(first).pairs()[i];
            let file = v.file_of(second);
            v.shrink(file);
            v.change(second, |e, _| e.set_pair(j, pair))
        },
    },
    Damage {
        title: "run one granule too long",
        breaks: Clause::RunsDisjoint,
        way: |v| {
            let (slot, i) = v.pair(|v, _, pair| {
                let after = pair.run(&v.g).end;
                pair.further < 31
                    && after < v.g.granules()
                    && taken(&v.image, &v.g, after)
                    && !reserved_granules(&v.image, &v.g, v.d).contains(&after)
            })?;
            v.change(slot, |e, _| e.0[0x17 + 2 * i] += 1)
        },
    },
    Damage {
        title: "n = 0 with an end byte",
        breaks: Clause::SizeForm,
        way: |v| {
            let file = v.file()?;
            v.shrink(file);
            v.change(file, |e, random| e.0[0x03] = random.within(1, 255) as u8)
        },
    },
    Damage {
        title: "size past the granules",
        breaks: Clause::SizeFits,
        way: |v| {
            let file = v.file()?;
            let fits = owned(&v.image, &v.g, v.d, file).len() * v.g.granule_bytes();
            let size = if v.random.percent(60) { fits + 1 } else { v.random.within(fits + 1, 65535 * 256) };
            v.set_size(file, size);
            Some(())
        },
    },
    Damage {
        title: "directory granule clear",
        breaks: Clause::DirectoryTaken,
        way: |v| {
            let run = directory_granules(&v.g, v.d);
            let granule = v.random.within(run.start, run.end - 1);
            set_taken(&mut v.image, &v.g, granule, false);
            Some(())
        },
    },
    Damage {
        title: "owner of the directory no system file",
        breaks: Clause::DirectoryOwner,
        way: |v| {
            let file = v.slot(|v, slot| {
                v.entry(slot).is_primary_in_use()
                    && owned(&v.image, &v.g, v.d, slot)
                        .iter()
                        .any(|granule| directory_granules(&v.g, v.d).contains(granule))
            })?;
            v.change(file, |e, _| e.0[0x00] &= !(1 << 6))
        },
    },
    Damage {
        title: "file on the directory",
        breaks: Clause::DirectoryOwner,
        way: |v| {
            let reserved = reserved_granules(&v.image, &v.g, v.d);
            let granule = directory_granules(&v.g, v.d).find(|granule| reserved.contains(granule))?;
            let (slot, i) = v.pair(|v, slot, _| !v.entry(v.file_of(slot)).is_system())?;
            let file = v.file_of(slot);
            v.shrink(file);
            let pair = Pair::of_granule(&v.g, granule);
            v.change(slot, |e, _| e.set_pair(i, pair))
        },
    },
];

/// So many bytes or bits of the directory changed at random; entries in use and the HIT are preferred.
/// What comes out may still be consistent.
pub fn random_flips(disk: &mut Disk, random: &mut Random, times: usize) {
    let g = disk.g;
    let d = directory_sectors(&disk.image, &g).expect("a consistent disk");
    for _ in 0..times {
        let used: Vec<u8> = slots(d).filter(|&slot| entry(&disk.image, &g, slot).in_use()).collect();
        let place = match random.within(0, 3) {
            0 => g.start * 256 + random.within(0, d * 256 - 1),
            1 => hit_place(&g, random.byte()),
            _ if !used.is_empty() => {
                crate::directory::entry_place(&g, *random.pick(&used)) + random.within(0, ENTRY_BYTES - 1)
            }
            _ => g.start * 256 + random.within(0, g.blocks.min(255)),
        };
        match random.within(0, 2) {
            0 => disk.image[place] = random.byte(),
            1 => disk.image[place] = *random.pick(&[0x00, 0xFF, 0xFE, 0x90, 0x10]),
            _ => disk.image[place] ^= 1 << random.within(0, 7),
        }
    }
}
