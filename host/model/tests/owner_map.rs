//! The owner map (02 §8): one bit a granule, laid out as the GAT is, a run taken by masks, the directory's granules tested once a
//! file. By hand, on the model and on the linked library: two runs and the GAT at every bit and block's end, the directory wherever
//! it can lie, the disk's end. And the library against the model on disks of every number of units per block, with changes aimed at
//! what the map sees.

use genie_model::binding::linked;
use genie_model::by_hand::{change, is_consistent, put_extension, put_file, tells, Run};
use genie_model::calls::{Number, ACCEPTED, NO_SLOT};
use genie_model::compare::what_is;
use genie_model::directory::{
    directory_granules, directory_place, entry, entry_place, hit_place, set_taken, slots, Entry, Pair,
    LENGTH_PLACE, PAIRS,
};
use genie_model::disks::{empty_disk, random_disk_of, Disk};
use genie_model::fault::{fault, Kind};
use genie_model::geometry::{Geometry, MOST_BLOCKS, MOST_UNITS};
use genie_model::library::Library;
use genie_model::random::Random;
use genie_model::space::LONGEST_RUN;
use std::collections::{BTreeMap, BTreeSet};

/// "A granule is 5 sectors of 256 bytes."
const GRANULE_SECTORS: usize = 5;
/// From this block on the eight bytes in which a run or the directory is looked for are the map's last.
const LAST_EIGHT: usize = MOST_BLOCKS - 8;
/// Blocks to stand for all: one in the middle, those about the first of the last eight, the disk's last.
const BLOCKS: [usize; 6] = [60, LAST_EIGHT - 1, LAST_EIGHT, LAST_EIGHT + 1, MOST_BLOCKS - 2, MOST_BLOCKS - 1];
/// Slots of two files, the lower first: in the second pair the higher one's entry stands before the other's on the disk.
const TWO_SLOTS: [(u8, u8); 2] = [(0x02, 0x83), (0x07, 0x20)];

fn geometry(blocks: usize, units: usize, first: usize) -> Geometry {
    Geometry {
        blocks,
        units,
        start: first * GRANULE_SECTORS,
        open_code: 0,
        system_disk: true,
        granule_sectors: GRANULE_SECTORS,
    }
}

/// An empty disk with every granule set in the GAT: whether a run may have one hangs on the other runs and on the directory.
fn reserved_disk(g: Geometry, d: usize) -> Disk {
    empty_disk(g, d, &(0..g.granules()).collect::<Vec<_>>())
}

/// 192 blocks, the directory on granules 0 and 1.
fn largest(units: usize) -> Disk {
    reserved_disk(geometry(MOST_BLOCKS, units, 0), 10)
}

/// The granules of those blocks.
fn granules_of_blocks(g: &Geometry) -> impl Iterator<Item = usize> + '_ {
    BLOCKS.into_iter().flat_map(move |block| (0..g.units).map(move |unit| g.granule(block, unit)))
}

/// Lengths of runs: within a block, a whole one, over one end, over several, the longest.
fn lengths(units: usize) -> BTreeSet<usize> {
    BTreeSet::from([1, 2, units, units + 1, LONGEST_RUN])
}

/// The disk without any entry in use.
fn cleared(disk: &mut Disk, d: usize) {
    for slot in slots(d) {
        change(disk, slot, |e| *e = Entry([0; 32]));
        disk.image[hit_place(&disk.g, slot)] = 0;
    }
}

fn system(disk: &mut Disk, slot: u8) {
    change(disk, slot, |e| e.0[0x00] |= 0x40);
}

/// The two runs in one entry, in two files, and in a file and its extension: consistent, or the granule that they share told
/// of the higher slot.
fn in_every_place(disk: &mut Disk, one: Run, two: Run, shared: bool, what: &str) {
    let judge = |disk: &mut Disk, slot: u8| {
        if shared {
            tells(disk, Kind::GranuleShared, Some(slot), what);
        } else {
            is_consistent(disk, what);
        }
        cleared(disk, 10);
    };
    for runs in [[one, two], [two, one]] {
        put_file(disk, 0x41, "A", &runs);
        judge(disk, 0x41);
    }
    for (low, high) in TWO_SLOTS {
        put_file(disk, low, "A", &[one]);
        put_file(disk, high, "B", &[two]);
        judge(disk, high);
        // Granules between the directory and all blocks looked at.
        put_file(disk, high, "A", &[(3, 1), (5, 1), (7, 1), one]);
        put_extension(disk, low, high, "A", &[two]);
        judge(disk, high);
    }
}

/// One run ends where the other begins: on the same granule, or on the one before. That granule is at every bit of a byte, and
/// the runs are within a block, up to its end and over it.
#[test]
fn two_runs_that_meet() {
    for units in 1..=MOST_UNITS {
        let mut disk = largest(units);
        let g = disk.g;
        for granule in granules_of_blocks(&g) {
            for before in lengths(units) {
                let one = (granule + 1 - before, before);
                for after in lengths(units) {
                    for (first, shared) in [(granule, true), (granule + 1, false)] {
                        if first + after <= g.granules() {
                            let what = format!("{units} units, {one:?} and {:?}", (first, after));
                            in_every_place(&mut disk, one, (first, after), shared, &what);
                        }
                    }
                }
            }
        }
    }
}

/// A run of 32, and one of a single granule at each of its places and beside it; the GAT clear there instead; and the run twice.
#[test]
fn each_granule_of_the_longest_run() {
    const SLOT: u8 = 0x62;
    for units in 1..=MOST_UNITS {
        let mut disk = largest(units);
        let g = disk.g;
        for first in granules_of_blocks(&g) {
            let first = first.min(g.granules() - LONGEST_RUN);
            let run = (first, LONGEST_RUN);
            let what = |text: &str| format!("{units} units, {run:?}: {text}");
            for runs in [[run, run, (3, 1), (5, 1)], [(3, 1), run, (5, 1), run]] {
                put_file(&mut disk, SLOT, "A", &runs);
                tells(&disk, Kind::GranuleShared, Some(SLOT), &what("twice"));
            }
            for granule in first - 1..g.granules().min(first + LONGEST_RUN + 1) {
                let within = (first..first + LONGEST_RUN).contains(&granule);
                for runs in [[run, (granule, 1)], [(granule, 1), run]] {
                    put_file(&mut disk, SLOT, "A", &runs);
                    let text = what(&format!("granule {granule}"));
                    match within {
                        true => tells(&disk, Kind::GranuleShared, Some(SLOT), &text),
                        false => is_consistent(&disk, &text),
                    }
                }
                put_file(&mut disk, SLOT, "A", &[run]);
                set_taken(&mut disk.image, &g, granule, false);
                let text = what(&format!("granule {granule} clear in the GAT"));
                match within {
                    true => tells(&disk, Kind::GatBitMissing, Some(SLOT), &text),
                    false => is_consistent(&disk, &text),
                }
                set_taken(&mut disk.image, &g, granule, true);
            }
        }
    }
}

/// Where the directory lies: its first granule on a disk of so many.
fn places_of_directory(granules: usize, d: usize) -> [usize; 3] {
    let last = granules - d / GRANULE_SECTORS;
    [0, last / 2, last]
}

/// Numbers of directory sectors, and of blocks: the fewest that hold it with a granule beside it, few, and the most.
fn sizes(units: usize) -> impl Iterator<Item = (usize, usize)> {
    (10..=30).step_by(GRANULE_SECTORS).flat_map(move |d| {
        let least = (d / GRANULE_SECTORS + 1).div_ceil(units);
        [least, least + 9, 3 * least + 30, MOST_BLOCKS].map(|blocks| (d, blocks))
    })
}

/// The directory's granules are open to a system file and to no other, in a first entry and in an extension; what is beside them
/// is open to all.
#[test]
fn runs_into_the_directory() {
    for units in 1..=MOST_UNITS {
        for (d, blocks) in sizes(units) {
            for place in places_of_directory(blocks * units, d) {
                let mut disk = reserved_disk(geometry(blocks, units, place), d);
                around_the_directory(&mut disk, d);
            }
        }
    }
}

fn around_the_directory(disk: &mut Disk, d: usize) {
    let g = disk.g;
    let own = directory_granules(&g, d);
    let (first, end) = (own.start, own.end);
    let all = (first, end - first);
    let what =
        |text: &str, run: Run| format!("{run:?} {text}, directory {all:?}, {} blocks of {}", g.blocks, g.units);
    let fits = |run: &Run| run.0 + run.1 <= g.granules();

    // Each granule of it, one and many more from below, from above, over both ends.
    let mut into: Vec<Run> = own.clone().map(|granule| (granule, 1)).collect();
    into.push(all);
    for more in [1, g.units, LONGEST_RUN - 1] {
        into.extend(first.checked_sub(more).map(|from| (from, more + 1)));
        into.push((end - 1, more + 1));
    }
    into.extend(first.checked_sub(2).map(|from| (from, all.1 + 4)));
    into.retain(fits);
    for &run in &into {
        for (low, high) in TWO_SLOTS {
            put_file(disk, high, "A", &[run]);
            tells(disk, Kind::DirectoryGranule, Some(high), &what("of a file", run));
            system(disk, high);
            is_consistent(disk, &what("of a system file", run));
            // A second file on one of those granules: told of the higher slot as shared, of a lower one for the directory.
            let granule = run.0.max(first);
            put_file(disk, low, "B", &[(granule, 1)]);
            tells(
                disk,
                Kind::DirectoryGranule,
                Some(low),
                &what("of a system file, and a file in a lower slot", run),
            );
            system(disk, low);
            tells(disk, Kind::GranuleShared, Some(high), &what("of two system files", run));
            change(disk, high, |e| e.0[0x00] &= !0x40);
            tells(
                disk,
                Kind::GranuleShared,
                Some(high),
                &what("of a file, and a system file in a lower slot", run),
            );
            cleared(disk, d);
        }
    }

    // Beside it: up to its first granule, from its end on, both at once.
    let mut beside = Vec::new();
    for length in lengths(g.units) {
        beside.extend(first.checked_sub(length).map(|from| (from, length)));
        beside.push((end, length));
    }
    beside.retain(fits);
    for &run in &beside {
        put_file(disk, 0x20, "A", &[run]);
        is_consistent(disk, &what("beside", run));
        put_file(disk, 0x07, "DIR/SYS", &[all]);
        system(disk, 0x07);
        is_consistent(disk, &what("beside, and a system file on the directory", run));
        cleared(disk, d);
    }

    // In an extension it is the file's flag that counts. Four granules for the runs before it, where there are so many.
    let others: Vec<Run> = (0..g.granules()).filter(|granule| !own.contains(granule)).map(|at| (at, 1)).collect();
    if let Some(four) = others.get(..PAIRS) {
        for (file, slot) in [(0x07, 0x20), (0x20, 0x07), (0x81, 0xE2)] {
            for run in [(first, 1), (end - 1, 1), all] {
                put_file(disk, file, "A", four);
                put_extension(disk, slot, file, "A", &[run]);
                tells(disk, Kind::DirectoryGranule, Some(slot), &what("of an extension", run));
                system(disk, file);
                is_consistent(disk, &what("of a system file's extension", run));
                cleared(disk, d);
            }
        }
    }

    // Clear in the GAT: of no slot, or the slot's whose run holds it.
    for granule in own {
        set_taken(&mut disk.image, &g, granule, false);
        tells(disk, Kind::DirectoryGranule, None, &what("clear", (granule, 1)));
        put_file(disk, 0x20, "DIR/SYS", &[all]);
        system(disk, 0x20);
        set_taken(&mut disk.image, &g, granule, false);
        tells(disk, Kind::GatBitMissing, Some(0x20), &what("clear under a system file", (granule, 1)));
        set_taken(&mut disk.image, &g, granule, true);
        cleared(disk, d);
    }
}

/// Runs of every length that end with the disk's last granule, and that go one beyond; blocks that there are not; a first unit
/// that is none of the block's, though it names a granule of the next. Bits of the GAT that stand for no granule mean nothing.
#[test]
fn the_end_of_the_disk() {
    const SLOT: u8 = 0xC5;
    for units in 1..=MOST_UNITS {
        for blocks in [2usize.div_ceil(units) + 1, 33, LAST_EIGHT, LAST_EIGHT + 1, MOST_BLOCKS] {
            let g = geometry(blocks, units, 0);
            for odd in [0x00, 0xFF, 0xA5] {
                let mut disk = reserved_disk(g, 10);
                let gat = directory_place(&g);
                for byte in 0..256 {
                    disk.image[gat + byte] |= if byte < blocks { odd << (units - 1) << 1 } else { odd };
                }
                let put = |disk: &mut Disk, pair: Pair| {
                    put_file(disk, SLOT, "A", &[(2, 1)]);
                    change(disk, SLOT, |e| e.set_pair(0, pair));
                };
                let off = |disk: &Disk, pair: Pair| {
                    tells(disk, Kind::RunOffDisk, Some(SLOT), &format!("{blocks} blocks of {units}: {pair:?}"));
                };
                for length in 1..=LONGEST_RUN.min(g.granules() - 2) {
                    let last = Pair { further: (length - 1) as u8, ..Pair::of_granule(&g, g.granules() - length) };
                    put(&mut disk, last);
                    is_consistent(&disk, &format!("{blocks} blocks of {units}: {last:?}"));
                    if length < LONGEST_RUN {
                        let beyond = Pair { further: length as u8, ..last };
                        put(&mut disk, beyond);
                        off(&disk, beyond);
                    }
                }
                for block in [blocks, blocks + 1, MOST_BLOCKS, 0xFE] {
                    for (unit, further) in [(0, 0), (units - 1, 0), (0, units - 1), (0, 31)] {
                        let pair = Pair { block: block as u8, unit: unit as u8, further: further as u8 };
                        put(&mut disk, pair);
                        off(&disk, pair);
                    }
                }
                for (block, further) in [(blocks - 2, 0), (blocks - 2, units - 1), (blocks - 1, 0), (0, 0), (0, 7)]
                {
                    for unit in units..MOST_UNITS {
                        let pair = Pair { block: block as u8, unit: unit as u8, further: further as u8 };
                        put(&mut disk, pair);
                        off(&disk, pair);
                    }
                }
            }
        }
    }
}

// ---- The library against the model ----

/// What a run is like, for the map.
#[derive(Clone, Copy, Debug, PartialEq, Eq, PartialOrd, Ord)]
enum Shape {
    WithinBlock,
    ToBlockEnd,
    OverOneEnd,
    OverManyEnds,
    Longest,
    OnDirectory,
    OfExtension,
}

/// The shapes of the runs on a disk.
fn shapes(disk: &Disk, d: usize, holders: &[u8]) -> BTreeSet<Shape> {
    let g = &disk.g;
    let mut met = BTreeSet::new();
    for e in holders.iter().map(|&slot| entry(&disk.image, g, slot)) {
        for run in e.pairs().iter().map(|pair| pair.run(g)) {
            met.insert(match (run.end - 1) / g.units - run.start / g.units {
                0 => Shape::WithinBlock,
                1 => Shape::OverOneEnd,
                _ => Shape::OverManyEnds,
            });
            let further = [
                (Shape::ToBlockEnd, run.end.is_multiple_of(g.units)),
                (Shape::Longest, run.len() == LONGEST_RUN),
                (Shape::OnDirectory, directory_granules(g, d).any(|granule| run.contains(&granule))),
                (Shape::OfExtension, e.is_extension()),
            ];
            met.extend(further.into_iter().filter(|(_, holds)| *holds).map(|(shape, _)| shape));
        }
    }
    met
}

/// A change of one byte that the map sees: where, and what is there then. The slots hold runs.
fn aimed(disk: &Disk, holders: &[u8], random: &mut Random) -> (usize, u8) {
    let g = &disk.g;
    let slot = *random.pick(holders);
    let of_entry = entry_place(g, slot);
    let of_pair = of_entry + 0x16 + 2 * random.within(0, entry(&disk.image, g, slot).pairs().len() - 1);
    let bit = 1 << random.within(0, 7);
    let flipped = |place: usize, bits: u8| (place, disk.image[place] ^ bits);
    match random.within(0, 99) {
        // A pair: its block, its first unit, its length.
        0..=9 => flipped(of_pair + random.within(0, 1), bit),
        10..=21 => flipped(of_pair + 1, 1 << random.within(0, 4)),
        22..=29 => (of_pair, random.within(0, g.blocks) as u8),
        30..=42 => {
            // The block in which the directory begins, or one beside it.
            let block = g.start / GRANULE_SECTORS / g.units + random.within(0, 2);
            (of_pair, block.saturating_sub(1) as u8)
        }
        43..=49 => (of_pair + 1, (random.within(0, g.units - 1) << 5 | random.within(0, 31)) as u8),
        50..=51 => flipped(of_entry + random.within(0x16, 0x1D), bit),
        // The GAT, the system flag, other flags.
        52..=66 => flipped(directory_place(g) + random.within(0, g.blocks), bit),
        67..=80 => flipped(of_entry, 0x40),
        81..=82 => flipped(of_entry, bit),
        83 => flipped(of_entry, 0x80),
        // The HIT and in it the directory's length, the counts, back link, marker and link.
        84..=85 => flipped(hit_place(g, random.byte()), bit),
        86 => (hit_place(g, LENGTH_PLACE as u8), 5 * random.within(0, 5) as u8),
        87..=97 => flipped(of_entry + *random.pick(&[0x03, 0x14, 0x15]), bit),
        _ => flipped(of_entry + *random.pick(&[0x01, 0x1E, 0x1F]), bit),
    }
}

/// What the model says, as the library answers it.
fn of_model(disk: &Disk) -> (Number, usize) {
    match fault(&disk.image, &disk.g) {
        Some(told) => (told.kind as Number, told.slot.map_or(NO_SLOT, usize::from)),
        None => (ACCEPTED, NO_SLOT),
    }
}

fn of_library(library: &dyn Library, disk: &Disk) -> (Number, usize) {
    let mut fault_slot = 0;
    let number = library.check(&disk.image, &disk.g, &mut fault_slot);
    (number, fault_slot)
}

/// A random disk of this geometry, and the slots that hold runs; there are some. Where `reserve` is true all granules are set in
/// the GAT, so that a changed run is judged by the others and by the directory.
fn disk_with_runs(random: &mut Random, g: Geometry, d: usize, reserve: bool) -> (Disk, Vec<u8>) {
    loop {
        let mut disk = random_disk_of(random, g, d);
        let at = |slot: &u8| entry(&disk.image, &g, *slot);
        let holders: Vec<u8> = slots(d).filter(|slot| at(slot).in_use() && at(slot).pair(0).is_some()).collect();
        if !holders.is_empty() {
            if reserve {
                (0..g.granules()).for_each(|granule| set_taken(&mut disk.image, &g, granule, true));
            }
            return (disk, holders);
        }
    }
}

/// Disks of every number of units per block, the directory at every place and of every length: consistent for the library too;
/// and after one to three changes it tells what the model tells.
#[test]
fn library_and_model_tell_the_same_of_every_map() {
    const SEED: u64 = 8;
    /// Disks of each build, and changed images of each disk.
    const DISKS: usize = 4;
    const CHANGES: usize = 25;
    /// All answers that are frequent. 24 is not: no change touches a name, but an extension may hold its file's and become one.
    const ANSWERS: [Number; 10] = [0, 21, 22, 23, 25, 26, 27, 28, 29, 30];
    let library = linked();
    let mut random = Random::new(SEED);
    let (mut disks, mut told): (usize, BTreeMap<Number, usize>) = (0, BTreeMap::new());
    for units in 1..=MOST_UNITS {
        let mut met = BTreeSet::new();
        for place in 0..3 {
            let mut here: BTreeMap<Number, usize> = BTreeMap::new();
            for (d, blocks) in sizes(units).flat_map(|size| [size; DISKS]) {
                let g = geometry(blocks, units, places_of_directory(blocks * units, d)[place]);
                let (mut disk, holders) = disk_with_runs(&mut random, g, d, disks % 2 == 0);
                let at = || format!("disk {disks} of seed {SEED}, {g:?}, {d} directory sectors");
                assert_eq!(of_model(&disk), (ACCEPTED, NO_SLOT), "the model: {}", at());
                assert_eq!(of_library(&*library, &disk), (ACCEPTED, NO_SLOT), "the library: {}", at());
                met.extend(shapes(&disk, d, &holders));
                for _ in 0..CHANGES {
                    let mut was: Vec<(usize, u8)> = Vec::new();
                    for _ in 0..random.within(1, 3) {
                        let (place, to) = aimed(&disk, &holders, &mut random);
                        was.push((place, std::mem::replace(&mut disk.image[place], to)));
                    }
                    let (ours, theirs) = (of_model(&disk), of_library(&*library, &disk));
                    let changed = || -> Vec<String> {
                        was.iter().map(|&(place, _)| what_is(&disk.image, &g, place)).collect()
                    };
                    assert_eq!(theirs, ours, "(left: the library) {}: {:?} changed", at(), changed());
                    *here.entry(ours.0).or_default() += 1;
                    for (place, byte) in was.into_iter().rev() {
                        disk.image[place] = byte;
                    }
                }
                disks += 1;
            }
            assert!(
                ANSWERS.iter().all(|number| here.contains_key(number)),
                "{units} units, directory's place {place}: {here:?}"
            );
            here.into_iter().for_each(|(number, times)| *told.entry(number).or_default() += times);
        }
        assert_eq!(met.len(), 7, "{units} units: only runs {met:?}");
    }
    println!("{disks} disks, changed: {told:?}");
    let tried: usize = told.values().sum();
    assert!(tried >= 40_000 && told.len() == 11, "every kind, and none: {told:?}");
    assert!(told[&ACCEPTED] * 6 > tried && told[&ACCEPTED] * 3 < tried, "consistent or not, both often: {told:?}");
}
