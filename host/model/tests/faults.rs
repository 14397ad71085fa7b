//! The fault that is told of a disk (02 §2). In the model: some fault exactly where a clause is broken, of a kind that fits.
//! By hand, on the model and on the linked library: each kind at each place where it can stand, several faults at once, and
//! every call. And the library against the model on damaged disks.

use genie_model::binding::{libraries, linked};
use genie_model::by_hand::{change, is_consistent, put_extension, put_file, tells, with_runs};
use genie_model::call::{perform, Call, FAULT_SLOT};
use genie_model::calls::{Birth, Number, NO_SLOT};
use genie_model::consistency::{faults, Clause};
use genie_model::damage::{random_flips, DAMAGES};
use genie_model::differences::{FIRST, SECOND};
use genie_model::directory::{
    directory_sectors, entry, hit, hit_place, put_entry, set_taken, slots, Entry, Pair, LENGTH_PLACE,
};
use genie_model::disks::{empty_disk, random_disk, Disk};
use genie_model::fault::{fault, Fault, Kind};
use genie_model::geometry::Geometry;
use genie_model::handle::Handle;
use genie_model::library::Library;
use genie_model::model::Model;
use genie_model::names::{hash, name};
use genie_model::pairs::{side, tell};
use genie_model::random::Random;
use std::collections::BTreeMap;

/// The kind that a clause of 01's paragraph counts under.
fn kind_of(clause: Clause) -> Kind {
    match clause {
        Clause::LengthByte | Clause::DirectoryFits => Kind::DirectoryLength,
        Clause::HitAgainstEntry | Clause::FileHash | Clause::ExtensionHash => Kind::HitAgainstEntry,
        Clause::NameForm | Clause::BitFive => Kind::Name,
        Clause::NamesDiffer => Kind::DuplicateName,
        Clause::OneChain
        | Clause::ExtensionFlags
        | Clause::PointsBack
        | Clause::ExtensionRun
        | Clause::LinkLeads
        | Clause::FourRuns
        | Clause::Marker
        | Clause::PairOrder => Kind::Chain,
        Clause::RunOnDisk | Clause::FirstUnit => Kind::RunOffDisk,
        Clause::RunTaken => Kind::GatBitMissing,
        Clause::RunsDisjoint => Kind::GranuleShared,
        Clause::SizeForm | Clause::SizeFits => Kind::Size,
        Clause::DirectoryTaken | Clause::DirectoryOwner => Kind::DirectoryGranule,
    }
}

#[test]
fn every_damage_gives_a_fault_of_a_kind_that_fits() {
    let mut random = Random::new(11);
    let mut alone: BTreeMap<Kind, usize> = BTreeMap::new();
    for number in 0..400 {
        let whole = random_disk(&mut random);
        assert_eq!(fault(&whole.image, &whole.g), None, "disk {number} of seed 11: {:?}", whole.g);
        for damage in DAMAGES {
            let mut disk = whole.clone();
            if !damage.apply(&mut disk, &mut random) {
                continue;
            }
            let broken = faults(&disk.image, &disk.g);
            let told = fault(&disk.image, &disk.g)
                .unwrap_or_else(|| panic!("{} on disk {number} of seed 11: no fault", damage.title));
            assert!(
                broken.iter().any(|&clause| kind_of(clause) == told.kind),
                "{} on disk {number} of seed 11: {told:?}, broken {broken:?}",
                damage.title
            );
            if broken.len() == 1 {
                *alone.entry(told.kind).or_default() += 1;
            }
        }
    }
    assert_eq!(alone.len(), 10, "each kind alone: {alone:?}");
    assert!(alone.values().all(|&times| times >= 5), "{alone:?}");
}

/// An entry with its HIT byte once more, in another slot: names, granules and links stand twice.
fn copy_entry(disk: &mut Disk, d: usize, random: &mut Random) {
    let all: Vec<u8> = slots(d).collect();
    let (from, to) = (*random.pick(&all), *random.pick(&all));
    let copied = entry(&disk.image, &disk.g, from);
    put_entry(&mut disk.image, &disk.g, to, &copied);
    disk.image[hit_place(&disk.g, to)] = hit(&disk.image, &disk.g, from);
}

#[test]
fn random_flips_give_a_fault_exactly_where_a_clause_is_broken() {
    let mut random = Random::new(12);
    let mut told: BTreeMap<Kind, usize> = BTreeMap::new();
    for number in 0..1500 {
        let whole = random_disk(&mut random);
        let d = directory_sectors(&whole.image, &whole.g).expect("consistent");
        let (first, end) = (256 * whole.g.start, 256 * (whole.g.start + d));
        for _ in 0..12 {
            let mut disk = whole.clone();
            if random.percent(20) {
                copy_entry(&mut disk, d, &mut random);
            }
            for _ in 0..random.within(1, 4) {
                let place = random.within(first, end - 1);
                disk.image[place] =
                    if random.percent(50) { disk.image[place] ^ (1 << random.within(0, 7)) } else { random.byte() };
            }
            let broken = faults(&disk.image, &disk.g);
            let found = fault(&disk.image, &disk.g);
            assert_eq!(
                found.is_none(),
                broken.is_empty(),
                "disk {number} of seed 12: {found:?}, broken {broken:?}"
            );
            if let Some(Fault { kind, .. }) = found {
                assert!(
                    broken.iter().any(|&clause| kind_of(clause) == kind),
                    "disk {number} of seed 12: {found:?}, broken {broken:?}"
                );
                *told.entry(kind).or_default() += 1;
            }
        }
    }
    assert_eq!(told.len(), 10, "each kind is met: {told:?}");
}

// ---- By hand: one damage at each place where it can stand ----

/// 20 blocks of 3 units: 60 granules, the directory from granule 30 on.
const G: Geometry =
    Geometry { blocks: 20, units: 3, start: 150, open_code: 0x4296, system_disk: true, granule_sectors: 5 };
const NAME: &str = "PULS01/DAT";
/// The granules of the file under test: its first entry's four runs, its extension's. The last runs are of two granules.
const RUNS: [(usize, usize); 4] = [(3, 1), (5, 1), (7, 1), (9, 2)];
const EXTENSION_RUNS: [(usize, usize); 4] = [(12, 1), (14, 1), (16, 1), (18, 2)];
/// The granule of the other file.
const OTHERS: usize = 24;
const DIRECTORY: usize = 30;

fn blank(d: usize) -> Disk {
    empty_disk(G, d, &[0])
}

fn rename(disk: &mut Disk, slot: u8, to: &[u8; 11]) {
    change(disk, slot, |e| e.0[0x05..0x10].copy_from_slice(to));
    disk.image[hit_place(&G, slot)] = hash(to);
}

/// The damage to a copy of the disk, and what is then told.
fn damaged(disk: &Disk, kind: Kind, slot: u8, what: &str, damage: impl FnOnce(&mut Disk)) {
    let mut copy = disk.clone();
    damage(&mut copy);
    tells(&copy, kind, Some(slot), &format!("slot {slot:02X}H: {what}"));
}

/// The damages that an entry's runs can have, each at each of the four.
fn damaged_runs(disk: &Disk, slot: u8, other: u8, runs: &[(usize, usize)]) {
    for (i, &(first, length)) in runs.iter().enumerate() {
        let what = |text: &str| format!("run {}: {text}", i + 1);
        let at = 0x16 + 2 * i;
        damaged(disk, Kind::RunOffDisk, slot, &what("block off the disk"), |disk| {
            change(disk, slot, |e| e.0[at] = G.blocks as u8)
        });
        damaged(disk, Kind::RunOffDisk, slot, &what("highest block"), |disk| {
            change(disk, slot, |e| e.0[at] = 0xFE)
        });
        damaged(disk, Kind::RunOffDisk, slot, &what("past the end by one"), |disk| {
            change(disk, slot, |e| e.set_pair(i, Pair { further: 2, ..Pair::of_granule(&G, 58) }))
        });
        damaged(disk, Kind::RunOffDisk, slot, &what("first unit too high"), |disk| {
            let same =
                Pair { block: (first / 3 - 1) as u8, unit: (first % 3 + 3) as u8, further: (length - 1) as u8 };
            change(disk, slot, |e| e.set_pair(i, same))
        });
        for granule in first..first + length {
            damaged(disk, Kind::GatBitMissing, slot, &what("GAT bit"), |disk| {
                set_taken(&mut disk.image, &G, granule, false)
            });
        }
        damaged(disk, Kind::GranuleShared, slot.max(other), &what("the other file's granule"), |disk| {
            change(disk, slot, |e| e.set_pair(i, Pair::of_granule(&G, OTHERS)))
        });
        damaged(disk, Kind::GranuleShared, slot, &what("another run's granule"), |disk| {
            let granule = runs[(i + 1) % runs.len()].0;
            change(disk, slot, |e| e.set_pair(i, Pair::of_granule(&G, granule)))
        });
        for granule in DIRECTORY..DIRECTORY + 2 {
            damaged(disk, Kind::DirectoryGranule, slot, &what("a granule of the directory"), |disk| {
                change(disk, slot, |e| e.set_pair(i, Pair::of_granule(&G, granule)))
            });
        }
    }
}

/// Slots to stand for all: the first and the last, kept ones and others, of each row.
fn places(d: usize) -> Vec<u8> {
    let last = (d - 3) as u8;
    (0..8u8).flat_map(|row| [0, 1, 7, last].map(|s| 32 * row + s)).collect()
}

/// The lowest and the highest slot that is none of these.
fn around(d: usize, taken: &[u8]) -> [u8; 2] {
    let free: Vec<u8> = slots(d).filter(|slot| !taken.contains(slot)).collect();
    [free[0], free[free.len() - 1]]
}

#[test]
fn each_kind_in_a_files_first_entry() {
    for d in [10, 30] {
        for slot in places(d) {
            for other in around(d, &[slot]) {
                let mut whole = blank(d);
                put_file(&mut whole, slot, NAME, &RUNS);
                put_file(&mut whole, other, "LEER", &[(OTHERS, 1)]);
                change(&mut whole, slot, |e| e.set_size(5 * 1280));
                is_consistent(&whole, "before the damage");
                let case = |kind, what: &str, damage: &dyn Fn(&mut Disk)| damaged(&whole, kind, slot, what, damage);
                let hit = hit_place(&G, slot);

                case(Kind::HitAgainstEntry, "no HIT byte", &|disk| disk.image[hit] = 0);
                case(Kind::HitAgainstEntry, "another hash", &|disk| disk.image[hit] ^= 0x40);
                case(Kind::HitAgainstEntry, "entry dead", &|disk| change(disk, slot, |e| e.0[0x00] &= !0x10));
                case(Kind::Name, "bit 5", &|disk| change(disk, slot, |e| e.0[0x00] |= 0x20));
                for bad in [b" ULS01  DAT", b"PULS01  dAT", b"PU S01  DAT", b"PULS01  D T"] {
                    case(Kind::Name, "bad name", &|disk| rename(disk, slot, bad));
                }
                for marker in [0x00, 0x90, 0xFD] {
                    case(Kind::Chain, "marker", &|disk| change(disk, slot, |e| e.0[0x1E] = marker));
                }
                for to in [0x1F, 0xFF, other, around(d, &[slot, other])[1], slot] {
                    case(Kind::Chain, "link", &|disk| change(disk, slot, |e| e.set_link(0xFE, to)));
                }
                for gap in 0..3 {
                    case(Kind::Chain, "gap in the pairs", &|disk| {
                        change(disk, slot, |e| e.0[0x16 + 2 * gap] = 0xFF)
                    });
                }
                for size in [5 * 1280 + 1, 5 * 1280 + 256, 65_535 * 256] {
                    case(Kind::Size, "too large", &|disk| change(disk, slot, |e| e.set_size(size)));
                }
                case(Kind::Size, "an end byte alone", &|disk| {
                    change(disk, slot, |e| (e.0[0x03], e.0[0x14], e.0[0x15]) = (1, 0, 0))
                });
                damaged(&whole, Kind::DuplicateName, slot.max(other), "the other's name", |disk| {
                    rename(disk, slot, &name("LEER"))
                });
                change(&mut whole, slot, |e| e.set_size(0));
                damaged_runs(&whole, slot, other, &RUNS);
            }
        }
    }
}

#[test]
fn each_kind_in_an_extension() {
    for d in [10, 30] {
        for slot in places(d) {
            for file in around(d, &[slot]) {
                let other = around(d, &[slot, file])[1];
                let mut whole = blank(d);
                put_file(&mut whole, file, NAME, &RUNS);
                put_extension(&mut whole, slot, file, NAME, &EXTENSION_RUNS);
                put_file(&mut whole, other, "LEER", &[(OTHERS, 1)]);
                is_consistent(&whole, "before the damage");
                let case = |kind, what: &str, damage: &dyn Fn(&mut Disk)| damaged(&whole, kind, slot, what, damage);
                let hit = hit_place(&G, slot);

                case(Kind::HitAgainstEntry, "no HIT byte", &|disk| disk.image[hit] = 0);
                case(Kind::HitAgainstEntry, "another hash", &|disk| disk.image[hit] ^= 0x40);
                for bit in [0, 1, 2, 3, 5, 6] {
                    case(Kind::Chain, "byte 00", &|disk| change(disk, slot, |e| e.0[0x00] ^= 1 << bit));
                }
                for back in [slot, other, 0x1F, file ^ 0x80] {
                    case(Kind::Chain, "back link", &|disk| change(disk, slot, |e| e.0[0x01] = back));
                }
                case(Kind::Chain, "no run", &|disk| change(disk, slot, |e| *e = with_runs(&G, *e, &[])));
                case(Kind::Chain, "in no chain", &|disk| change(disk, file, |e| e.0[0x1E] = 0xFF));
                case(Kind::Chain, "in no chain, its hash not tested", &|disk| {
                    change(disk, file, |e| e.0[0x1E] = 0xFF);
                    disk.image[hit] ^= 0x40;
                });
                case(Kind::Chain, "badly formed, its hash not tested", &|disk| {
                    change(disk, slot, |e| e.0[0x01] ^= 0x80);
                    disk.image[hit] ^= 0x40;
                });
                case(Kind::Chain, "met again from itself", &|disk| change(disk, slot, |e| e.set_link(0xFE, slot)));
                case(Kind::Chain, "marker", &|disk| change(disk, slot, |e| e.0[0x1E] = 0x11));
                case(Kind::Chain, "gap in the pairs", &|disk| change(disk, slot, |e| e.0[0x18] = 0xFF));
                for to in [0x1F, file, other, around(d, &[slot, file, other])[0]] {
                    case(Kind::Chain, "link", &|disk| change(disk, slot, |e| e.set_link(0xFE, to)));
                }
                // A marker is the entry's own matter: the hash of a well-formed extension is tested.
                case(Kind::HitAgainstEntry, "bad marker and another hash", &|disk| {
                    change(disk, slot, |e| e.0[0x1E] = 0x11);
                    disk.image[hit] ^= 0x40;
                });
                // A second file leads to it: its own granules, and four runs of them.
                case(Kind::Chain, "met by two files, its hash not tested", &|disk| {
                    put_file(disk, other, "LEER", &[(OTHERS, 1), (26, 1), (28, 1), (40, 1)]);
                    change(disk, other, |e| e.set_link(0xFE, slot));
                    disk.image[hit] ^= 0x40;
                });
                // Dead: then the link to it is bad, and the lower of the two is told.
                let (kind, at) = if file < slot { (Kind::Chain, file) } else { (Kind::HitAgainstEntry, slot) };
                damaged(&whole, kind, at, "dead", |disk| change(disk, slot, |e| e.0[0x00] &= !0x10));
                // Three runs before it: the walk stops there, so the extension is met in no chain.
                damaged(&whole, Kind::Chain, file.min(slot), "three runs before it", |disk| {
                    change(disk, file, |e| e.empty_pair(3))
                });
                // The size is the first entry's, and counts only where the chain is whole.
                damaged(&whole, Kind::Size, file, "size", |disk| change(disk, file, |e| e.set_size(10 * 1280 + 1)));
                damaged(&whole, Kind::Chain, slot, "size behind a chain that is not whole", |disk| {
                    change(disk, file, |e| e.set_size(10 * 1280 + 1));
                    change(disk, slot, |e| e.0[0x00] = 0x91);
                });
                damaged_runs(&whole, slot, other, &EXTENSION_RUNS);
                damaged_runs_of_system_files(&whole, file, slot);
            }
        }
    }
}

/// A system file may own the directory's granules, in an extension too; not another file's or one that is free.
fn damaged_runs_of_system_files(whole: &Disk, file: u8, slot: u8) {
    let mut system = whole.clone();
    change(&mut system, file, |e| e.0[0x00] |= 0x40);
    change(&mut system, slot, |e| e.set_pair(1, Pair::of_granule(&G, DIRECTORY)));
    is_consistent(&system, "a system file on the directory");
    damaged(&system, Kind::GatBitMissing, slot, "its GAT bit", |disk| {
        set_taken(&mut disk.image, &G, DIRECTORY, false)
    });
    damaged(&system, Kind::DirectoryGranule, slot, "no system file any more", |disk| {
        change(disk, file, |e| e.0[0x00] &= !0x40)
    });
}

#[test]
fn faults_of_slots_that_are_not_in_use_and_of_no_slot() {
    for d in [10, 15, 20, 25, 30] {
        let whole = blank(d);
        is_consistent(&whole, "empty");
        for slot in slots(d) {
            damaged(&whole, Kind::HitAgainstEntry, slot, "HIT byte of a dead entry", |disk| {
                disk.image[hit_place(&G, slot)] = 0xA2
            });
            damaged(&whole, Kind::HitAgainstEntry, slot, "entry in use", |disk| {
                change(disk, slot, |e| e.0[0x00] = 0x10)
            });
            // An extension by itself, with its HIT byte: met in no chain.
            damaged(&whole, Kind::Chain, slot, "extension alone", |disk| {
                change(disk, slot, |e| {
                    *e = with_runs(&G, *e, &[(2, 1)]);
                    (e.0[0x00], e.0[0x01]) = (0x90, slot);
                });
                disk.image[hit_place(&G, slot)] = 1;
            });
        }
        for above in (0..=255u8).filter(|above| ![0, 5, 10, 15, 20].contains(above)) {
            let mut copy = whole.clone();
            copy.image[hit_place(&G, LENGTH_PLACE as u8)] = above;
            // Before all slots.
            copy.image[hit_place(&G, 0)] = 1;
            tells(&copy, Kind::DirectoryLength, None, "length");
        }
        for granule in DIRECTORY..DIRECTORY + d / 5 {
            let mut copy = whole.clone();
            set_taken(&mut copy.image, &G, granule, false);
            tells(&copy, Kind::DirectoryGranule, None, "clear directory granule");
            // After all slots.
            let last = slots(d).last().expect("some slot");
            copy.image[hit_place(&G, last)] = 1;
            tells(&copy, Kind::HitAgainstEntry, Some(last), "a slot comes before it");
        }
    }
    let last = Geometry { start: 290, ..G };
    let mut short = empty_disk(last, 10, &[]);
    is_consistent(&short, "a directory at the disk's end");
    for above in [5, 10, 15, 20] {
        short.image[hit_place(&last, LENGTH_PLACE as u8)] = above;
        tells(&short, Kind::DirectoryLength, None, "past the end");
    }
}

// ---- Several faults: the lowest slot, and there the first kind ----

/// The kinds that a file's first entry can have beside one another.
const AT_ONE_SLOT: [Kind; 9] = [
    Kind::HitAgainstEntry,
    Kind::Name,
    Kind::DuplicateName,
    Kind::Chain,
    Kind::RunOffDisk,
    Kind::GatBitMissing,
    Kind::GranuleShared,
    Kind::Size,
    Kind::DirectoryGranule,
];

/// Damages an entry of four runs so, and nothing else of it. Slot 00H holds a file with OTHERS for its granule.
fn add(disk: &mut Disk, slot: u8, kind: Kind) {
    match kind {
        Kind::HitAgainstEntry => disk.image[hit_place(&G, slot)] ^= 0x40,
        Kind::Name => change(disk, slot, |e| e.0[0x00] |= 0x20),
        Kind::DuplicateName => {
            let wrong_hash = hash(&entry(&disk.image, &G, slot).name()) ^ disk.image[hit_place(&G, slot)];
            rename(disk, slot, &name("LEER"));
            disk.image[hit_place(&G, slot)] ^= wrong_hash;
        }
        Kind::Chain => change(disk, slot, |e| e.0[0x1E] = 0x11),
        Kind::RunOffDisk => change(disk, slot, |e| e.0[0x16] = 0xFE),
        Kind::GatBitMissing => {
            let granule = entry(&disk.image, &G, slot).pair(1).expect("four runs").run(&G).start;
            set_taken(&mut disk.image, &G, granule, false);
        }
        Kind::GranuleShared => change(disk, slot, |e| e.set_pair(2, Pair::of_granule(&G, OTHERS))),
        Kind::Size => change(disk, slot, |e| e.set_size(65_535 * 256)),
        Kind::DirectoryGranule => change(disk, slot, |e| e.set_pair(3, Pair::of_granule(&G, DIRECTORY))),
        Kind::DirectoryLength => unreachable!("of no slot"),
    }
}

#[test]
fn at_one_slot_the_first_kind_of_any_selection() {
    for slot in [0x01, 0x07, 0x20, 0x80, 0xE7] {
        let mut whole = blank(10);
        put_file(&mut whole, 0x00, "LEER", &[(OTHERS, 1)]);
        put_file(&mut whole, slot, NAME, &RUNS);
        for selection in 1..1 << AT_ONE_SLOT.len() {
            let mut disk = whole.clone();
            let chosen = (0..AT_ONE_SLOT.len()).filter(|i| selection >> i & 1 == 1).map(|i| AT_ONE_SLOT[i]);
            let chosen: Vec<Kind> = chosen.collect();
            chosen.iter().for_each(|&kind| add(&mut disk, slot, kind));
            tells(&disk, chosen[0], Some(slot), &format!("{chosen:?} at slot {slot:02X}H"));
        }
    }
}

#[test]
fn of_two_slots_the_lower() {
    for (low, high) in [(0x01, 0x02), (0x07, 0x20), (0x21, 0x40), (0x05, 0xE7), (0x80, 0x81)] {
        let mut whole = blank(10);
        put_file(&mut whole, 0x00, "LEER", &[(OTHERS, 1)]);
        put_file(&mut whole, low, NAME, &RUNS);
        put_file(&mut whole, high, "PULS02/DAT", &EXTENSION_RUNS);
        is_consistent(&whole, "before the damage");
        for one in AT_ONE_SLOT {
            for two in AT_ONE_SLOT {
                let mut disk = whole.clone();
                add(&mut disk, low, one);
                add(&mut disk, high, two);
                tells(&disk, one, Some(low), &format!("{one:?} at {low:02X}H, {two:?} at {high:02X}H"));
                // A fault of a pair of slots is the higher one's; nothing is told of the lower.
                let mut disk = whole.clone();
                add(&mut disk, high, two);
                tells(&disk, two, Some(high), &format!("{two:?} at {high:02X}H alone"));
                // With them a clear directory granule, which comes last, and a bad length, which comes first.
                set_taken(&mut disk.image, &G, DIRECTORY + 1, false);
                tells(&disk, two, Some(high), &format!("{two:?} at {high:02X}H before a clear directory granule"));
                disk.image[hit_place(&G, LENGTH_PLACE as u8)] = 1;
                tells(&disk, Kind::DirectoryLength, None, &format!("before {two:?} at {high:02X}H"));
            }
        }
    }
}

#[test]
fn pairs_of_slots() {
    // Three files of one name, three of one granule: the second of them is the lowest slot that is at fault.
    let chosen = [0x06, 0x22, 0x83];
    let mut disk = blank(10);
    for (slot, run) in chosen.into_iter().zip(RUNS) {
        put_file(&mut disk, slot, NAME, &[run]);
    }
    tells(&disk, Kind::DuplicateName, Some(0x22), "three of one name");
    let mut disk = blank(10);
    for (slot, title) in chosen.into_iter().zip(["A", "B", "C"]) {
        put_file(&mut disk, slot, title, &[(4, 2)]);
    }
    tells(&disk, Kind::GranuleShared, Some(0x22), "three of one granule");
    // Shared by a file and its own extension, in a lower slot.
    let mut disk = blank(10);
    put_file(&mut disk, 0x83, NAME, &RUNS);
    put_extension(&mut disk, 0x22, 0x83, NAME, &RUNS[..1]);
    tells(&disk, Kind::GranuleShared, Some(0x83), "a granule of its extension");
    // Two files lead to an extension in a lower slot: its fault, whichever of them it points back to.
    for back in [0x40, 0x83] {
        let mut disk = blank(10);
        put_file(&mut disk, 0x40, "A", &RUNS);
        put_file(&mut disk, 0x83, "B", &EXTENSION_RUNS);
        put_extension(&mut disk, 0x05, 0x40, "A", &[(OTHERS, 1)]);
        change(&mut disk, 0x83, |e| e.set_link(0xFE, 0x05));
        change(&mut disk, 0x05, |e| e.0[0x01] = back);
        tells(&disk, Kind::Chain, Some(0x05), "two links to one extension");
    }
}

#[test]
fn walks() {
    // A walk passes a badly formed extension: what is behind it is met, and its hash tested.
    let chain = |slots: [u8; 3]| {
        let mut disk = blank(10);
        put_file(&mut disk, slots[0], NAME, &RUNS);
        put_extension(&mut disk, slots[1], slots[0], NAME, &EXTENSION_RUNS);
        put_extension(&mut disk, slots[2], slots[1], NAME, &[(OTHERS, 1)]);
        is_consistent(&disk, "three entries");
        disk
    };
    let mut disk = chain([0x80, 0x84, 0x82]);
    change(&mut disk, 0x84, |e| e.0[0x00] = 0x98);
    tells(&disk, Kind::Chain, Some(0x84), "badly formed");
    disk.image[hit_place(&G, 0x82)] ^= 0x40;
    tells(&disk, Kind::HitAgainstEntry, Some(0x82), "the hash behind a badly formed extension");
    // It stops at a bad marker, pairs or link: what is behind is met in no chain, and its hash not tested.
    for stop in [
        |e: &mut Entry| e.0[0x1E] = 0x11,
        |e: &mut Entry| e.empty_pair(3),
        |e: &mut Entry| e.0[0x18] = 0xFF,
        |e: &mut Entry| e.0[0x1F] = 0x1F,
    ] {
        let mut disk = chain([0x80, 0x84, 0x82]);
        change(&mut disk, 0x84, stop);
        disk.image[hit_place(&G, 0x82)] ^= 0x40;
        tells(&disk, Kind::Chain, Some(0x82), "behind a stop");
        let mut disk = chain([0x80, 0x82, 0x84]);
        change(&mut disk, 0x82, stop);
        tells(&disk, Kind::Chain, Some(0x82), "the stop itself");
    }
    // A ring of extensions that no file leads to; a chain that comes back to its second entry.
    let mut disk = chain([0x80, 0x84, 0x82]);
    put_file(&mut disk, 0x80, NAME, &RUNS);
    put_extension(&mut disk, 0x82, 0x84, NAME, &[(24, 1), (26, 1), (28, 1), (40, 1)]);
    change(&mut disk, 0x82, |e| e.set_link(0xFE, 0x84));
    change(&mut disk, 0x84, |e| e.0[0x01] = 0x82);
    tells(&disk, Kind::Chain, Some(0x82), "a ring");
    change(&mut disk, 0x80, |e| e.set_link(0xFE, 0x84));
    tells(&disk, Kind::Chain, Some(0x84), "a chain that comes back");
    // An extension's file by a bad name: its hash is that of the bytes as they stand.
    let mut disk = chain([0x84, 0x82, 0x80]);
    rename(&mut disk, 0x84, b"puls01  dat");
    tells(&disk, Kind::HitAgainstEntry, Some(0x80), "an extension of the name's new hash");
    for slot in [0x80, 0x82] {
        disk.image[hit_place(&G, slot)] = hash(b"puls01  dat");
    }
    tells(&disk, Kind::Name, Some(0x84), "the name itself");
}

// ---- Every call tells it ----

#[test]
fn every_call_tells_every_kind() {
    let whole = {
        let mut disk = blank(10);
        put_file(&mut disk, 0x00, "LEER", &[(OTHERS, 1)]);
        put_file(&mut disk, 0x80, NAME, &RUNS);
        disk
    };
    let handle = || Handle { slot: 0x80, level: 0, length: 4, position: 0, name: name(NAME) }.bytes().to_vec();
    let given = || name(NAME).to_vec();
    let birth = Birth { day: 1, month: 1, year: 1, length: 4, main_code: 0, worker_code: 0, checking: false };
    let calls = [
        Call::Check,
        Call::LookUp { name: given() },
        Call::Open { name: given(), length: 4, checking: false, code: 0, handle: vec![0xEE; 19] },
        Call::Create { name: given(), birth, handle: vec![0xEE; 19] },
        Call::ReadRecord { handle: handle(), buffer: vec![0xEE; 4] },
        Call::ReadSector { handle: handle(), k: 0 },
        Call::WriteRecord { handle: handle(), sequential: true, buffer: vec![0xEE; 4] },
        Call::WriteRecord { handle: handle(), sequential: false, buffer: vec![0xEE; 4] },
        Call::Allot { handle: handle(), k: 0 },
        Call::Trim { handle: handle() },
        Call::Kill { handle: handle() },
        Call::BringBack { slot: 0x81 },
        Call::List { which: 0, name: vec![0xEE; 11] },
        Call::Count,
    ];
    let mut cases: Vec<(Disk, Kind, usize)> = Vec::new();
    for kind in AT_ONE_SLOT {
        let mut disk = whole.clone();
        add(&mut disk, 0x80, kind);
        cases.push((disk, kind, 0x80));
    }
    for (place, to, kind) in [
        (hit_place(&G, LENGTH_PLACE as u8), 1, Kind::DirectoryLength),
        (G.start * 256 + DIRECTORY / 3, 0, Kind::DirectoryGranule),
    ] {
        let mut disk = whole.clone();
        disk.image[place] = to;
        cases.push((disk, kind, NO_SLOT));
    }
    for (disk, kind, slot) in cases {
        for library in libraries() {
            for call in &calls {
                let mut image = disk.image.clone();
                let outcome = perform(&*library, &mut image, &G, call);
                let at = format!("{}: {} of {kind:?}", library.title(), call.title());
                assert_eq!((outcome.number, outcome.numbered(FAULT_SLOT)), (kind as Number, slot), "{at}");
                assert!(image == disk.image && outcome.within, "{at}");
            }
            for (first, second, which) in [(&disk, &whole, FIRST), (&whole, &disk, SECOND), (&disk, &disk, FIRST)] {
                let told = tell(&*library, side(first), side(second), 0, &[0xEE; 11]);
                let at = format!("{}: compare, image {which}, of {kind:?}", library.title());
                assert_eq!((told.number, told.image, told.fault_slot), (kind as Number, which, slot), "{at}");
            }
        }
    }
    // Two images with different faults: the first's is told, with its slot.
    let (mut first, mut second) = (whole.clone(), whole.clone());
    add(&mut first, 0x80, Kind::Size);
    add(&mut second, 0x00, Kind::HitAgainstEntry);
    for library in libraries() {
        for (one, two, number, slot) in
            [(&first, &second, Kind::Size, 0x80), (&second, &first, Kind::HitAgainstEntry, 0x00)]
        {
            let told = tell(&*library, side(one), side(two), 0, &[0xEE; 11]);
            assert_eq!(
                (told.number, told.image, told.fault_slot),
                (number as Number, FIRST, slot),
                "{}",
                library.title()
            );
        }
    }
}

// ---- The library against the model ----

/// Damages one after the other and random changes, on small disks: the library tells what the model tells.
#[test]
fn library_and_model_tell_the_same_fault() {
    let library = linked();
    let mut random = Random::new(13);
    let (mut tried, mut told): (usize, BTreeMap<u8, usize>) = (0, BTreeMap::new());
    while tried < 20_000 {
        let whole = random_disk(&mut random);
        if whole.g.granules() > 250 {
            continue;
        }
        let d = directory_sectors(&whole.image, &whole.g).expect("consistent");
        for _ in 0..60 {
            let mut disk = whole.clone();
            if random.percent(20) {
                copy_entry(&mut disk, d, &mut random);
            } else if random.percent(40) {
                random.pick(DAMAGES).apply(&mut disk, &mut random);
            }
            if directory_sectors(&disk.image, &disk.g) == Some(d) && random.percent(80) {
                let times = random.within(1, 4);
                random_flips(&mut disk, &mut random, times);
            }
            let (mut ours, mut theirs) = (0, 0);
            let number = Model.check(&disk.image, &disk.g, &mut ours);
            let answer = library.check(&disk.image, &disk.g, &mut theirs);
            assert_eq!(
                (answer, theirs),
                (number, ours),
                "change {tried} of seed 13 (left: the library) on {:?}",
                disk.g
            );
            *told.entry(number).or_default() += 1;
            tried += 1;
        }
    }
    assert_eq!(told.len(), 11, "every kind, and none: {told:?}");
}
