//! Request 02, §1, on the model and on the linked library: compare two images. What must be told is worked out here from
//! how the disks were made, not by comparing them.

use genie_model::binding::libraries;
use genie_model::calls::{check, Number, GEOMETRY, NO_SLOT, RANGE};
use genie_model::consistency::consistent;
use genie_model::damage::DAMAGES;
use genie_model::differences::{
    parting, Difference, CONTENTS, DATE, FIRST, NO_MORE, ONLY_IN_FIRST, ONLY_IN_SECOND, OTHER, SECOND, SIZE, UNLIKE,
};
use genie_model::directory::{entry_place, put_entry, set_taken, Entry, Pair};
use genie_model::disks::{empty_disk, random_disk, Disk};
use genie_model::fault::Kind;
use genie_model::geometry::Geometry;
use genie_model::handle::Handle;
use genie_model::interleave::{demand_three, Tally};
use genie_model::library::Library;
use genie_model::names::{hash, name, Name};
use genie_model::pairs::{holding, side, swapped, tell, tell_all, Change, CHANGES};
use genie_model::plain::files_of;
use genie_model::random::Random;
use std::collections::BTreeMap;

/// "A granule is 5 sectors of 256 bytes."
const GRANULE_BYTES: usize = 1280;

fn told(text: &str, kind: usize, position: usize, flags: usize) -> Difference {
    Difference { name: name(text), kind, position, flags }
}

/// Compares by each library, both ways about.
fn must_tell(first: &Disk, second: &Disk, expected: &[Difference], what: &str) {
    for library in libraries() {
        let at = format!("{what}, {}", library.title());
        assert_eq!(tell_all(&*library, side(first), side(second)).as_deref(), Ok(expected), "{at}");
        let other_way = tell_all(&*library, side(second), side(first));
        assert_eq!(other_way, Ok(swapped(expected)), "{at}, swapped");
    }
}

// Disks made by hand --------------------------------------------------------------------------------------------

/// A file to lay out: its name, slot, first granule and bytes.
struct Laid(&'static str, u8, usize, Vec<u8>);

fn lay(disk: &mut Disk, Laid(text, slot, granule, bytes): &Laid) {
    let mut e = Entry([0; 32]);
    (e.0[0x00], e.0[0x01], e.0[0x02]) = (0x10, 9, 0x3A);
    e.0[0x05..0x10].copy_from_slice(&name(text));
    e.0[0x16..].fill(0xFF);
    let granules = bytes.len().div_ceil(GRANULE_BYTES);
    if granules > 0 {
        e.set_pair(0, Pair { further: (granules - 1) as u8, ..Pair::of_granule(&disk.g, *granule) });
    }
    for own in *granule..granule + granules {
        set_taken(&mut disk.image, &disk.g, own, true);
    }
    e.set_size(bytes.len());
    disk.image[granule * GRANULE_BYTES..][..bytes.len()].copy_from_slice(bytes);
    put_entry(&mut disk.image, &disk.g, *slot, &e);
    let place = genie_model::directory::hit_place(&disk.g, *slot);
    disk.image[place] = hash(&name(text));
}

fn disk(g: Geometry, files: &[Laid]) -> Disk {
    let mut disk = empty_disk(g, 10, &[]);
    for file in files {
        lay(&mut disk, file);
    }
    assert!(consistent(&disk.image, &g));
    disk
}

fn small() -> Geometry {
    Geometry { blocks: 16, units: 2, start: 80, open_code: 0x4296, system_disk: true, granule_sectors: 5 }
}

fn other() -> Geometry {
    Geometry { blocks: 9, units: 5, start: 60, open_code: 0, system_disk: true, granule_sectors: 5 }
}

/// Changes bytes of a file's entry.
fn poke(disk: &mut Disk, slot: u8, byte: usize, mask: u8) {
    let place = entry_place(&disk.g, slot) + byte;
    disk.image[place] ^= mask;
    assert!(consistent(&disk.image, &disk.g));
}

#[test]
fn a_week_by_hand() {
    let series = |n: usize| (0..n).map(|i| (i * 7 % 251) as u8).collect::<Vec<u8>>();
    let mut longer = series(1300);
    longer.push(0);
    let mut one_byte = series(3000);
    one_byte[2570] ^= 1;
    let first = disk(
        small(),
        &[
            Laid("PULS03/DAT", 0x80, 1, series(3000)),
            Laid("PULS02/DAT", 0x81, 5, series(1300)),
            Laid("PULS01/DAT", 0x82, 8, series(257)),
            Laid("ALT", 0x83, 9, series(5)),
            Laid("LEER", 0x84, 0, vec![]),
        ],
    );
    // Another geometry, other slots, other granules, other order.
    let second = disk(
        other(),
        &[
            Laid("LEER", 0x87, 0, vec![]),
            Laid("PULS01/DAT", 0xA1, 20, series(257)),
            Laid("PULS02/DAT", 0x80, 22, longer),
            Laid("PULS03/DAT", 0x01, 30, one_byte),
            Laid("NEU/DAT", 0x21, 40, series(1)),
        ],
    );
    let expected = [
        told("ALT", ONLY_IN_FIRST, 0, 0),
        told("NEU/DAT", ONLY_IN_SECOND, 0, 0),
        told("PULS02/DAT", UNLIKE, 1300, SIZE + CONTENTS),
        told("PULS03/DAT", UNLIKE, 2570, CONTENTS),
    ];
    must_tell(&first, &second, &expected, "a week");
}

#[test]
fn the_order_is_by_name_and_type_bytes() {
    // Rising bytes: a blank comes before digits, digits before letters, and the type only behind all eight of the name.
    let rising = ["0", "A", "A/A", "A/Z", "A0", "AA", "AAAAAAAA/A", "AAAAAAAB", "B", "Z/0", "[", "\\", "]"];
    let laid: Vec<Laid> = rising
        .iter()
        .rev()
        .enumerate()
        .map(|(i, text)| Laid(text, i as u8 % 8 + 32 * (i as u8 / 8), 0, vec![]))
        .collect();
    let expected: Vec<Difference> = rising.iter().map(|text| told(text, ONLY_IN_FIRST, 0, 0)).collect();
    must_tell(&disk(small(), &laid), &disk(other(), &[]), &expected, "all in the first");
    // Every second one on the other disk instead.
    let (mut here, mut there) = (Vec::new(), Vec::new());
    for (i, file) in laid.into_iter().enumerate() {
        if i % 2 == 0 {
            here.push(file)
        } else {
            there.push(file)
        }
    }
    let mixed: Vec<Difference> = rising
        .iter()
        .map(|text| {
            told(text, if here.iter().any(|file| file.0 == *text) { ONLY_IN_FIRST } else { ONLY_IN_SECOND }, 0, 0)
        })
        .collect();
    must_tell(&disk(small(), &here), &disk(other(), &there), &mixed, "by turns");
}

#[test]
fn each_byte_of_an_entry() {
    let file = || Laid("PULS01/DAT", 0x80, 1, vec![7; 300]);
    let first = disk(small(), &[file()]);
    // Which bit of which byte is what: the date, another attribute, or no difference.
    for byte in 0x00..0x20 {
        for bit in 0..8 {
            let mask = 1 << bit;
            let flags = match (byte, bit) {
                (0x00, 0..=3) => OTHER,
                (0x00, 6) => 0,        // becomes a system file: compared by name only
                (0x00, _) => continue, // no longer a file, or inconsistent
                (0x01, 0..=4) | (0x02, _) => DATE,
                (0x01, _) | (0x04, _) | (0x10..=0x13, _) => OTHER,
                (0x1F, _) | (0x19 | 0x1B | 0x1D, _) => 0, // not read
                _ => continue,                            // name, size, runs and marker
            };
            let mut second = disk(small(), &[file()]);
            poke(&mut second, 0x80, byte, mask);
            let expected = [told("PULS01/DAT", UNLIKE, 300, flags)];
            let expected = if flags == 0 { &expected[..0] } else { &expected[..] };
            must_tell(&first, &second, expected, &format!("byte {byte:02X}H, bit {bit}"));
        }
    }
    // All at once, and the contents from the last byte on.
    let mut second = disk(other(), &[Laid("PULS01/DAT", 0x05, 2, [vec![7; 299], vec![8, 9]].concat())]);
    poke(&mut second, 0x05, 0x02, 0x10);
    poke(&mut second, 0x05, 0x13, 0x80);
    let expected = [told("PULS01/DAT", UNLIKE, 299, SIZE + DATE + OTHER + CONTENTS)];
    must_tell(&first, &second, &expected, "all at once");
}

#[test]
fn system_files_by_name_only() {
    let system = |disk: &mut Disk, slot: u8| poke(disk, slot, 0x00, 0x40);
    let mut first = disk(
        small(),
        &[
            Laid("BOOT/SYS", 0, 1, vec![1; 9]),
            Laid("DIR/SYS", 1, 2, vec![1; 9]),
            Laid("GDOS/SYS", 2, 3, vec![1; 9]),
        ],
    );
    let mut second = disk(
        other(),
        &[
            Laid("BOOT/SYS", 0, 1, vec![2; 5]),
            Laid("DIR/SYS", 1, 2, vec![2; 9]),
            Laid("LDOS/SYS", 2, 3, vec![1; 9]),
        ],
    );
    for slot in [0, 2] {
        system(&mut first, slot);
    }
    for slot in [1, 2] {
        system(&mut second, slot);
    }
    // BOOT/SYS is one on the first disk only, DIR/SYS on the second only.
    let expected = [told("GDOS/SYS", ONLY_IN_FIRST, 0, 0), told("LDOS/SYS", ONLY_IN_SECOND, 0, 0)];
    must_tell(&first, &second, &expected, "system files");
}

#[test]
fn where_contents_part() {
    assert_eq!(parting(b"", b""), 0);
    assert_eq!(parting(b"", b"A"), 0);
    assert_eq!(parting(b"AB", b"ABC"), 2);
    assert_eq!(parting(b"AXC", b"ABC"), 1);
    // At every edge of sectors and granules, in files that lie in pieces and in whole ones.
    let series: Vec<u8> = (0..4000).map(|i| (i % 253) as u8).collect();
    let first = disk(small(), &[Laid("X", 0x80, 3, series.clone())]);
    for at in [0, 1, 254, 255, 256, 257, 511, 512, 1278, 1279, 1280, 1281, 2559, 2560, 2561, 3839, 3840, 3998, 3999]
    {
        let mut bytes = series.clone();
        bytes[at] ^= 0x80;
        // What differs later on does not matter.
        for later in bytes.iter_mut().skip(at + 1).step_by(77) {
            *later ^= 1;
        }
        let second = disk(other(), &[Laid("X", 0x81, 20, bytes)]);
        must_tell(&first, &second, &[told("X", UNLIKE, at, CONTENTS)], &format!("byte {at}"));
        let beginning = disk(other(), &[Laid("X", 0x81, 20, series[..at].to_vec())]);
        must_tell(&first, &beginning, &[told("X", UNLIKE, at, SIZE + CONTENTS)], &format!("the first {at} bytes"));
    }
}

#[test]
fn the_largest_disk() {
    let g = Geometry { blocks: 192, units: 8, start: 0, open_code: 0, system_disk: true, granule_sectors: 5 };
    let mut first = empty_disk(g, 10, &[]);
    let size = 1534 * GRANULE_BYTES;
    let mut random = Random::new(11);
    random.fill(&mut first.image[2 * GRANULE_BYTES..]);
    // 47 full runs and one of 30 granules: twelve entries.
    let mut e = Entry([0; 32]);
    for (i, chain_slot) in (0x80..0x88).chain(0xA0..0xA4).enumerate() {
        let slot: u8 = chain_slot;
        e.0.fill(0);
        e.0[0x16..].fill(0xFF);
        if i == 0 {
            e.0[0x00] = 0x10;
            e.0[0x05..0x10].copy_from_slice(&name("SERIE/DAT"));
            e.set_size(size);
        } else {
            (e.0[0x00], e.0[0x01]) = (0x90, if slot == 0xA0 { 0x87 } else { slot - 1 });
        }
        for pair in 0..4 {
            let from = 2 + (4 * i + pair) * 32;
            let further = (1536 - from).min(32) as u8 - 1;
            e.set_pair(pair, Pair { further, ..Pair::of_granule(&g, from) });
        }
        if slot != 0xA3 {
            e.set_link(0xFE, if slot == 0x87 { 0xA0 } else { slot + 1 });
        }
        put_entry(&mut first.image, &g, slot, &e);
        let place = genie_model::directory::hit_place(&g, slot);
        first.image[place] = hash(&name("SERIE/DAT"));
    }
    for granule in 0..1536 {
        set_taken(&mut first.image, &g, granule, true);
    }
    assert!(consistent(&first.image, &g));
    must_tell(&first, &first.clone(), &[], "itself");
    for at in [0, 65_535, 65_536, 1_000_000, size - 1] {
        let mut second = first.clone();
        second.image[2 * GRANULE_BYTES + at] ^= 1;
        must_tell(&first, &second, &[told("SERIE/DAT", UNLIKE, at, CONTENTS)], &format!("byte {at}"));
    }
}

// Disks made at random ------------------------------------------------------------------------------------------

fn random_small_disk(random: &mut Random) -> Disk {
    loop {
        let disk = random_disk(random);
        if disk.g.granules() <= 150 {
            return disk;
        }
    }
}

#[test]
fn one_change_each() {
    let mut seeds = Random::new(21);
    let (mut pairs, mut geometries, mut done) = (0, 0, BTreeMap::new());
    while pairs < 4_000 {
        let seed = seeds.draw();
        let mut random = Random::new(seed);
        let base = random_small_disk(&mut random);
        let files = files_of(&base.image, &base.g);
        for change in CHANGES {
            let mut changed = files.clone();
            let Some(expected) = change.apply(&mut random, &mut changed) else { continue };
            let first = if random.percent(50) { Some(base.clone()) } else { holding(&mut random, &files) };
            let (Some(first), Some(second)) = (first, holding(&mut random, &changed)) else { continue };
            for disk in [&first, &second] {
                assert!(consistent(&disk.image, &disk.g), "seed {seed}: a made-up disk is not consistent");
            }
            pairs += 1;
            geometries += usize::from(first.g != second.g);
            *done.entry(format!("{change:?}")).or_insert(0) += 1;
            must_tell(&first, &second, &expected, &format!("seed {seed}, {change:?}"));
        }
    }
    println!("{pairs} pairs, {geometries} with two geometries: {done:?}");
    assert_eq!(done.len(), CHANGES.len(), "{done:?}");
    assert!(done.values().all(|&times| times > 100) && geometries > 3_000, "{done:?}");
}

/// Several changes at once, told together: one after another on different files.
#[test]
fn several_changes() {
    let mut seeds = Random::new(22);
    let mut most = 0;
    for _ in 0..300 {
        let seed = seeds.draw();
        let mut random = Random::new(seed);
        let base = random_small_disk(&mut random);
        let before = files_of(&base.image, &base.g);
        let (mut changed, mut expected, mut touched) = (before.clone(), Vec::new(), Vec::<Name>::new());
        for _ in 0..random.within(2, 12) {
            let mut trial = changed.clone();
            let change = *random.pick(&CHANGES);
            // What becomes or is a system file must not be one that was told already.
            if matches!(change, Change::BecomesSystem | Change::OfSystem) {
                continue;
            }
            let Some(told) = change.apply(&mut random, &mut trial) else { continue };
            if told.iter().any(|difference| touched.contains(&difference.name)) {
                continue;
            }
            touched.extend(told.iter().map(|difference| difference.name));
            expected.extend(told);
            changed = trial;
        }
        expected.sort_by_key(|difference| difference.name);
        most = most.max(expected.len());
        if let Some(second) = holding(&mut random, &changed) {
            must_tell(&base, &second, &expected, &format!("seed {seed}"));
        }
    }
    assert!(most >= 6, "{most}");
}

#[test]
fn a_disk_with_itself_and_with_its_files_elsewhere() {
    let mut random = Random::new(23);
    for _ in 0..150 {
        let disk = random_small_disk(&mut random);
        must_tell(&disk, &disk.clone(), &[], "itself");
        // What is no file may be anything: free granules, dead entries, what is past a file's size.
        let files = files_of(&disk.image, &disk.g);
        if let Some(again) = holding(&mut random, &files) {
            must_tell(&disk, &again, &[], "the same files elsewhere");
        }
    }
}

/// Demand 3: two lists of calls in any order leave disks without a difference. (`demand_three` compares them.)
#[test]
fn calls_in_another_order() {
    for library in libraries() {
        let (mut seeds, mut tally) = (Random::new(24), Tally::default());
        for _ in 0..150 {
            demand_three(&*library, seeds.draw(), &mut tally).unwrap_or_else(|text| panic!("{text}"));
        }
        assert!(tally.accepted > 300 && tally.other_image > 30, "{tally:?}");
    }
}

/// The sides swapped on pairs that have nothing to do with each other, but for some names.
#[test]
fn any_two_disks_swapped() {
    let mut random = Random::new(25);
    for _ in 0..150 {
        let (first, second) = (random_small_disk(&mut random), random_small_disk(&mut random));
        let mut files = files_of(&second.image, &second.g);
        for (name, file) in files_of(&first.image, &first.g) {
            if random.percent(50) {
                files.insert(name, file);
            }
        }
        let Some(second) = holding(&mut random, &files) else { continue };
        for library in libraries() {
            let one_way = tell_all(&*library, side(&first), side(&second)).expect("both consistent");
            let other_way = tell_all(&*library, side(&second), side(&first)).expect("both consistent");
            assert_eq!(other_way, swapped(&one_way));
            assert!(one_way.windows(2).all(|two| two[0].name < two[1].name), "rising, each name once");
        }
    }
}

// Refusals ------------------------------------------------------------------------------------------------------

/// What a file with bit 5 set is refused with.
const BIT_FIVE: Number = Kind::Name as Number;

/// A disk that is accepted (0), or refused with 1 or BIT_FIVE.
fn made(refusal: u8, g: Geometry) -> Disk {
    let mut disk = disk(g, &[Laid("PULS01/DAT", 0x80, 1, vec![7; 300])]);
    match refusal {
        1 => drop(disk.image.pop()),
        BIT_FIVE => {
            let place = entry_place(&g, 0x80);
            disk.image[place] |= 0x20;
        }
        _ => {}
    }
    disk
}

#[test]
fn refusals_name_the_image_and_the_first_comes_first() {
    for library in libraries() {
        let library: &dyn Library = &*library;
        for first in [0, GEOMETRY, BIT_FIVE] {
            for second in [0, GEOMETRY, BIT_FIVE] {
                let (one, two) = (made(first, small()), made(second, other()));
                let (number, image) = match (first, second) {
                    (0, 0) => (0, 0),
                    (0, second) => (second, SECOND),
                    (first, _) => (first, FIRST),
                };
                for length in [0, 1, 10, 11, 12, 40] {
                    for which in [0, 1, usize::MAX] {
                        let room = vec![0xEE; length];
                        let told = tell(library, side(&one), side(&two), which, &room);
                        let short = number == 0 && length < 11;
                        let expected = if short { RANGE } else { number };
                        let at = format!("{}, {first} {second}, buffer {length}", library.title());
                        assert_eq!((told.number, told.image), (expected, image), "{at}");
                        let slot = if expected == BIT_FIVE { 0x80 } else { NO_SLOT };
                        assert_eq!(told.fault_slot, slot, "{at}");
                        assert_eq!((told.kind, told.position, told.flags), (NO_MORE, 0, 0), "{at}");
                        assert!(told.within && told.name == room, "{at}");
                    }
                }
            }
        }
        // Every way to break a rule, on either side.
        let mut random = Random::new(26);
        let good = disk(small(), &[]);
        let mut tried = 0;
        for damage in DAMAGES.iter().cycle().take(4 * DAMAGES.len()) {
            let mut bad = random_small_disk(&mut random);
            if !damage.apply(&mut bad, &mut random) {
                continue;
            }
            tried += 1;
            let of = |one: &Disk, two: &Disk| tell_all(library, side(one), side(two));
            let number = check(&bad.image, &bad.g);
            assert_eq!(of(&bad, &good), Err((number, FIRST)), "{}", damage.title);
            assert_eq!(of(&good, &bad), Err((number, SECOND)), "{}", damage.title);
            assert_eq!(of(&bad, &bad), Err((number, FIRST)), "{}", damage.title);
        }
        assert!(tried > DAMAGES.len());
        // Geometries that are none, numbers of any size.
        let wrong = [
            Geometry { blocks: 0, ..small() },
            Geometry { blocks: 193, ..small() },
            Geometry { units: 9, ..small() },
            Geometry { start: 81, ..small() },
            Geometry { start: usize::MAX, ..small() },
            Geometry { blocks: usize::MAX, units: usize::MAX, ..small() },
        ];
        for g in wrong {
            let bad = (&good.image[..], &g);
            assert_eq!(tell_all(library, bad, side(&good)), Err((GEOMETRY, FIRST)), "{g:?}");
            assert_eq!(tell_all(library, side(&good), bad), Err((GEOMETRY, SECOND)), "{g:?}");
        }
        assert_eq!(tell_all(library, (&[], &small()), side(&good)), Err((GEOMETRY, FIRST)));
    }
}

/// Mrs Adler's week: the disk, then calls on it; what the calls did is what is told.
#[test]
fn calls_of_a_week() {
    for library in libraries() {
        let before = disk(small(), &[Laid("PULS01/DAT", 0x80, 1, vec![7; 300]), Laid("ALT", 0x81, 2, vec![1])]);
        let mut after = before.clone();
        let g = before.g;
        let handle = |slot: u8, text: &str, length: u16, position: u32| {
            Handle { slot, level: 0, length, position, name: name(text) }.bytes()
        };
        let write = |after: &mut Disk, position: u32, bytes: &[u8]| {
            let mut handle = handle(0x80, "PULS01/DAT", bytes.len() as u16, position);
            assert_eq!(library.write_record(&mut after.image, &g, &mut handle, false, bytes, &mut 0), 0);
        };
        // Written with the bytes that it had: only B is set.
        write(&mut after, 0, &[7; 10]);
        let b = [told("PULS01/DAT", UNLIKE, 300, OTHER)];
        assert_eq!(tell_all(&*library, side(&before), side(&after)).as_deref(), Ok(&b[..]));
        write(&mut after, 290, &[7; 20]);
        assert_eq!(library.kill(&mut after.image, &g, &handle(0x81, "ALT", 1, 0), &mut 0), 0);
        let all = [told("ALT", ONLY_IN_FIRST, 0, 0), told("PULS01/DAT", UNLIKE, 300, SIZE + OTHER + CONTENTS)];
        assert_eq!(tell_all(&*library, side(&before), side(&after)).as_deref(), Ok(&all[..]));
        // Allotted space is placement.
        let mut roomy = after.clone();
        assert_eq!(library.allot(&mut roomy.image, &g, &handle(0x80, "PULS01/DAT", 1, 0), 40, &mut 0), 0);
        assert_eq!(tell_all(&*library, side(&after), side(&roomy)), Ok(vec![]));
    }
}
