//! Bring back (document 02, §11): each refusal for each of its reasons and their order, which bytes change, and
//! kill and bring back of files of every build; on the model and on the linked library.

use genie_model::binding::libraries;
use genie_model::bring_back::{GRANULE_TAKEN, NAME_IN_USE, NOTHING_WHOLE, SLOT_IN_USE};
use genie_model::calls::{Birth, Number, ACCEPTED, GEOMETRY, LEVEL, RANGE};
use genie_model::consistency::consistent;
use genie_model::directory::{entry_place, gat_place, hit_place, put_entry, set_taken, Entry, Pair};
use genie_model::disks::{empty_disk, Disk};
use genie_model::fault::Kind;
use genie_model::geometry::Geometry;
use genie_model::handle::Handle;
use genie_model::library::Library;
use genie_model::names::{hash, name, written};
use genie_model::plain::files_of;

/// "A granule is 5 sectors of 256 bytes."
const GRANULE_BYTES: usize = 1280;

const FILE: u8 = 0xA0;
const SECOND: u8 = 0x85;
const OTHER: u8 = 0x60;

/// 10 blocks of 4 units, the directory on granules 8 and 9, granule 0 reserved.
fn blank() -> Disk {
    empty_disk(
        Geometry { blocks: 10, units: 4, start: 40, open_code: 0, system_disk: true, granule_sectors: 5 },
        10,
        &[0],
    )
}

fn run(g: &Geometry, first: usize, length: usize) -> Pair {
    Pair { further: (length - 1) as u8, ..Pair::of_granule(g, first) }
}

/// Puts a file into these slots, four runs an entry.
fn put(disk: &mut Disk, slots: &[u8], title: &str, flags: u8, runs: &[(usize, usize)], size: usize) {
    let g = disk.g;
    for (i, &slot) in slots.iter().enumerate() {
        let mut e = Entry([0; 32]);
        if i == 0 {
            (e.0[0x00], e.0[0x01], e.0[0x02], e.0[0x04]) = (0x10 | flags, 0x09, 0x3A, 0x80);
            e.0[0x05..0x10].copy_from_slice(&name(title));
            e.0[0x10..0x14].copy_from_slice(&[1, 2, 3, 4]);
            e.set_size(size);
        } else {
            (e.0[0x00], e.0[0x01]) = (0x90, slots[i - 1]);
        }
        e.0[0x16..].fill(0xFF);
        for (pair, &(first, length)) in runs.iter().skip(4 * i).take(4).enumerate() {
            e.set_pair(pair, run(&g, first, length));
        }
        if let Some(&next) = slots.get(i + 1) {
            e.set_link(0xFE, next);
        }
        put_entry(&mut disk.image, &g, slot, &e);
        disk.image[hit_place(&g, slot)] = hash(&name(title));
    }
    for &(first, length) in runs {
        for granule in first..first + length {
            set_taken(&mut disk.image, &g, granule, true);
        }
    }
}

fn handle(slot: u8, title: &str) -> [u8; 19] {
    Handle { slot, level: 0, length: 256, position: 0, name: name(title) }.bytes()
}

/// The disk after the kill of a file.
fn killed(library: &dyn Library, disk: &Disk, slot: u8, title: &str) -> Disk {
    let mut dead = disk.clone();
    assert_eq!(
        library.kill(&mut dead.image, &dead.g, &handle(slot, title), &mut 0),
        ACCEPTED,
        "{}",
        library.title()
    );
    dead
}

/// PULS01/DAT: five runs, one extension; LEER, another file.
fn two_files() -> Disk {
    let mut disk = blank();
    put(&mut disk, &[FILE, SECOND], "PULS01/DAT", 0x08, &[(2, 2), (5, 1), (11, 3), (20, 1), (30, 4)], 5000);
    put(&mut disk, &[OTHER], "LEER", 0, &[(1, 1)], 7);
    disk
}

/// Every library gives this number, these counts, and where it refuses leaves the image.
fn gives(disk: &Disk, slot: usize, wanted: (Number, usize, usize)) {
    for library in libraries() {
        let mut image = disk.image.clone();
        let (mut slots, mut granules) = (77, 77);
        let number = library.bring_back(&mut image, &disk.g, slot, &mut slots, &mut granules, &mut 0);
        assert_eq!((number, slots, granules), wanted, "{}", library.title());
        assert!(number == ACCEPTED || image == disk.image, "{}: changed", library.title());
        assert!(number != ACCEPTED || consistent(&image, &disk.g), "{}: spoilt", library.title());
    }
}

fn refuses(disk: &Disk, slot: usize, number: Number) {
    gives(disk, slot, (number, 0, 0));
}

/// The killed two_files with a byte of an entry set.
fn with(slot: u8, at: usize, byte: u8) -> Disk {
    let mut disk = dead();
    let place = entry_place(&disk.g, slot);
    disk.image[place + at] = byte;
    disk
}

fn dead() -> Disk {
    killed(&*libraries()[0], &two_files(), FILE, "PULS01/DAT")
}

/// Slots, runs and size of a file.
type Build<'a> = (&'a [u8], &'a [(usize, usize)], usize);

#[test]
fn killed_and_brought_back_is_the_same_image() {
    let g = blank().g;
    let every_second: Vec<(usize, usize)> = (0..14).map(|i| (11 + 2 * i, 1)).collect();
    let many: Vec<u8> = vec![0x61, 0xE7, 0x82, 0xC4];
    let builds: [Build; 7] = [
        (&[FILE], &[], 0),
        (&[FILE], &[(3, 1)], 0),
        (&[FILE], &[(3, 1)], 1280),
        (&[0x00], &[(10, 30)], 1281),
        (&[FILE], &[(2, 1), (1, 1), (39, 1), (12, 5)], 8 * 1280),
        (&[FILE, SECOND], &[(2, 2), (5, 1), (11, 3), (20, 1), (30, 4)], 5000),
        (&many, &every_second, 14 * 1280),
    ];
    for (slots, runs, size) in builds {
        let mut disk = blank();
        put(&mut disk, slots, "A", 0x0D, runs, size);
        put(&mut disk, &[0xE0], "B", 0, &[], 0);
        assert!(consistent(&disk.image, &g));
        let granules = runs.iter().map(|run| run.1).sum();
        for library in libraries() {
            let dead = killed(&*library, &disk, slots[0], "A");
            gives(&dead, slots[0] as usize, (ACCEPTED, slots.len(), granules));
            let mut image = dead.image;
            library.bring_back(&mut image, &g, slots[0] as usize, &mut 0, &mut 0, &mut 0);
            assert!(image == disk.image, "{}: not the image before", library.title());
        }
    }
}

#[test]
fn only_bit_four_the_hit_bytes_and_the_gat_bits_change() {
    // Odd bytes wherever 01 tests none.
    let mut disk = dead();
    let g = disk.g;
    for place in (0..256).filter(|place| place % 32 > 7 && *place != 0x1F) {
        disk.image[40 * 256 + 256 + place] = 0x99;
    }
    for block in 0..10 {
        disk.image[40 * 256 + block] |= 0x50;
    }
    let second = entry_place(&g, SECOND);
    disk.image[second + 0x02..second + 0x16].fill(0x33);
    (disk.image[second + 0x19], disk.image[second + 0x1F]) = (0x77, 0x12);
    for granule in [2, 3, 5, 11, 12, 13, 20, 30, 31, 32, 33] {
        let at = granule * GRANULE_BYTES;
        disk.image[at..at + GRANULE_BYTES].fill(granule as u8);
    }
    let mut wanted = disk.image.clone();
    for slot in [FILE, SECOND] {
        wanted[entry_place(&g, slot)] |= 0x10;
        wanted[hit_place(&g, slot)] = hash(&name("PULS01/DAT"));
    }
    for granule in [2, 3, 5, 11, 12, 13, 20, 30, 31, 32, 33] {
        let (place, bit) = gat_place(&g, granule);
        wanted[place] |= bit;
    }
    for library in libraries() {
        let mut image = disk.image.clone();
        assert_eq!(library.bring_back(&mut image, &g, FILE as usize, &mut 0, &mut 0, &mut 0), ACCEPTED);
        assert!(image == wanted, "{}", library.title());
        // The plain list gains the file, with what its granules hold now; the other is as it was.
        let all = files_of(&image, &g);
        let file = &all[&name("PULS01/DAT")];
        assert_eq!(
            (file.bytes.len(), file.granules, file.attributes),
            (5000, 11, [0x18, 9, 0x3A, 0x80, 1, 2, 3, 4])
        );
        assert_eq!((file.bytes[0], file.bytes[1280], file.bytes[2560], file.bytes[4999]), (2, 3, 5, 11));
        assert_eq!(all[&name("LEER")], files_of(&disk.image, &g)[&name("LEER")]);
        assert_eq!(all.len(), 2);
    }
}

#[test]
fn geometry_consistency_and_slot() {
    let disk = dead();
    for (odd, slot) in [(Geometry { start: 41, ..disk.g }, 0), (Geometry { blocks: 0, ..disk.g }, usize::MAX)] {
        refuses(&Disk { g: odd, ..disk.clone() }, slot, GEOMETRY);
    }
    let mut spoilt = disk.clone();
    spoilt.image[hit_place(&disk.g, OTHER)] ^= 1;
    refuses(&spoilt, FILE as usize, Kind::HitAgainstEntry as Number);
    refuses(&spoilt, usize::MAX, Kind::HitAgainstEntry as Number);
    // s runs from 0 to 7; 1FH is no slot.
    for slot in [0x08, 0x1F, 0x3F, 0xFF, 256, FILE as usize + 256, 1 << 32, usize::MAX] {
        refuses(&disk, slot, RANGE);
    }
    gives(&disk, FILE as usize, (ACCEPTED, 2, 11));
}

#[test]
fn in_use_or_of_the_system() {
    let disk = two_files();
    for slot in [FILE, SECOND, OTHER] {
        refuses(&disk, slot as usize, SLOT_IN_USE);
    }
    // Bit 6, whatever else holds: a blank entry, an extension's slot, a name in use.
    refuses(&with(FILE, 0x00, 0x48), FILE as usize, LEVEL);
    refuses(&with(0x80, 0x00, 0x40), 0x80, LEVEL);
    refuses(&with(SECOND, 0x00, 0xC0), SECOND as usize, LEVEL);
    refuses(&with(SECOND, 0x00, 0xE0), SECOND as usize, LEVEL);
    // A system file in use: 17 comes first.
    let mut system = disk.clone();
    put(&mut system, &[0x01], "DIR/SYS", 0x40, &[], 0);
    refuses(&system, 0x01, SLOT_IN_USE);
}

#[test]
fn nothing_whole() {
    let file = FILE as usize;
    // A blank entry, an extension's slot, bit 7, bit 5.
    refuses(&dead(), 0x80, NOTHING_WHOLE);
    refuses(&dead(), SECOND as usize, NOTHING_WHOLE);
    refuses(&with(FILE, 0x00, 0x88), file, NOTHING_WHOLE);
    refuses(&with(FILE, 0x00, 0x28), file, NOTHING_WHOLE);
    // The name: a small letter, a blank at the start, a letter behind a blank.
    for (at, byte) in [(0x05, b'p'), (0x05, b' '), (0x0C, b'X'), (0x0F, 0x00)] {
        refuses(&with(FILE, at, byte), file, NOTHING_WHOLE);
    }
    // Markers, links, back links, the extension's byte 00.
    for (slot, at, byte) in [
        (FILE, 0x1E, 0x00),
        (FILE, 0x1E, 0xFD),
        (FILE, 0x1F, 0x08),
        (FILE, 0x1F, 0x80),
        (FILE, 0x1F, FILE),
        (FILE, 0x1F, OTHER),
        (SECOND, 0x00, 0x81),
        (SECOND, 0x00, 0x00),
        (SECOND, 0x01, OTHER),
        (SECOND, 0x1E, 0xFE),
        (SECOND, 0x1E, 0x00),
        // Runs: none in the extension, fewer than four before it, one behind an FFH.
        (SECOND, 0x16, 0xFF),
        (FILE, 0x1C, 0xFF),
        (FILE, 0x18, 0xFF),
        (SECOND, 0x1A, 0x01),
        // Off the disk, or a first unit too high.
        (FILE, 0x16, 10),
        (SECOND, 0x16, 0xFE),
        (SECOND, 0x17, 2 << 5 | 31),
        (FILE, 0x17, 7 << 5),
    ] {
        refuses(&with(slot, at, byte), file, NOTHING_WHOLE);
    }
    // A granule twice: in two runs of the entry, and in runs of two entries.
    let g = blank().g;
    let twice = |slot: u8, pair: usize, run: Pair| {
        let mut disk = dead();
        let place = entry_place(&g, slot);
        (disk.image[place + 0x16 + 2 * pair], disk.image[place + 0x17 + 2 * pair]) =
            (run.block, run.unit << 5 | run.further);
        disk
    };
    refuses(&twice(FILE, 1, run(&g, 3, 1)), file, NOTHING_WHOLE);
    refuses(&twice(SECOND, 0, run(&g, 13, 2)), file, NOTHING_WHOLE);
    // The size: 11 granules hold 55 sectors; n = 0 with e not 0.
    refuses(&with(FILE, 0x14, 56), file, NOTHING_WHOLE);
    refuses(&with(FILE, 0x15, 1), file, NOTHING_WHOLE);
    gives(&with(FILE, 0x14, 55), file, (ACCEPTED, 2, 11));
    let mut odd_size = with(FILE, 0x14, 0);
    refuses(&odd_size, file, NOTHING_WHOLE);
    odd_size.image[entry_place(&g, FILE) + 0x03] = 0;
    gives(&odd_size, file, (ACCEPTED, 2, 11));
    // Nothing whole comes before a name in use and a granule taken.
    let mut all = with(FILE, 0x1E, 0x00);
    put(&mut all, &[0xC0], "PULS01/DAT", 0, &[(5, 1)], 0);
    refuses(&all, file, NOTHING_WHOLE);
}

#[test]
fn a_chain_that_comes_back_to_itself() {
    // Three entries in a ring behind the first: the back link of the second can only be right once.
    let mut disk = blank();
    let runs: Vec<(usize, usize)> = (0..16).map(|i| (10 + i, 1)).collect();
    put(&mut disk, &[FILE, 0x81, 0x82, 0x83], "A", 0, &runs, 0);
    let g = disk.g;
    for library in libraries() {
        let mut dead = killed(&*library, &disk, FILE, "A");
        let last = entry_place(&g, 0x83);
        (dead.image[last + 0x1E], dead.image[last + 0x1F]) = (0xFE, 0x81);
        refuses(&dead, FILE as usize, NOTHING_WHOLE);
        let second = entry_place(&g, 0x81);
        dead.image[second + 0x01] = 0x83;
        refuses(&dead, FILE as usize, NOTHING_WHOLE);
    }
}

#[test]
fn name_in_use_and_granules_taken() {
    let file = FILE as usize;
    // A file of that name, and one whose name only has its hash.
    let mut named = dead();
    put(&mut named, &[0xC0], "PULS01/DAT", 0x40, &[(30, 1)], 0);
    refuses(&named, file, NAME_IN_USE);
    let like = (0..).map(|i| name(&format!("H{i}"))).find(|n| hash(n) == hash(&name("PULS01/DAT"))).unwrap();
    let mut hashed = dead();
    put(&mut hashed, &[0xC0], &written(&like), 0, &[], 0);
    gives(&hashed, file, (ACCEPTED, 2, 11));

    // One granule of each run, the first and the last of the file, reserved again.
    for granule in [2, 3, 5, 11, 13, 20, 30, 33] {
        let mut disk = dead();
        let g = disk.g;
        set_taken(&mut disk.image, &g, granule, true);
        refuses(&disk, file, GRANULE_TAKEN);
    }
    // Part of the space taken by a call.
    for library in libraries() {
        let mut disk = dead();
        let allotted = library.allot(&mut disk.image, &disk.g, &handle(OTHER, "LEER"), 5, &mut 0);
        assert_eq!(allotted, ACCEPTED);
        refuses(&disk, file, GRANULE_TAKEN);
        // Given back again it can be brought back.
        assert_eq!(library.trim(&mut disk.image, &disk.g, &handle(OTHER, "LEER"), &mut 0), ACCEPTED);
        gives(&disk, file, (ACCEPTED, 2, 11));
    }
}

#[test]
fn a_slot_written_since() {
    let birth = Birth { day: 1, month: 1, year: 0, length: 1, main_code: 0, worker_code: 0, checking: false };
    for library in libraries() {
        // The sixth new file takes the killed extension's slot; killed in turn, it alone is there to be brought back.
        let mut disk = dead();
        for i in 0..6 {
            let given = name(&format!("N{i}"));
            assert_eq!(
                library.create(&mut disk.image, &disk.g, &given, &birth, &mut 0, &mut [0; 19], &mut 0, &mut 0),
                ACCEPTED
            );
        }
        refuses(&disk, SECOND as usize, SLOT_IN_USE);
        refuses(&disk, FILE as usize, NOTHING_WHOLE);
        let dead = killed(&*library, &disk, SECOND, "N5");
        refuses(&dead, FILE as usize, NOTHING_WHOLE);
        gives(&dead, SECOND as usize, (ACCEPTED, 1, 0));
    }
}
