//! Which bytes each call writes, and that it writes no other: hand-written cases, on the model and on the
//! linked library.

use genie_model::binding::libraries;
use genie_model::calls::{Birth, ACCEPTED};
use genie_model::directory::{entry, entry_place, gat_place, hit_place, put_entry, set_taken, Entry, Pair};
use genie_model::disks::{empty_disk, Disk};
use genie_model::geometry::Geometry;
use genie_model::handle::Handle;
use genie_model::library::Library;
use genie_model::names::{hash, name};

/// 8 blocks of 3 units, the directory on granules 0 and 1; bytes that no call may read or write are odd.
fn disk() -> Disk {
    let g = Geometry { blocks: 8, units: 3, start: 0, open_code: 0, system_disk: true, granule_sectors: 5 };
    let mut disk = empty_disk(g, 10, &[]);
    disk.image[2560..].fill(0xDA);
    for block in 0..8 {
        disk.image[block] |= 0xA8;
    }
    disk.image[8..256].fill(0x5C);
    for place in (0..256).filter(|place| place % 32 > 7 && *place != 0x1F) {
        disk.image[256 + place] = 0x99;
    }
    disk
}

const FILE: u8 = 0x80;
const CODE: [u8; 2] = [0x34, 0x12];

/// The entry of a file "A" with these single-granule runs, odd second bytes behind them and an odd link.
fn file_entry(runs: &[Pair], size: usize) -> Entry {
    let mut e = Entry([0; 32]);
    (e.0[0x00], e.0[0x01], e.0[0x02], e.0[0x04]) = (0x1A, 0x07, 0x31, 0x80);
    e.0[0x05..0x10].copy_from_slice(&name("A"));
    e.0[0x10..0x12].copy_from_slice(&CODE);
    for i in 0..4 {
        match runs.get(i) {
            Some(&pair) => e.set_pair(i, pair),
            None => (e.0[0x16 + 2 * i], e.0[0x17 + 2 * i]) = (0xFF, 0x40 + i as u8),
        }
    }
    e.set_link(0xFF, 0x66);
    e.set_size(size);
    e
}

fn put_file(disk: &mut Disk, runs: &[Pair], size: usize) {
    let e = file_entry(runs, size);
    put(disk, FILE, &e);
    for pair in runs {
        take(disk, pair);
    }
}

fn put(disk: &mut Disk, slot: u8, e: &Entry) {
    put_entry(&mut disk.image, &disk.g, slot, e);
    disk.image[hit_place(&disk.g, slot)] = hash(&name("A"));
}

fn take(disk: &mut Disk, pair: &Pair) {
    for granule in pair.run(&disk.g) {
        set_taken(&mut disk.image, &disk.g, granule, true);
    }
}

fn run(g: &Geometry, first: usize, length: usize) -> Pair {
    Pair { further: (length - 1) as u8, ..Pair::of_granule(g, first) }
}

fn handle(position: usize, length: u16) -> [u8; 19] {
    Handle { slot: FILE, level: 0, length, position: position as u32, name: name("A") }.bytes()
}

/// Performs a call on a copy by each library; the image afterwards must be the wanted one.
fn leaves(before: &Disk, wanted: &Disk, call: impl Fn(&dyn Library, &mut [u8], &Geometry) -> u8) {
    for library in libraries() {
        assert_eq!(library.check(&before.image, &before.g, &mut 0), ACCEPTED, "{}: before", library.title());
        let mut image = before.image.clone();
        assert_eq!(call(&*library, &mut image, &before.g), ACCEPTED, "{}", library.title());
        if let Some(at) = image.iter().zip(&wanted.image).position(|(a, b)| a != b) {
            let what = genie_model::compare::what_is(&image, &before.g, at);
            panic!("{}: {what}: {:02X}H, wanted {:02X}H", library.title(), image[at], wanted.image[at]);
        }
    }
}

fn change(disk: &Disk, with: impl FnOnce(&mut Disk)) -> Disk {
    let mut after = disk.clone();
    with(&mut after);
    after
}

#[test]
fn create_writes_an_entry_and_its_hit_byte() {
    let before = disk();
    let birth =
        Birth { day: 31, month: 12, year: 3, length: 256, main_code: 0x1234, worker_code: 0xABCD, checking: true };
    let wanted = change(&before, |disk| {
        let mut e = [0u8; 32];
        (e[0x00], e[0x01], e[0x02]) = (0x10, 31, 0x3C);
        e[0x05..0x10].copy_from_slice(b"AB      C  ");
        e[0x10..0x14].copy_from_slice(&[0x34, 0x12, 0xCD, 0xAB]);
        e[0x16..].fill(0xFF);
        put_entry(&mut disk.image, &disk.g, 0x80, &Entry(e));
        disk.image[256 + 0x80] = hash(&name("AB/C"));
    });
    leaves(&before, &wanted, |library, image, g| {
        let mut handle = [0xEE; 19];
        let number = library.create(image, g, &name("AB/C"), &birth, &mut 7, &mut handle, &mut 0, &mut 0);
        assert_eq!(handle, *b"\x80\x00\x00\x01\x00\x00\x00\x00AB      C  ");
        number
    });
    // A file that exists is left alone, whatever is given.
    let mut there = disk();
    put_file(&mut there, &[], 0);
    leaves(&there, &there, |library, image, g| {
        let birth = Birth { checking: false, ..birth };
        library.create(image, g, &name("A"), &birth, &mut 7, &mut [0; 19], &mut 0, &mut 0)
    });
}

#[test]
fn growth_lengthens_the_last_run_then_takes_the_lowest_free() {
    // Runs 10 and 5: 6 and 7 are free, 8 is reserved; the lowest free is 2.
    let mut before = disk();
    let g = before.g;
    put_file(&mut before, &[run(&g, 10, 1), run(&g, 5, 1)], 300);
    set_taken(&mut before.image, &g, 8, true);
    let wanted = change(&before, |disk| {
        let mut e = entry(&disk.image, &g, FILE);
        e.set_pair(1, run(&g, 5, 3));
        e.set_pair(2, run(&g, 2, 2));
        put_entry(&mut disk.image, &g, FILE, &e);
        [6, 7, 2, 3].into_iter().for_each(|granule| set_taken(&mut disk.image, &g, granule, true));
    });
    // Odd bytes behind FFH stay where they are not needed: the fourth pair's, and the link.
    leaves(&before, &wanted, |library, image, g| library.allot(image, g, &handle(0, 1), 5 * 6 - 1, &mut 0));
    leaves(&wanted, &wanted, |library, image, g| library.allot(image, g, &handle(0, 1), 5 * 6 - 1, &mut 0));
}

/// Four runs that cannot be lengthened, the lowest free granule is 3 (and 4 behind it is taken).
fn full_entry() -> Disk {
    let mut full = disk();
    let g = full.g;
    let runs = [run(&g, 2, 1), run(&g, 10, 2), run(&g, 14, 1), run(&g, 22, 2)];
    put_file(&mut full, &runs, 0);
    set_taken(&mut full.image, &g, 4, true);
    full
}

fn with_extension() -> Disk {
    change(&full_entry(), |disk| {
        let g = disk.g;
        let mut e = entry(&disk.image, &g, FILE);
        e.set_link(0xFE, 0x81);
        put_entry(&mut disk.image, &g, FILE, &e);
        let mut new = Entry([0; 32]);
        (new.0[0x00], new.0[0x01]) = (0x90, FILE);
        new.0[0x16..].fill(0xFF);
        new.set_pair(0, run(&g, 3, 1));
        put(disk, 0x81, &new);
        set_taken(&mut disk.image, &g, 3, true);
    })
}

#[test]
fn a_fifth_run_starts_an_extension() {
    leaves(&full_entry(), &with_extension(), |library, image, g| {
        library.allot(image, g, &handle(0, 1), 5 * 7 - 1, &mut 0)
    });
}

#[test]
fn trim_empties_the_extension_and_what_it_must() {
    // The extension has an odd byte among 02 to 15 and odd bytes behind its run: they stay, or become FFH.
    let before = change(&with_extension(), |disk| {
        let place = entry_place(&disk.g, 0x81);
        (disk.image[place + 0x09], disk.image[place + 0x19], disk.image[place + 0x1F]) = (0x77, 0x13, 0x44);
        let mut e = entry(&disk.image, &disk.g, FILE);
        e.set_size(2 * 1280 + 1);
        put_entry(&mut disk.image, &disk.g, FILE, &e);
    });
    // Kept: 2 and all of the second run. Gone: 14, 22, 23, 3.
    let wanted = change(&before, |disk| {
        let g = disk.g;
        let place = entry_place(&g, FILE);
        disk.image[place + 0x1A..place + 0x20].fill(0xFF);
        let place = entry_place(&g, 0x81);
        disk.image[place] = 0x80;
        (disk.image[place + 0x16], disk.image[place + 0x17]) = (0xFF, 0xFF);
        (disk.image[place + 0x1E], disk.image[place + 0x1F]) = (0xFF, 0xFF);
        disk.image[hit_place(&g, 0x81)] = 0;
        [14, 22, 23, 3].into_iter().for_each(|granule| set_taken(&mut disk.image, &g, granule, false));
    });
    leaves(&before, &wanted, |library, image, g| library.trim(image, g, &handle(0, 1), &mut 0));
    // Nothing left to drop: not one byte changes.
    leaves(&wanted, &wanted, |library, image, g| library.trim(image, g, &handle(0, 1), &mut 0));
}

#[test]
fn trim_cuts_a_run_and_leaves_unused_pairs_and_the_link() {
    let mut before = disk();
    let g = before.g;
    put_file(&mut before, &[run(&g, 10, 4), run(&g, 5, 1)], 1280 + 1);
    let wanted = change(&before, |disk| {
        let mut e = entry(&disk.image, &g, FILE);
        e.set_pair(0, run(&g, 10, 2));
        e.empty_pair(1);
        put_entry(&mut disk.image, &g, FILE, &e);
        [12, 13, 5].into_iter().for_each(|granule| set_taken(&mut disk.image, &g, granule, false));
    });
    leaves(&before, &wanted, |library, image, g| library.trim(image, g, &handle(0, 1), &mut 0));
    // With F set nothing changes.
    let kept = change(&before, |disk| {
        let place = entry_place(&g, FILE);
        disk.image[place + 0x01] |= 0x80;
    });
    leaves(&kept, &kept, |library, image, g| library.trim(image, g, &handle(0, 1), &mut 0));
}

#[test]
fn kill_clears_bits_and_hit_bytes_only() {
    let before = with_extension();
    let wanted = change(&before, |disk| {
        let g = disk.g;
        for slot in [FILE, 0x81] {
            let place = entry_place(&g, slot);
            disk.image[place] &= !0x10;
            disk.image[hit_place(&g, slot)] = 0;
        }
        for granule in [2, 10, 11, 14, 22, 23, 3] {
            let (place, bit) = gat_place(&g, granule);
            disk.image[place] &= !bit;
        }
    });
    leaves(&before, &wanted, |library, image, g| library.kill(image, g, &handle(0, 1), &mut 0));
}

#[test]
fn writes_touch_the_gap_the_record_the_size_and_b() {
    let mut before = disk();
    let g = before.g;
    put_file(&mut before, &[run(&g, 10, 1)], 1000);
    // From 1000 to 1270 zeros, then 20 bytes across into granule 11, which is taken; all else stays.
    let wanted = change(&before, |disk| {
        let at = 10 * 1280;
        disk.image[at + 1000..at + 1270].fill(0);
        disk.image[at + 1270..at + 1290].fill(0x33);
        let mut e = entry(&disk.image, &g, FILE);
        e.set_pair(0, run(&g, 10, 2));
        (e.0[0x14], e.0[0x15], e.0[0x03]) = (6, 0, 10);
        e.0[0x01] |= 0x20;
        put_entry(&mut disk.image, &g, FILE, &e);
        set_taken(&mut disk.image, &g, 11, true);
    });
    for sequential in [true, false] {
        leaves(&before, &wanted, |library, image, g| {
            let mut lent = handle(1270, 20);
            let number = library.write_record(image, g, &mut lent, sequential, &[0x33; 30], &mut 0);
            assert_eq!(lent, handle(1290, 20));
            number
        });
    }
    // A sequential write that shrinks the file keeps its granules and the bytes behind.
    let shrunk = change(&wanted, |disk| {
        disk.image[10 * 1280 + 5] = 0x44;
        let mut e = entry(&disk.image, &g, FILE);
        (e.0[0x14], e.0[0x15], e.0[0x03]) = (1, 0, 6);
        put_entry(&mut disk.image, &g, FILE, &e);
    });
    leaves(&wanted, &shrunk, |library, image, g| {
        library.write_record(image, g, &mut handle(5, 1), true, &[0x44], &mut 0)
    });
    // A random write within leaves the size.
    let within = change(&wanted, |disk| disk.image[10 * 1280 + 5] = 0x44);
    leaves(&wanted, &within, |library, image, g| {
        library.write_record(image, g, &mut handle(5, 1), false, &[0x44], &mut 0)
    });
}

#[test]
fn reads_and_listings_touch_nothing() {
    let before = with_extension();
    leaves(&before, &before, |library, image, g| {
        let (mut a, mut b, mut c) = (0, 0, 0);
        let mut room = [0; 19];
        assert_eq!(library.look_up(image, g, &name("A"), &mut a, &mut b, &mut 0, &mut 0), ACCEPTED);
        // The extension bears the same hash, but lies behind.
        assert_eq!((a, b), (FILE as usize, 1));
        assert_eq!(library.open(image, g, &name("A"), 1, true, 0x1234, &mut room, &mut 0, &mut 0), ACCEPTED);
        assert_eq!(library.list(image, g, 0, &mut room, &mut a, &mut b, &mut c, &mut 0), ACCEPTED);
        assert_eq!((a, b, c), (0, 7, 1));
        library.count(image, g, &mut a, &mut b, &mut 0)
    });
}
