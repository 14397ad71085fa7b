//! Document 01's worked table and its listing, on the model and on the linked library.

use genie_model::binding::libraries;
use genie_model::calls::{Birth, Number, ACCEPTED};
use genie_model::directory::{directory_sectors, entry_place, hit_place, row, s, set_taken, slots, Entry, Pair};
use genie_model::disks::{empty_disk, Disk};
use genie_model::fault::Kind;
use genie_model::geometry::Geometry;
use genie_model::handle::{Handle, HANDLE_BYTES};
use genie_model::library::Library;
use genie_model::names::{hash, name, written};

fn birth(length: usize) -> Birth {
    Birth { day: 9, month: 10, year: 3, length, main_code: 0, worker_code: 0, checking: false }
}

fn sixteen_by_two() -> Disk {
    empty_disk(
        Geometry { blocks: 16, units: 2, start: 80, open_code: 0, system_disk: true, granule_sectors: 5 },
        10,
        &[0],
    )
}

fn create(library: &dyn Library, disk: &mut Disk, text: &str, length: usize) -> [u8; HANDLE_BYTES] {
    let mut handle = [0; HANDLE_BYTES];
    let number =
        library.create(&mut disk.image, &disk.g, &name(text), &birth(length), &mut 9, &mut handle, &mut 0, &mut 0);
    assert_eq!(number, ACCEPTED, "{}: create {text}", library.title());
    handle
}

fn write(library: &dyn Library, disk: &mut Disk, handle: &mut [u8], bytes: &[u8]) {
    let number = library.write_record(&mut disk.image, &disk.g, handle, true, bytes, &mut 0);
    assert_eq!(number, ACCEPTED, "{}: write", library.title());
}

fn at(handle: &[u8], position: usize) -> Vec<u8> {
    let handle = Handle { position: position as u32, ..Handle::read(handle).expect("19 bytes") };
    handle.bytes().to_vec()
}

/// A file in a given slot, written straight into the directory.
fn place(disk: &mut Disk, slot: u8, text: &str, pairs: &[Pair], size: usize) {
    let mut e = Entry([0; 32]);
    e.0[0x00] = 0x10;
    e.0[0x05..0x10].copy_from_slice(&name(text));
    e.0[0x16..].fill(0xFF);
    for (i, &pair) in pairs.iter().enumerate() {
        e.set_pair(i, pair);
        for granule in pair.run(&disk.g) {
            set_taken(&mut disk.image, &disk.g, granule, true);
        }
    }
    e.set_size(size);
    genie_model::directory::put_entry(&mut disk.image, &disk.g, slot, &e);
    disk.image[hit_place(&disk.g, slot)] = hash(&name(text));
}

#[test]
fn row_1_hashes() {
    assert_eq!(hash(&name("BOOT/SYS")), 0xA2);
    assert_eq!(hash(&name("DIR/SYS")), 0xC4);
    assert_eq!(hash(&name("GDOS/SYS")), 0xA1);
    for library in libraries() {
        let mut disk = sixteen_by_two();
        for (text, code) in [("BOOT/SYS", 0xA2), ("DIR/SYS", 0xC4), ("GDOS/SYS", 0xA1)] {
            let handle = create(&*library, &mut disk, text, 256);
            assert_eq!(disk.image[hit_place(&disk.g, handle[0])], code);
        }
    }
}

#[test]
fn row_2_slot_25() {
    assert_eq!((row(0x25), s(0x25)), (1, 5));
    let g = sixteen_by_two().g;
    assert_eq!(entry_place(&g, 0x25), (g.start + 7) * 256 + 32);
    for library in libraries() {
        let mut disk = sixteen_by_two();
        place(&mut disk, 0x25, "PULS01/DAT", &[], 0);
        let (mut slot, mut compared) = (0, 0);
        let number =
            library.look_up(&disk.image, &disk.g, &name("PULS01/DAT"), &mut slot, &mut compared, &mut 0, &mut 0);
        assert_eq!((number, slot, compared), (ACCEPTED, 0x25, 1), "{}", library.title());
    }
}

#[test]
fn row_3_pair_11_42() {
    let pair = Pair { block: 0x11, unit: 0x42 >> 5, further: 0x42 & 0x1F };
    for library in libraries() {
        let mut disk = empty_disk(
            Geometry { blocks: 40, units: 3, start: 80, open_code: 0, system_disk: true, granule_sectors: 5 },
            10,
            &[],
        );
        assert_eq!(pair.run(&disk.g), 53..56);
        place(&mut disk, 0x80, "A", &[pair], 3 * 1280);
        assert_eq!(library.check(&disk.image, &disk.g, &mut 0), ACCEPTED);
        let handle = Handle { slot: 0x80, level: 0, length: 1, position: 0, name: name("A") }.bytes();
        for k in 0..15 {
            let (mut from, mut to) = (0, 0);
            assert_eq!(library.read_sector(&disk.image, &disk.g, &handle, k, &mut from, &mut to, &mut 0), ACCEPTED);
            assert_eq!((from, to), ((265 + k) * 256, (266 + k) * 256));
        }
        // With 2 units the first unit, 2, is too high.
        let mut disk = empty_disk(
            Geometry { blocks: 40, units: 2, start: 80, open_code: 0, system_disk: true, granule_sectors: 5 },
            10,
            &[],
        );
        place(&mut disk, 0x80, "A", &[pair], 0);
        let mut slot = 0;
        let number = library.check(&disk.image, &disk.g, &mut slot);
        assert_eq!((number, slot), (Kind::RunOffDisk as Number, 0x80));
    }
}

#[test]
fn row_4_sizes() {
    for library in libraries() {
        for (size, n, e) in [(0usize, 0u8, 0u8), (255, 1, 255), (256, 1, 0), (257, 2, 1)] {
            let mut entry = Entry([0; 32]);
            entry.set_size(size);
            assert_eq!((entry.0[0x14], entry.0[0x15], entry.0[0x03]), (n, 0, e));
            assert_eq!(entry.size(), Some(size));
            // Written by calls: one byte up to that size.
            let mut disk = sixteen_by_two();
            let handle = create(&*library, &mut disk, "A", 1);
            if size > 0 {
                write(&*library, &mut disk, &mut at(&handle, size - 1), &[7]);
            }
            let there = genie_model::directory::entry(&disk.image, &disk.g, handle[0]);
            assert_eq!((there.0[0x14], there.0[0x15], there.0[0x03]), (n, 0, e), "{}", library.title());
        }
    }
}

#[test]
fn row_5_byte_1280() {
    for library in libraries() {
        let mut disk = sixteen_by_two();
        let first = Pair::of_granule(&disk.g, 20);
        let second = Pair::of_granule(&disk.g, 7);
        place(&mut disk, 0x80, "A", &[first, second], 2560);
        let handle = Handle { slot: 0x80, level: 0, length: 1, position: 1280, name: name("A") }.bytes();
        disk.image[20 * 1280 + 1279] = 0x11;
        disk.image[7 * 1280] = 0x22;
        let mut buffer = [0];
        assert_eq!(library.read_record(&disk.image, &disk.g, &mut handle.clone(), &mut buffer, &mut 0), ACCEPTED);
        assert_eq!(buffer, [0x22]);
        assert_eq!(
            library.read_record(&disk.image, &disk.g, &mut at(&handle, 1279), &mut buffer, &mut 0),
            ACCEPTED
        );
        assert_eq!(buffer, [0x11]);
    }
}

#[test]
fn row_6_runs_of_32() {
    for library in libraries() {
        let mut disk = empty_disk(
            Geometry { blocks: 40, units: 2, start: 0, open_code: 0, system_disk: true, granule_sectors: 5 },
            10,
            &[],
        );
        let handle = create(&*library, &mut disk, "A", 1);
        let entry_of = |disk: &Disk| genie_model::directory::entry(&disk.image, &disk.g, handle[0]);
        assert_eq!(library.allot(&mut disk.image, &disk.g, &handle, 32 * 5 - 1, &mut 0), ACCEPTED);
        assert_eq!(entry_of(&disk).0[0x16..0x1A], [1, 0x1F, 0xFF, 0xFF]);
        assert_eq!(library.allot(&mut disk.image, &disk.g, &handle, 32 * 5, &mut 0), ACCEPTED);
        // The 33rd granule has the next number, 34, and needs a new pair all the same.
        assert_eq!(entry_of(&disk).0[0x16..0x1C], [1, 0x1F, 17, 0x00, 0xFF, 0xFF]);
    }
}

#[test]
fn row_7_date() {
    for library in libraries() {
        let mut disk = sixteen_by_two();
        let handle = create(&*library, &mut disk, "A", 256);
        let e = genie_model::directory::entry(&disk.image, &disk.g, handle[0]);
        assert_eq!(e.0[..5], [0x10, 9, 0x3A, 0, 0]);
    }
}

#[test]
fn row_8_longest_directory() {
    let mut disk = empty_disk(
        Geometry { blocks: 16, units: 2, start: 80, open_code: 0, system_disk: true, granule_sectors: 5 },
        30,
        &[],
    );
    assert_eq!(disk.image[hit_place(&disk.g, 0x1F)], 0x14);
    assert_eq!(directory_sectors(&disk.image, &disk.g), Some(30));
    assert_eq!(slots(30).count(), 224);
    // The last slot, FBH, is a good one; FCH is none.
    place(&mut disk, 0xFB, "A", &[], 0);
    disk.image[hit_place(&disk.g, 0xFC)] = 0x77;
    for library in libraries() {
        let (mut slot, mut compared) = (0, 0);
        assert_eq!(
            library.look_up(&disk.image, &disk.g, &name("A"), &mut slot, &mut compared, &mut 0, &mut 0),
            ACCEPTED
        );
        assert_eq!((slot, compared), (0xFB, 1), "{}", library.title());
    }
}

#[test]
fn the_listing() {
    const WANTED: &str = "FILES 2\nPULS01/DAT 257 1\nLEER 0 0\nFREE 28\n";
    for library in libraries() {
        let mut disk = sixteen_by_two();
        let mut handle = create(&*library, &mut disk, "PULS01/DAT", 257 - 256);
        write(&*library, &mut disk, &mut handle, &[0x5A]);
        write(&*library, &mut disk, &mut at(&handle, 256), &[0xA5]);
        create(&*library, &mut disk, "LEER", 256);

        let (mut files, mut free) = (0, 0);
        assert_eq!(library.count(&disk.image, &disk.g, &mut files, &mut free, &mut 0), ACCEPTED);
        let mut text = format!("FILES {files}\n");
        for number in 0.. {
            let (mut told, mut size, mut granules, mut more) = ([0xEE; 11], 0, 0, 0);
            let answer =
                library.list(&disk.image, &disk.g, number, &mut told, &mut size, &mut granules, &mut more, &mut 0);
            assert_eq!(answer, ACCEPTED);
            if more == 0 {
                assert_eq!((told, size, granules), ([0xEE; 11], 0, 0));
                break;
            }
            text += &format!("{} {size} {granules}\n", written(&told));
        }
        text += &format!("FREE {free}\n");
        assert_eq!(text, WANTED, "{}", library.title());
    }
}
