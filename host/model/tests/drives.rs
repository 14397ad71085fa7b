//! A second drive (02 §9): the cases of the request on each library, and random calls on two drives.

use genie_model::binding::{libraries, linked};
use genie_model::calls::{Birth, NO_PLACE, NO_SLOT};
use genie_model::disks::random_disk;
use genie_model::drives::{DRIVE_HANDLE_BYTES, NO_DRIVE};
use genie_model::geometry::Geometry;
use genie_model::library::Library;
use genie_model::random::Random;
use genie_model::two_drives::{made, random_calls, Answer, Asked, Bench, OPERATIONS};

const SEED: u64 = 9;

/// An empty disk of 16 blocks of 2 units with its directory of 10 sectors at sector 80, granule 0 reserved.
fn blank(g: &Geometry) -> Vec<u8> {
    let mut image = vec![0; 40_960];
    image[g.start * 256] = 1;
    image[g.start * 256 + 8] = 3;
    image
}

/// Drive 0 a system disk, drive 1 a data disk.
fn bench() -> Bench {
    let g =
        |system_disk| Geometry { blocks: 16, units: 2, start: 80, open_code: 0, system_disk, granule_sectors: 5 };
    let g = [g(true), g(false)];
    Bench { images: [blank(&g[0]), blank(&g[1])], g }
}

fn ask(library: &dyn Library, bench: &mut Bench, operation: usize, drive: Option<usize>, name: &str) -> Answer {
    let birth = Birth { day: 0, month: 0, year: 0, length: 256, main_code: 0, worker_code: 0, checking: false };
    let (name, handle) = (format!("{name:11}").into_bytes(), vec![0xEE; DRIVE_HANDLE_BYTES]);
    let asked = Asked { operation, drive, name, birth, handle, sequential: true, buffer: Vec::new(), k: 0 };
    made(library, bench, &asked)
}

fn by_handle(library: &dyn Library, bench: &mut Bench, operation: usize, handle: &[u8]) -> Answer {
    let birth = Birth { day: 0, month: 0, year: 0, length: 256, main_code: 0, worker_code: 0, checking: false };
    let (handle, buffer) = (handle.to_vec(), vec![7; 256]);
    made(
        library,
        bench,
        &Asked { operation, drive: None, name: Vec::new(), birth, handle, sequential: true, buffer, k: 0 },
    )
}

/// Number, drive, slot and count of a look up.
fn found(library: &dyn Library, bench: &mut Bench, drive: Option<usize>, name: &str) -> (u8, [usize; 3]) {
    let told = ask(library, bench, 0, drive, name);
    assert_eq!(told.outgoing[3], NO_PLACE);
    (told.number, [told.outgoing[0], told.outgoing[1], told.outgoing[2]])
}

/// Number, slot and drive of a create.
fn created(library: &dyn Library, bench: &mut Bench, drive: Option<usize>, name: &str) -> (u8, u8, u8) {
    let told = ask(library, bench, 2, drive, name);
    (told.number, told.handle[0], told.handle[19])
}

#[test]
fn which_drive_has_a_name() {
    for library in libraries() {
        let (library, mut bench) = (&*library, bench());
        assert_eq!(created(library, &mut bench, Some(1), "A"), (0, 0x02, 1));
        assert_eq!(found(library, &mut bench, None, "A"), (0, [1, 0x02, 1]));
        assert_eq!(found(library, &mut bench, Some(0), "A"), (4, [0, 0, 0]));
        assert_eq!(created(library, &mut bench, Some(0), "A"), (0, 0x80, 0));
        assert_eq!(found(library, &mut bench, None, "A"), (0, [0, 0x80, 1]));
        assert_eq!(found(library, &mut bench, Some(2), "A"), (16, [0, 0, 0]));
    }
}

#[test]
fn counts_add_up() {
    for library in libraries() {
        let (library, mut bench) = (&*library, bench());
        created(library, &mut bench, Some(0), "AA");
        created(library, &mut bench, Some(1), "BG");
        created(library, &mut bench, Some(1), "CE");
        assert_eq!(found(library, &mut bench, None, "CE"), (0, [1, 0x03, 3]));
        assert_eq!(found(library, &mut bench, Some(1), "CE"), (0, [1, 0x03, 2]));
        assert_eq!(found(library, &mut bench, None, "DK"), (4, [0, 0, 3]));
    }
}

#[test]
fn a_new_file_goes_where_a_slot_is() {
    for library in libraries() {
        let (library, mut bench) = (&*library, bench());
        // 8 sectors of entries: 32 permitted slots on the system disk, 62 on the data disk.
        for i in 0..32 {
            assert_eq!(created(library, &mut bench, None, &format!("F{i}")).2, 0);
        }
        assert_eq!(created(library, &mut bench, None, "C"), (0, 0x02, 1));
        for i in 1..62 {
            assert_eq!(created(library, &mut bench, None, &format!("G{i}")).2, 1);
        }
        let full = ask(library, &mut bench, 2, None, "D");
        assert_eq!((full.number, &full.handle[..]), (8, &[0; DRIVE_HANDLE_BYTES][..]));
    }
}

#[test]
fn which_images_are_tested() {
    for library in libraries() {
        let (library, mut bench) = (&*library, bench());
        let (on0, on1) =
            (ask(library, &mut bench, 2, Some(0), "A").handle, ask(library, &mut bench, 2, Some(1), "B").handle);
        let whole = bench.clone();
        bench.images[1][81 * 256 + 0x1F] = 1;
        let told = ask(library, &mut bench, 0, None, "A");
        assert_eq!((told.number, &told.outgoing[4..]), (21, &[1, NO_SLOT][..]));
        assert_eq!(found(library, &mut bench, Some(0), "A").0, 0);
        // Drive 1 of 7 bytes.
        bench.images[1].truncate(7);
        let told = ask(library, &mut bench, 1, None, "A");
        assert_eq!((told.number, told.outgoing[4]), (1, 1));
        assert_eq!(by_handle(library, &mut bench, 5, &on0).number, 0);
        let told = by_handle(library, &mut bench, 4, &on0);
        assert_eq!((told.number, told.outgoing[0], told.outgoing[4]), (0, 0, NO_DRIVE));
        let told = by_handle(library, &mut bench, 4, &on1);
        assert_eq!((told.number, told.outgoing[0], told.outgoing[4]), (1, 0, 1));
        let mut on7 = on1.clone();
        on7[19] = 7;
        let told = by_handle(library, &mut bench, 4, &on7);
        assert_eq!((told.number, &told.outgoing[4..]), (16, &[NO_DRIVE, NO_SLOT][..]));
        // A handle of under 20 bytes is one of zeros: 1 and 2 of drive 0, then 12.
        assert_eq!(by_handle(library, &mut bench, 7, &on7[..19]).number, 12);
        // Drive 0's 2 before drive 1's 1.
        bench.images[0][81 * 256 + 0x1F] = 1;
        let told = ask(library, &mut bench, 0, None, "A");
        assert_eq!((told.number, told.outgoing[4]), (21, 0));
        // A part of the drive that has the file, and the other untouched by a write.
        bench = whole;
        let before = bench.images[0].clone();
        assert_eq!(by_handle(library, &mut bench, 5, &on1).number, 0);
        assert_eq!(bench.images[0], before);
        let told = by_handle(library, &mut bench, 4, &on1);
        assert_eq!((told.number, &told.outgoing[..3]), (0, &[1, 1280, 1536][..]));
    }
}

#[test]
fn random_calls_on_two_drives() {
    let (library, mut random) = (linked(), Random::new(SEED));
    let (mut accepted, mut no_drive) = ([0; OPERATIONS], 0);
    for _ in 0..60 {
        let (one, two) = (random_disk(&mut random), random_disk(&mut random));
        if one.image.len() + two.image.len() > 600_000 {
            continue;
        }
        let (these, none) =
            random_calls(&*library, &mut random, [&one, &two], 40).unwrap_or_else(|text| panic!("{text}"));
        accepted.iter_mut().zip(these).for_each(|(sum, these)| *sum += these);
        no_drive += none;
    }
    assert!(accepted.iter().all(|&times| times > 0) && no_drive > 0, "{accepted:?}, {no_drive}");
}
