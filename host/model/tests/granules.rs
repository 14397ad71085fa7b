//! Larger granules (02 §10), on the model and on the linked library: 10 and 20 sectors beside 01's 5. What hangs on the size, by the
//! numbers that 02 gives for it, and what does not.

use genie_model::binding::libraries;
use genie_model::by_hand::{change, is_consistent, put_file, tells};
use genie_model::calls::{Birth, Number, ACCEPTED, GEOMETRY, NO_GRANULES, PAST_SIZE, RANGE};
use genie_model::directory::{chain, directory_place, entry, hit_place, owned, set_taken, Pair, LENGTH_PLACE};
use genie_model::disks::{empty_disk, Disk};
use genie_model::fault::Kind;
use genie_model::geometry::Geometry;
use genie_model::handle::{Handle, HANDLE_BYTES};
use genie_model::library::Library;
use genie_model::names::name;
use genie_model::pairs::{side, tell_all};

const FILE: u8 = 0x80;
/// The sizes of a granule, in sectors.
const SIZES: [usize; 3] = [5, 10, 20];
/// The lengths of a directory, in sectors.
const LENGTHS: [usize; 5] = [10, 15, 20, 25, 30];

fn geometry(blocks: usize, units: usize, start: usize, granule_sectors: usize) -> Geometry {
    Geometry { blocks, units, start, open_code: 0, system_disk: true, granule_sectors }
}

/// 8 blocks of 2 units, granules of 10 sectors, the directory at sector 40: 40,960 bytes.
fn disk(d: usize) -> Disk {
    let disk = empty_disk(geometry(8, 2, 40, 10), d, &[]);
    assert_eq!(disk.image.len(), 40_960);
    disk
}

/// The same with an empty file.
fn disk_with_file() -> Disk {
    let mut disk = disk(15);
    put_file(&mut disk, FILE, "A", &[]);
    disk
}

fn handle(position: usize, length: u16) -> [u8; HANDLE_BYTES] {
    Handle { slot: FILE, level: 0, length, position: position as u32, name: name("A") }.bytes()
}

fn free(library: &dyn Library, disk: &Disk) -> (Number, usize) {
    let (mut files, mut free) = (9, 9);
    let number = library.count(&disk.image, &disk.g, &mut files, &mut free, &mut 0);
    (number, free)
}

/// The granules of the file.
fn granules(disk: &Disk) -> Vec<usize> {
    let d = genie_model::directory::directory_sectors(&disk.image, &disk.g).expect("a good length");
    owned(&disk.image, &disk.g, d, FILE)
}

#[test]
fn the_directory_of_15_sectors_has_two_granules_of_10() {
    let whole = disk(15);
    is_consistent(&whole, "an empty disk");
    for library in libraries() {
        assert_eq!(free(&*library, &whole), (ACCEPTED, 14), "{}", library.title());
    }
    // Its last sectors are in granule 5, which no file may have, and which the GAT has to mark.
    let mut in_a_file = whole.clone();
    put_file(&mut in_a_file, FILE, "A", &[(5, 1)]);
    tells(&in_a_file, Kind::DirectoryGranule, Some(FILE), "a file with granule 5");
    let mut clear = whole.clone();
    set_taken(&mut clear.image, &whole.g, 5, false);
    tells(&clear, Kind::DirectoryGranule, None, "granule 5 free");
    // With 10 sectors it is in granule 4 alone.
    let mut short = disk(10);
    put_file(&mut short, FILE, "A", &[(5, 1)]);
    is_consistent(&short, "a file with granule 5, beside the directory");
    put_file(&mut short, FILE, "A", &[(4, 1)]);
    tells(&short, Kind::DirectoryGranule, Some(FILE), "a file with granule 4");
}

#[test]
fn every_granule_that_the_directory_touches_is_its_own() {
    let counts = [[2, 3, 4, 5, 6], [1, 2, 2, 3, 3], [1, 1, 1, 2, 2]];
    for (s, counts) in SIZES.into_iter().zip(counts) {
        for (d, count) in LENGTHS.into_iter().zip(counts) {
            let what = format!("granules of {s} sectors, a directory of {d}");
            // From granule 3 on.
            let g = geometry(5, 3, 3 * s, s);
            let mut whole = empty_disk(g, d, &[]);
            whole.image[directory_place(&g)..][..5].fill(0);
            (3..3 + count).for_each(|granule| set_taken(&mut whole.image, &g, granule, true));
            is_consistent(&whole, &what);
            for granule in 0..15 {
                let its_own = (3..3 + count).contains(&granule);
                let mut other = whole.clone();
                put_file(&mut other, FILE, "A", &[(granule, 1)]);
                match its_own {
                    true => {
                        tells(&other, Kind::DirectoryGranule, Some(FILE), &format!("{what}, {granule} in a file"))
                    }
                    false => is_consistent(&other, &format!("{what}, {granule} in a file")),
                }
                let mut clear = whole.clone();
                set_taken(&mut clear.image, &g, granule, false);
                match its_own {
                    true => tells(&clear, Kind::DirectoryGranule, None, &format!("{what}, {granule} free")),
                    false => is_consistent(&clear, &format!("{what}, {granule} free")),
                }
            }
        }
    }
}

#[test]
fn the_directory_fits_by_its_sectors() {
    // One granule of 20 sectors holds a directory of 10, 15 or 20 of them.
    let g = geometry(1, 1, 0, 20);
    for above in 0..=255 {
        let mut one = empty_disk(g, 10, &[]);
        one.image[hit_place(&g, LENGTH_PLACE as u8)] = above;
        match above {
            0 | 5 | 10 => is_consistent(&one, &format!("1FH is {above}")),
            _ => tells(&one, Kind::DirectoryLength, None, &format!("1FH is {above}")),
        }
    }
    // Two granules of 10 behind the start hold 20.
    for (above, fits) in [(10, true), (15, false), (20, false)] {
        let g = geometry(4, 2, 60, 10);
        let mut end = empty_disk(g, 20, &[]);
        end.image[hit_place(&g, LENGTH_PLACE as u8)] = above;
        match fits {
            true => is_consistent(&end, "a directory up to the end"),
            false => tells(&end, Kind::DirectoryLength, None, "a directory past the end"),
        }
    }
}

#[test]
fn the_start_is_a_multiple_of_the_size() {
    for s in SIZES {
        let good = empty_disk(geometry(8, 2, 2 * s, s), 10, &[]);
        is_consistent(&good, "a multiple of the size");
        for start in (0..8 * 2 * s + 20).filter(|start| !start.is_multiple_of(s)) {
            for library in libraries() {
                let g = Geometry { start, ..good.g };
                assert_eq!(library.check(&good.image, &g, &mut 0), GEOMETRY, "{s}, {start}: {}", library.title());
            }
        }
    }
    for library in libraries() {
        let g = Geometry { start: 45, ..disk(15).g };
        assert_eq!(library.check(&disk(15).image, &g, &mut 0), GEOMETRY, "{}", library.title());
    }
}

#[test]
fn no_other_size_is_one() {
    let any =
        [0, 1, 2, 4, 6, 9, 11, 15, 19, 21, 25, 40, 80, 255, 256, 261, 1 << 32, (1 << 32) + 10, 1 << 63, usize::MAX];
    for granule_sectors in any {
        for bytes in [40_960, 16 * 1280, 16 * granule_sectors.min(100) * 256] {
            let image = vec![0; bytes];
            for start in [0, 40, granule_sectors] {
                let g = Geometry { granule_sectors, ..geometry(8, 2, start, 10) };
                for library in libraries() {
                    let what = format!("{granule_sectors} sectors, {bytes} bytes: {}", library.title());
                    assert_eq!(library.check(&image, &g, &mut 0), GEOMETRY, "{what}");
                    assert_eq!(library.free(&image, &g, &mut 0, &mut 0), GEOMETRY, "{what}");
                }
            }
        }
    }
}

#[test]
fn the_image_has_so_many_bytes() {
    for (s, bytes) in [(5, 1280), (10, 2560), (20, 5120)] {
        let g = geometry(3, 4, 0, s);
        assert_eq!(empty_disk(g, 10, &[]).image.len(), 12 * bytes);
        for (length, wanted) in [(12 * bytes, ACCEPTED), (12 * bytes - 1, GEOMETRY), (12 * bytes + 1, GEOMETRY)] {
            let mut image = empty_disk(g, 10, &[]).image;
            image.resize(length, 0);
            for library in libraries() {
                assert_eq!(library.check(&image, &g, &mut 0), wanted, "{s}, {length}: {}", library.title());
            }
        }
    }
}

#[test]
fn allot_counts_in_granules_of_the_size() {
    for library in libraries() {
        for (k, wanted, owned) in [
            (0, ACCEPTED, 1),
            (9, ACCEPTED, 1),
            (10, ACCEPTED, 2),
            (19, ACCEPTED, 2),
            (20, ACCEPTED, 3),
            (139, ACCEPTED, 14),
            (140, NO_GRANULES, 0),
            (7_679, NO_GRANULES, 0),
            (7_680, NO_GRANULES, 0),
            (15_359, NO_GRANULES, 0),
            (15_360, RANGE, 0),
        ] {
            let mut disk = disk_with_file();
            assert_eq!(library.allot(&mut disk.image, &disk.g, &handle(0, 1), k, &mut 0), wanted, "sector {k}");
            assert_eq!(granules(&disk).len(), owned, "sector {k}: {}", library.title());
        }
    }
}

#[test]
fn a_size_needs_so_many_granules() {
    for (s, width) in [(5, 1280), (10, 2560), (20, 5120)] {
        for (size, kept) in [(0, 0), (1, 1), (width, 1), (width + 1, 2), (2 * width, 2), (2 * width + 1, 3)] {
            let mut many = empty_disk(geometry(8, 2, 4 * s, s), 10, &[]);
            put_file(&mut many, FILE, "A", &[(0, 4)]);
            change(&mut many, FILE, |e| e.set_size(size));
            for library in libraries() {
                let mut disk = many.clone();
                assert_eq!(library.trim(&mut disk.image, &disk.g, &handle(0, 1), &mut 0), ACCEPTED);
                assert_eq!(granules(&disk).len(), kept, "{s}: {size} bytes, {}", library.title());
                // A write takes as many.
                if size > 0 {
                    let mut disk = empty_disk(many.g, 10, &[]);
                    put_file(&mut disk, FILE, "A", &[]);
                    let mut lent = handle(size - 1, 1);
                    assert_eq!(
                        library.write_record(&mut disk.image, &disk.g, &mut lent, true, &[7], &mut 0),
                        ACCEPTED
                    );
                    assert_eq!(granules(&disk).len(), kept, "{s}: {size} bytes written, {}", library.title());
                }
            }
        }
        // And no size is larger than the granules owned.
        let mut one = empty_disk(geometry(8, 2, 4 * s, s), 10, &[]);
        put_file(&mut one, FILE, "A", &[(1, 1)]);
        change(&mut one, FILE, |e| e.set_size(width));
        is_consistent(&one, "a full granule");
        change(&mut one, FILE, |e| e.set_size(width + 1));
        tells(&one, Kind::Size, Some(FILE), "a byte more than a granule");
    }
}

#[test]
fn the_sectors_of_a_pair() {
    // 11H 42H: block 17, unit 2, three granules; of 3 units in a block they are 53, 54 and 55.
    for (s, first) in [(5, 265), (10, 530), (20, 1_060)] {
        let g = geometry(40, 3, 0, s);
        let mut disk = empty_disk(g, 10, &[]);
        let pair = Pair { block: 0x11, unit: 2, further: 2 };
        put_file(&mut disk, FILE, "A", &[(pair.run(&g).start, 3)]);
        change(&mut disk, FILE, |e| e.set_size(3 * s * 256));
        let e = entry(&disk.image, &g, FILE);
        assert_eq!((e.0[0x16], e.0[0x17]), (0x11, 0x42));
        for library in libraries() {
            for k in 0..3 * s {
                let (mut from, mut to) = (0, 0);
                let number = library.read_sector(&disk.image, &g, &handle(0, 1), k, &mut from, &mut to, &mut 0);
                let wanted = (first + k) * 256;
                assert_eq!((number, from, to), (ACCEPTED, wanted, wanted + 256), "{s}, {k}: {}", library.title());
            }
            let (mut from, mut to) = (9, 9);
            let number = library.read_sector(&disk.image, &g, &handle(0, 1), 3 * s, &mut from, &mut to, &mut 0);
            assert_eq!((number, from, to), (PAST_SIZE, 0, 0), "{s}: {}", library.title());
        }
    }
}

#[test]
fn the_highest_position_and_sector_hang_on_the_size_alone() {
    for (s, highest, sector) in [(5, 1_966_080, 7_679), (10, 3_932_160, 15_359), (20, 7_864_320, 30_719)] {
        let mut small = empty_disk(geometry(8, 2, 4 * s, s), 10, &[]);
        put_file(&mut small, FILE, "A", &[]);
        for library in libraries() {
            let what = format!("{s}: {}", library.title());
            let read =
                |position| library.read_record(&small.image, &small.g, &mut handle(position, 1), &mut [0], &mut 0);
            assert_eq!([read(highest), read(highest + 1)], [PAST_SIZE, RANGE], "{what}");
            let write = |position| {
                let mut image = small.image.clone();
                let number =
                    library.write_record(&mut image, &small.g, &mut handle(position, 2), false, &[1, 2], &mut 0);
                assert_eq!(image, small.image, "{what}");
                number
            };
            assert_eq!(
                [write(highest - 2), write(highest - 1), write(highest)],
                [NO_GRANULES, RANGE, RANGE],
                "{what}"
            );
            let sectors = |k| library.read_sector(&small.image, &small.g, &handle(0, 1), k, &mut 0, &mut 0, &mut 0);
            assert_eq!([sectors(sector), sectors(sector + 1)], [PAST_SIZE, RANGE], "{what}");
            // Calls that do not use the position test it too.
            let trim = |position| library.trim(&mut small.image.clone(), &small.g, &handle(position, 1), &mut 0);
            assert_eq!([trim(highest), trim(highest + 1)], [ACCEPTED, RANGE], "{what}");
        }
    }
}

#[test]
fn the_largest_file_of_the_largest_disk() {
    let g = geometry(192, 8, 0, 20);
    let blank = empty_disk(g, 10, &[]);
    assert_eq!(blank.image.len(), 7_864_320);
    let birth = Birth { day: 0, month: 0, year: 0, length: 1, main_code: 0, worker_code: 0, checking: true };
    for library in libraries() {
        let mut image = blank.image.clone();
        let mut lent = [0; HANDLE_BYTES];
        assert_eq!(library.create(&mut image, &g, &name("A"), &birth, &mut 0, &mut lent, &mut 0, &mut 0), ACCEPTED);
        assert_eq!(lent[0], FILE);
        // The directory has one granule of 1,536. One byte more than the others hold is 9, and the last position there is 9 too.
        let mut one_more = handle(7_859_200, 1);
        for position in [7_859_200, 7_864_319] {
            one_more[4..8].copy_from_slice(&u32::to_le_bytes(position));
            assert_eq!(library.write_record(&mut image, &g, &mut one_more, true, &[9], &mut 0), NO_GRANULES);
        }
        let mut last = handle(7_859_199, 1);
        assert_eq!(library.write_record(&mut image, &g, &mut last, true, &[9], &mut 0), ACCEPTED);
        assert_eq!(library.check(&image, &g, &mut 0), ACCEPTED);
        let e = entry(&image, &g, FILE);
        assert_eq!((e.sector_count(), e.end_byte(), e.size()), (30_700, 0, Some(7_859_200)));
        // 1,535 granules are 48 runs in 12 entries.
        assert_eq!(owned(&image, &g, 10, FILE), (1..1_536).collect::<Vec<_>>());
        assert_eq!(chain(&image, &g, 10, FILE).len(), 12);
        assert_eq!(image[image.len() - 1], 9);
        assert!(image[20 * 256..image.len() - 1].iter().all(|&byte| byte == 0), "{}", library.title());

        let (mut from, mut to) = (0, 0);
        let number = library.read_sector(&image, &g, &handle(0, 1), 30_699, &mut from, &mut to, &mut 0);
        assert_eq!((number, from, to), (ACCEPTED, 7_864_064, 7_864_320));
        assert_eq!(library.read_sector(&image, &g, &handle(0, 1), 30_700, &mut from, &mut to, &mut 0), PAST_SIZE);
        let (mut told, mut size, mut granules, mut more) = ([0; 11], 0, 0, 0);
        let number = library.list(&image, &g, 0, &mut told, &mut size, &mut granules, &mut more, &mut 0);
        assert_eq!((number, size, granules, more), (ACCEPTED, 7_859_200, 1_535, 1));
        assert_eq!(library.kill(&mut image, &g, &handle(0, 1), &mut 0), ACCEPTED);
        let (mut slots, mut back) = (0, 0);
        assert_eq!(library.bring_back(&mut image, &g, FILE.into(), &mut slots, &mut back, &mut 0), ACCEPTED);
        assert_eq!((slots, back), (12, 1_535), "{}", library.title());
    }
}

#[test]
fn the_sectors_behind_the_directory_stay() {
    // A directory of 25 sectors of 20: fifteen more belong to its second granule.
    let g = geometry(6, 2, 40, 20);
    let mut disk = empty_disk(g, 25, &[]);
    let behind = (40 + 25) * 256..(40 + 40) * 256;
    for (i, byte) in disk.image[behind.clone()].iter_mut().enumerate() {
        *byte = (i % 251) as u8 ^ 0xA5;
    }
    let birth = Birth { day: 1, month: 1, year: 1, length: 256, main_code: 0, worker_code: 0, checking: true };
    for library in libraries() {
        let mut image = disk.image.clone();
        let mut lent = [0; HANDLE_BYTES];
        assert_eq!(library.create(&mut image, &g, &name("A"), &birth, &mut 0, &mut lent, &mut 0, &mut 0), ACCEPTED);
        // All ten granules that are free, filled.
        for _ in 0..10 * 20 {
            assert_eq!(library.write_record(&mut image, &g, &mut lent, true, &[0x11; 256], &mut 0), ACCEPTED);
        }
        assert_eq!(library.write_record(&mut image, &g, &mut lent, true, &[0x11; 256], &mut 0), NO_GRANULES);
        assert_eq!(library.trim(&mut image, &g, &lent, &mut 0), ACCEPTED);
        assert_eq!(library.kill(&mut image, &g, &lent, &mut 0), ACCEPTED);
        assert!(image[behind.clone()] == disk.image[behind.clone()], "{}", library.title());
    }
}

#[test]
fn compare_does_not_see_the_size() {
    let bytes: Vec<u8> = (0..12_000).map(|i| (i % 253) as u8).collect();
    let disks: Vec<Disk> = SIZES
        .into_iter()
        .map(|s| {
            let g = geometry(20, 3, 6 * s, s);
            let mut disk = empty_disk(g, 15, &[]);
            let count = bytes.len().div_ceil(s * 256);
            // In two runs, the later granules first.
            put_file(&mut disk, FILE, "A", &[(30, 1), (20, count - 1)]);
            change(&mut disk, FILE, |e| e.set_size(bytes.len()));
            for (part, granule) in bytes.chunks(s * 256).zip(std::iter::once(30).chain(20..)) {
                disk.image[granule * s * 256..][..part.len()].copy_from_slice(part);
            }
            is_consistent(&disk, &format!("{s} sectors"));
            disk
        })
        .collect();
    for library in libraries() {
        for (first, second) in disks.iter().flat_map(|first| disks.iter().map(move |second| (first, second))) {
            assert_eq!(tell_all(&*library, side(first), side(second)), Ok(Vec::new()), "{}", library.title());
            // The byte at 6,000 is in another granule on each disk.
            let mut other = second.clone();
            let granule = granules(&other)[6_000 / other.g.granule_bytes()];
            other.image[granule * other.g.granule_bytes() + 6_000 % other.g.granule_bytes()] ^= 1;
            let told = tell_all(&*library, side(first), side(&other)).expect("both are consistent");
            assert_eq!(told.iter().map(|one| one.position).collect::<Vec<_>>(), [6_000], "{}", library.title());
        }
    }
}
