//! 02 §13: a growth that 01's choice does not serve takes the longest free stretches, and 8 means that nothing fits. Each case on the
//! model and on the linked library.

use genie_model::binding::libraries;
use genie_model::by_hand::{is_consistent, put_file};
use genie_model::calls::ACCEPTED;
use genie_model::directory::{chain, entry, slots};
use genie_model::disks::{empty_disk, Disk};
use genie_model::geometry::Geometry;
use genie_model::handle::Handle;
use genie_model::names::name;
use genie_model::space::permitted;

const FILE: u8 = 0x80;
const D: usize = 10;

/// A disk with the directory at its start, these granules free and no others, the file "A" of these runs, and every other slot that a
/// growth could take in use by an empty file.
fn disk(blocks: usize, units: usize, free: &[usize], runs: &[(usize, usize)]) -> Disk {
    let g = Geometry { blocks, units, start: 0, open_code: 0, system_disk: true, granule_sectors: 5 };
    let reserved: Vec<usize> = (2..g.granules())
        .filter(|n| !free.contains(n) && !runs.iter().any(|&(first, many)| (first..first + many).contains(n)))
        .collect();
    let mut disk = empty_disk(g, D, &reserved);
    put_file(&mut disk, FILE, "A", runs);
    for slot in slots(D).filter(|&slot| permitted(&g, slot) && slot != FILE) {
        put_file(&mut disk, slot, &format!("B{slot}"), &[]);
    }
    is_consistent(&disk, "the case");
    disk
}

/// The runs of the file, first granule and length.
fn runs(disk: &Disk) -> Vec<(usize, usize)> {
    let walked = chain(&disk.image, &disk.g, D, FILE);
    let pairs = walked.iter().flat_map(|&slot| entry(&disk.image, &disk.g, slot).pairs());
    pairs.map(|pair| (pair.run(&disk.g).start, pair.run(&disk.g).len())).collect()
}

/// Allots `more` granules beyond what the file owns: the runs afterwards, or the number and not a byte changed.
fn allot(before: &Disk, more: usize) -> Vec<Result<Vec<(usize, usize)>, u8>> {
    let owned: usize = runs(before).iter().map(|run| run.1).sum();
    let handle = Handle { slot: FILE, level: 0, length: 1, position: 0, name: name("A") }.bytes();
    libraries()
        .into_iter()
        .map(|library| {
            let mut disk = before.clone();
            match library.allot(&mut disk.image, &disk.g, &handle, 5 * (owned + more) - 1, &mut 0) {
                ACCEPTED => {
                    is_consistent(&disk, library.title());
                    Ok(runs(&disk))
                }
                number => {
                    assert_eq!(disk.image, before.image, "{}: a refused growth changed the image", library.title());
                    Err(number)
                }
            }
        })
        .collect()
}

fn gives(before: &Disk, more: usize, wanted: Result<&[(usize, usize)], u8>) {
    for answer in allot(before, more) {
        assert_eq!(answer.as_deref().map_err(|&number| number), wanted, "{more} granules more");
    }
}

fn some(parts: &[std::ops::Range<usize>]) -> Vec<usize> {
    parts.iter().cloned().flatten().collect()
}

#[test]
fn where_01s_choice_fits_it_is_kept() {
    let d = disk(32, 2, &some(&[4..5, 6..7, 8..9, 10..11, 12..13, 20..30]), &[]);
    gives(&d, 4, Ok(&[(4, 1), (6, 1), (8, 1), (10, 1)]));
    gives(&d, 8, Ok(&[(20, 8)]));
    gives(&d, 13, Ok(&[(20, 10), (4, 1), (6, 1), (8, 1)]));
    gives(&d, 14, Err(8));
    gives(&d, 16, Err(9));
}

#[test]
fn the_longest_is_asked_anew_at_each_run() {
    let mut free = some(&[4..5, 6..7, 100..133, 200..232]);
    free.sort_unstable();
    let d = disk(60, 4, &free, &[(10, 1), (12, 1)]);
    gives(&d, 64, Ok(&[(10, 1), (12, 1), (100, 32), (200, 32)]));
    gives(&d, 65, Err(8));
}

#[test]
fn the_last_run_is_lengthened_first() {
    let d = disk(32, 2, &some(&[2..3, 4..5, 18..23, 30..35, 40..45]), &[(6, 1), (8, 1), (15, 3)]);
    gives(&d, 8, Ok(&[(6, 1), (8, 1), (15, 8), (30, 3)]));
    gives(&d, 10, Ok(&[(6, 1), (8, 1), (15, 8), (30, 5)]));
    gives(&d, 11, Err(8));
}

#[test]
fn what_lies_behind_a_run_of_32_is_a_stretch_like_any_other() {
    let d = disk(40, 2, &some(&[2..3, 40..50, 60..62]), &[(4, 1), (6, 1), (9, 31)]);
    gives(&d, 9, Ok(&[(4, 1), (6, 1), (9, 32), (41, 8)]));
}

#[test]
fn the_bytes_of_a_pair() {
    let d = disk(16, 2, &some(&[2..3, 4..5, 6..7, 8..9, 10..11, 20..30]), &[]);
    for library in libraries() {
        let handle = Handle { slot: FILE, level: 0, length: 1, position: 0, name: name("A") }.bytes();
        let mut one = d.clone();
        let mut number = |k| library.allot(&mut one.image, &d.g, &handle, k, &mut 0);
        assert_eq!([number(39), number(75), number(65)], [ACCEPTED, 9, 8], "{}", library.title());
        assert_eq!(entry(&one.image, &d.g, FILE).0[0x16..0x19], [0x0A, 0x07, 0xFF], "{}", library.title());
        assert_eq!(library.allot(&mut one.image, &d.g, &handle, 64, &mut 0), ACCEPTED, "{}", library.title());
        assert_eq!(runs(&one), [(20, 10), (2, 1), (4, 1), (6, 1)], "{}", library.title());
    }
}
