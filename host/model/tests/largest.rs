//! The largest disk, 192 blocks of 8 units: the ends of all ranges. On the model and on the linked
//! library.

use genie_model::binding::libraries;
use genie_model::calls::ACCEPTED;
use genie_model::directory::{hit_place, owned, put_entry, set_taken, Entry, Pair};
use genie_model::disks::{empty_disk, Disk};
use genie_model::geometry::Geometry;
use genie_model::handle::Handle;
use genie_model::names::{hash, name};

const SLOT: u8 = 0x00;
/// "position (0 to 1,966,080)"
const HIGHEST_POSITION: usize = 1_966_080;
/// "sector 0 to 7,679"
const HIGHEST_SECTOR: usize = 7_679;

/// One file that owns the granules from `first` on, in runs of 32, in the slots 00H, 01H, 20H, 21H, ...
fn disk_of_one_file(start: usize, first: usize, system: bool) -> Disk {
    let g = Geometry { blocks: 192, units: 8, start, open_code: 0, system_disk: true, granule_sectors: 5 };
    let mut disk = empty_disk(g, 10, &[]);
    for (i, byte) in disk.image.iter_mut().enumerate() {
        let sector = i / 256;
        if sector < start || sector >= start + 10 {
            *byte = (i % 251) as u8;
        }
    }
    let runs: Vec<usize> = (first..g.granules()).step_by(32).collect();
    let slots: Vec<u8> = (0..=255).filter(|slot| slot % 32 < 2).collect();
    for (i, entry_runs) in runs.chunks(4).enumerate() {
        let mut e = Entry([0; 32]);
        e.0[0x16..].fill(0xFF);
        if i == 0 {
            e.0[0x00] = if system { 0x50 } else { 0x10 };
            e.0[0x05..0x10].copy_from_slice(&name("ALL"));
            e.set_size((g.granules() - first) * 1280);
        } else {
            (e.0[0x00], e.0[0x01]) = (0x90, slots[i - 1]);
        }
        for (pair, &from) in entry_runs.iter().enumerate() {
            let to = g.granules().min(from + 32);
            let further = (to - from - 1) as u8;
            e.set_pair(pair, Pair { further, ..Pair::of_granule(&g, from) });
            (from..to).for_each(|granule| set_taken(&mut disk.image, &g, granule, true));
        }
        if i + 1 < runs.chunks(4).len() {
            e.set_link(0xFE, slots[i + 1]);
        }
        put_entry(&mut disk.image, &g, slots[i], &e);
        disk.image[hit_place(&g, slots[i])] = hash(&name("ALL"));
    }
    disk
}

fn handle(position: usize, length: u16) -> [u8; 19] {
    let position = position as u32;
    Handle { slot: SLOT, level: 0, length, position, name: name("ALL") }.bytes()
}

#[test]
fn a_system_file_of_1966080_bytes() {
    let disk = disk_of_one_file(0, 0, true);
    assert_eq!(owned(&disk.image, &disk.g, 10, SLOT).len(), 1536);
    for library in libraries() {
        assert_eq!(library.check(&disk.image, &disk.g, &mut 0), ACCEPTED, "{}", library.title());
        let mut lent = handle(HIGHEST_POSITION - 256, 256);
        let mut buffer = [0; 256];
        assert_eq!(library.read_record(&disk.image, &disk.g, &mut lent, &mut buffer, &mut 0), ACCEPTED);
        assert_eq!(buffer, disk.image[HIGHEST_POSITION - 256..]);
        assert_eq!(lent, handle(HIGHEST_POSITION, 256));
        assert_eq!(library.read_record(&disk.image, &disk.g, &mut lent, &mut buffer, &mut 0), 10);
        let (mut from, mut to) = (0, 0);
        let number = library.read_sector(&disk.image, &disk.g, &lent, HIGHEST_SECTOR, &mut from, &mut to, &mut 0);
        assert_eq!((number, from, to), (ACCEPTED, HIGHEST_POSITION - 256, HIGHEST_POSITION));
        let (mut files, mut free) = (9, 9);
        assert_eq!(library.count(&disk.image, &disk.g, &mut files, &mut free, &mut 0), ACCEPTED);
        assert_eq!((files, free), (0, 0));
    }
}

#[test]
fn another_file_of_1963520_bytes() {
    // The directory in front; the file has all the rest.
    let disk = disk_of_one_file(0, 2, false);
    for library in libraries() {
        let mut image = disk.image.clone();
        let (mut told, mut size, mut granules, mut more) = ([0; 11], 0, 0, 0);
        let number = library.list(&image, &disk.g, 0, &mut told, &mut size, &mut granules, &mut more, &mut 0);
        assert_eq!((number, told, size, granules, more), (ACCEPTED, name("ALL"), 1_963_520, 1534, 1));
        let end = 1_963_520;
        let write = |image: &mut [u8], position: usize| {
            library.write_record(image, &disk.g, &mut handle(position, 256), false, &[0x5A; 256], &mut 0)
        };
        assert_eq!(write(&mut image, end - 256), ACCEPTED);
        assert_eq!(image[image.len() - 256..], [0x5A; 256]);
        assert_eq!(write(&mut image, end - 255), 9);
        assert_eq!(write(&mut image, HIGHEST_POSITION - 256), 9);
        assert_eq!(write(&mut image, HIGHEST_POSITION - 255), 12);
        // Kill gives all of it back.
        assert_eq!(library.kill(&mut image, &disk.g, &handle(0, 1), &mut 0), ACCEPTED);
        let (mut files, mut free) = (9, 9);
        assert_eq!(library.count(&image, &disk.g, &mut files, &mut free, &mut 0), ACCEPTED);
        assert_eq!((files, free), (0, 1534), "{}", library.title());
    }
}

#[test]
fn the_whole_disk_taken_at_once() {
    let g = Geometry { blocks: 192, units: 8, start: 0, open_code: 0, system_disk: true, granule_sectors: 5 };
    for library in libraries() {
        let mut image = empty_disk(g, 10, &[]).image;
        let mut lent = [0; 19];
        let birth = genie_model::calls::Birth {
            day: 0,
            month: 0,
            year: 0,
            length: 1,
            main_code: 0,
            worker_code: 0,
            checking: true,
        };
        assert_eq!(
            library.create(&mut image, &g, &name("ALL"), &birth, &mut 0, &mut lent, &mut 0, &mut 0),
            ACCEPTED
        );
        lent[4..8].copy_from_slice(&(1_963_519u32).to_le_bytes());
        assert_eq!(library.write_record(&mut image, &g, &mut lent, true, &[9], &mut 0), ACCEPTED);
        assert_eq!(library.check(&image, &g, &mut 0), ACCEPTED);
        // 1534 granules are 48 runs in 12 entries: slot 80H and the eleven permitted ones after it.
        let slot = lent[0];
        assert_eq!((slot, owned(&image, &g, 10, slot).len()), (0x80, 1534));
        assert_eq!(genie_model::directory::chain(&image, &g, 10, slot).len(), 12);
        assert!(image[2560..image.len() - 1].iter().all(|&byte| byte == 0), "{}", library.title());
        assert_eq!(library.trim(&mut image, &g, &lent, &mut 0), ACCEPTED);
        assert_eq!(owned(&image, &g, 10, slot).len(), 1534);
    }
}
