//! Data disks (02 §4), on the model and on the linked library: which slots files get, and when there is none.

use genie_model::binding::libraries;
use genie_model::calls::{Birth, Number, ACCEPTED};
use genie_model::consistency::faults;
use genie_model::directory::{hit_place, put_entry, set_taken, slots, taken, Entry};
use genie_model::disks::{empty_disk, Disk};
use genie_model::geometry::Geometry;
use genie_model::handle::HANDLE_BYTES;
use genie_model::library::Library;
use genie_model::names::{hash, name};
use genie_model::space::permitted;

const NO_SLOTS: Number = 8;

fn geometry(system_disk: bool) -> Geometry {
    Geometry { blocks: 16, units: 2, start: 80, open_code: 0, system_disk, granule_sectors: 5 }
}

/// Creates a file: the number, and the slot of its handle.
fn create(library: &dyn Library, disk: &mut Disk, text: &str) -> (Number, u8) {
    let birth = Birth { day: 9, month: 10, year: 3, length: 256, main_code: 0, worker_code: 0, checking: false };
    let mut handle = [0; HANDLE_BYTES];
    let number = library.create(&mut disk.image, &disk.g, &name(text), &birth, &mut 9, &mut handle, &mut 0, &mut 0);
    (number, handle[0])
}

/// Creates files until one is refused: their slots, and the number of the refusal.
fn fill(library: &dyn Library, disk: &mut Disk) -> (Vec<u8>, Number) {
    let mut filled = Vec::new();
    loop {
        match create(library, disk, &format!("F{}", filled.len())) {
            (ACCEPTED, slot) => filled.push(slot),
            (number, _) => return (filled, number),
        }
    }
}

#[test]
fn the_first_slot() {
    for library in libraries() {
        for (system_disk, d, first) in [(true, 10, 0x80), (true, 15, 0x08), (false, 10, 0x02), (false, 15, 0x02)] {
            let mut disk = empty_disk(geometry(system_disk), d, &[0]);
            assert_eq!(create(&*library, &mut disk, "A"), (ACCEPTED, first), "{}: {d} sectors", library.title());
        }
        let mut disk = empty_disk(geometry(false), 10, &[0]);
        let seven: Vec<u8> = (0..7).map(|i| create(&*library, &mut disk, &format!("S{i}")).1).collect();
        assert_eq!(seven, [0x02, 0x03, 0x04, 0x05, 0x06, 0x07, 0x20], "{}", library.title());
    }
}

/// 62 to 222 files on a data disk, 32 to 192 on a system disk, by rising slot; the next is 8, and the disk is consistent under both.
#[test]
fn filled() {
    for library in libraries() {
        for d in [10, 15, 20, 25, 30] {
            for (system_disk, kept) in [(true, 32), (false, 2)] {
                let mut disk = empty_disk(geometry(system_disk), d, &[0]);
                let (filled, number) = fill(&*library, &mut disk);
                let title = format!("{}: {d} sectors, system disk {system_disk}", library.title());
                assert_eq!((filled.len(), number), (8 * (d - 2) - kept, NO_SLOTS), "{title}");
                let all: Vec<u8> = slots(d).filter(|&slot| permitted(&disk.g, slot)).collect();
                assert_eq!(filled, all, "{title}");
                for stated in [true, false] {
                    let g = geometry(stated);
                    assert_eq!(faults(&disk.image, &g), [], "{title}");
                    assert_eq!(library.check(&disk.image, &g, &mut 0), ACCEPTED, "{title}");
                }
            }
        }
    }
}

/// A data disk with 05H the only free slot and granules 0 2 4 6 8 the only free ones: the fifth run of a file in 02H is in an extension at
/// 05H. Stated as a system disk, the same disk has no slot for it.
#[test]
fn an_extension() {
    for library in libraries() {
        let mut disk = empty_disk(geometry(false), 10, &[]);
        for granule in (0..32).filter(|granule| ![0, 2, 4, 6, 8].contains(granule)) {
            if !taken(&disk.image, &disk.g, granule) {
                set_taken(&mut disk.image, &disk.g, granule, true);
            }
        }
        let mut handle = [0; HANDLE_BYTES];
        for slot in slots(10).filter(|&slot| slot != 0x05) {
            let text = format!("F{slot}");
            let mut e = Entry([0; 32]);
            e.0[0x00] = 0x10;
            e.0[0x05..0x10].copy_from_slice(&name(&text));
            e.0[0x16..].fill(0xFF);
            put_entry(&mut disk.image, &disk.g, slot, &e);
            disk.image[hit_place(&disk.g, slot)] = hash(&name(&text));
        }
        let open = library.open(&disk.image, &disk.g, &name("F2"), 256, false, 0, &mut handle, &mut 0, &mut 0);
        assert_eq!((open, handle[0]), (ACCEPTED, 0x02), "{}", library.title());
        let mut refused = disk.image.clone();
        assert_eq!(
            library.allot(&mut refused, &geometry(true), &handle, 24, &mut 0),
            NO_SLOTS,
            "{}",
            library.title()
        );
        assert!(refused == disk.image, "{}: a refused call changes nothing", library.title());
        assert_eq!(library.allot(&mut disk.image, &disk.g, &handle, 24, &mut 0), ACCEPTED, "{}", library.title());
        assert_eq!(disk.image[hit_place(&disk.g, 0x05)], hash(&name("F2")), "{}", library.title());
        assert_eq!(faults(&disk.image, &disk.g), [], "{}", library.title());
    }
}
