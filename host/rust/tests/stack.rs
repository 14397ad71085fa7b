//! The deepest chain by every call on a thread with a stack of 64 KiB: what docs/STRENGTH.md says of the stack. One file has all 224
//! slots of the longest directory, so that a walk along it visits 224 entries and 224 markers. Where a stack is too small the program
//! ends, and so does the test.

use genie_dos::*;
use genie_model::by_hand::{change, put_extension, put_file, Run};
use genie_model::directory::slots;
use genie_model::disks::empty_disk;
use std::thread;

const STACK: usize = 64 * 1024;
const GEOMETRY: Geometry = Geometry::new(192, 8, 0, 0x4296).with_system_disk(false);
const DIRECTORY_SECTORS: usize = 30;
const ENTRIES: usize = 224;
const RUNS: usize = 4 * ENTRIES;

/// The disk: its file has four runs of one granule in each entry, every second granule, then those between. With the last slot.
fn disk() -> (Disk, u8) {
    let Geometry { blocks, units, start, open_code, system_disk, granule_sectors, .. } = GEOMETRY;
    let geometry = genie_model::geometry::Geometry { blocks, units, start, open_code, system_disk, granule_sectors };
    let mut disk = empty_disk(geometry, DIRECTORY_SECTORS, &[]);
    let first = DIRECTORY_SECTORS / GEOMETRY.granule_sectors;
    let all = first..blocks * units;
    let granules = all.clone().step_by(2).chain(all.skip(1).step_by(2)).take(RUNS);
    let runs: Vec<Run> = granules.map(|granule| (granule, 1)).collect();
    let slots: Vec<u8> = slots(DIRECTORY_SECTORS).collect();
    assert_eq!((runs.len(), slots.len()), (RUNS, ENTRIES));
    put_file(&mut disk, slots[0], "ALL", &runs[..4]);
    for (number, runs) in runs.chunks(4).enumerate().skip(1) {
        put_extension(&mut disk, slots[number], slots[number - 1], "ALL", runs);
    }
    change(&mut disk, slots[0], |entry| entry.set_size(RUNS * GEOMETRY.granule_bytes()));
    (Disk::new(disk.image, GEOMETRY), slots[ENTRIES - 1])
}

/// Runs it on a small stack.
fn on_a_small_stack(work: impl FnOnce() + Send) {
    thread::scope(|scope| {
        let small = thread::Builder::new().stack_size(STACK).spawn_scoped(scope, work);
        small.expect("a thread").join().expect("it ends well");
    });
}

#[test]
fn every_call_on_the_deepest_chain() {
    let (mut disk, _) = disk();
    let name: Name = "ALL".parse().unwrap();
    let size = RUNS * GEOMETRY.granule_bytes();
    let mut content = vec![0; size];
    let new = NewFile::open(GEOMETRY, Date::new(1983, 10, 9));
    on_a_small_stack(|| {
        disk.check().unwrap();
        let slot = disk.look_up(&name).slot.unwrap();
        let mut handle = disk.open(&name, 256, Password::Unchecked).unwrap();
        disk.read_bytes(&mut handle, &mut content).unwrap();
        handle.set_position(size as u32 - 256);
        disk.read_record(&mut handle, &mut [0; 256]).unwrap();
        assert_eq!(disk.read_sector(&handle, size / 256 - 1).unwrap().len(), 256);
        assert_eq!(disk.list(0).unwrap().unwrap().granules, RUNS);
        assert_eq!(disk.files().unwrap().len(), 1);
        assert_eq!(disk.count().unwrap().files, 1);
        assert!(disk.free_space().unwrap().free > 0);
        assert_eq!(disk.differences(&disk).unwrap().count(), 0);
        // Its last byte begins no record of a program.
        handle.set_position(size as u32 - 1);
        assert!(disk.load_record(&mut handle, &mut [0; 255]).is_err());

        handle.set_position(0);
        disk.write_bytes(&mut handle, Kind::Random, &content).unwrap();
        // No slot is left for another run.
        assert_eq!(disk.write_record(&mut handle, Kind::Sequential, &[1; 256]), Err(Refusal::NoSlot));
        assert_eq!(disk.create(&"NEU".parse().unwrap(), &new), Err(Refusal::NoSlot));
        // One name, and a read of 256 bytes.
        let mut trace = Vec::from(*b"\x01ALL        ");
        trace.extend([0xe0, 0, 0, 0, 0x80, 0, 0, 0, 0, 0, 0, 0, 0, 0]);
        assert_eq!(disk.play(&trace), Ok(vec![None]));
        disk.kill(&handle).unwrap();
        assert_eq!(disk.bring_back(slot.into()).unwrap().slots, ENTRIES);
        handle.set_position(1);
        disk.write_bytes(&mut handle, Kind::Sequential, &[]).unwrap();
        disk.trim(&handle).unwrap();
        disk.allot(&handle, size / 256 - 1).unwrap();
        assert_eq!(disk.files().unwrap()[0].granules, RUNS);
    });
}

/// The same chain where it is not whole: its last entry leads on to a slot that is none, and back to its first entry.
#[test]
fn a_fault_at_the_end_of_the_deepest_chain() {
    let (whole, last) = disk();
    let slots = [0x1f, 0x00];
    let place = (usize::from(last % 32) + 2) * 256 + usize::from(last / 32) * 32;
    for slot in slots {
        let mut image = whole.image().to_vec();
        image[place + 0x1e..place + 0x20].copy_from_slice(&[0xfe, slot]);
        let damaged = Disk::new(image, GEOMETRY);
        on_a_small_stack(|| {
            let refusal = damaged.check().unwrap_err();
            assert!(matches!(refusal, Refusal::Inconsistent(_)), "{refusal:?}");
            assert_eq!(damaged.open(&"ALL".parse().unwrap(), 256, Password::Unchecked), Err(refusal));
        });
    }
}
