//! What `lib.rs` says of threads: every type may be sent and shared, many threads look at one disk, and each may change its own.

use genie_dos::*;
use std::thread;

const GEOMETRY: Geometry = Geometry::new(16, 2, 80, 0x4296);
const THREADS: usize = 8;
const ROUNDS: usize = 100;

fn sent_and_shared<T: Send + Sync>() {}

#[test]
fn every_type_may_be_sent_and_shared() {
    sent_and_shared::<(Disk, Disk<&[u8]>, Disk<&mut [u8]>, Geometry, Name, BadName, Handle, Entry, Date, Run)>();
    sent_and_shared::<(Refusal, Fault, FaultKind, Explained, TracePlace, RefusedImage, RefusedLoad, Unpackable)>();
    sent_and_shared::<(Created, LookUp, Listed, Counts, FreeSpace, BroughtBack, NewFile, Password, Kind)>();
    sent_and_shared::<(Faults, FaultFound, FileFound, Detail, Mended, Step, Remedy, ByteChange, Dropped)>();
    sent_and_shared::<(Unmended, Doubtful, Doubt, Rescued, Map, Cell, Holds, Part, MappedFile, Drawing)>();
    sent_and_shared::<(Difference, Differences, Which, Program, Piece, Loaded, Trace, Recorded, Call)>();
    sent_and_shared::<(Growth, Slots)>();
}

/// A disk with three files, one of them written to by this thread's own byte.
fn written(byte: u8) -> Disk {
    let mut disk = Disk::blank(GEOMETRY, 10, &[0]).unwrap();
    for (number, records) in [3, 0, 7].into_iter().enumerate() {
        let name = format!("PULS{number:02}/DAT").parse().unwrap();
        let mut handle = disk.create(&name, &NewFile::open(GEOMETRY, Date::new(1983, 10, 9))).unwrap().handle;
        for _ in 0..records {
            disk.write_record(&mut handle, Kind::Sequential, &[byte; 256]).unwrap();
        }
    }
    disk
}

/// All that is told of a disk.
fn looked_at(disk: &Disk<impl AsRef<[u8]>>) -> String {
    let mut told = disk.listing().unwrap();
    for entry in disk.entries().unwrap() {
        let handle = disk.open(&entry.name(), 256, Password::Unchecked).unwrap();
        told += &format!("{:?} {:?}\n", entry, disk.contents(&handle).unwrap());
    }
    told + &format!("{:?} {:?}", disk.free_space(), disk.map().unwrap().cells)
}

#[test]
fn many_look_at_one_disk() {
    let disk = written(7);
    let alone = looked_at(&disk);
    thread::scope(|scope| {
        for _ in 0..THREADS {
            scope.spawn(|| (0..ROUNDS).for_each(|_| assert_eq!(looked_at(&disk), alone)));
        }
    });
}

#[test]
fn each_changes_its_own() {
    let alone: Vec<Vec<u8>> = (0..THREADS).map(|byte| written(byte as u8).into_image()).collect();
    thread::scope(|scope| {
        for (byte, alone) in alone.iter().enumerate() {
            scope.spawn(move || (0..ROUNDS).for_each(|_| assert!(written(byte as u8).image() == alone)));
        }
    });
}
