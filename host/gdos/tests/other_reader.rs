//! `gdos load` against a reader that nobody here wrote: srecord's, which knows program files as TRS-80 object files (Debian:
//! srecord). Where it is not installed the test says so and is passed over.

mod common;

use common::Folder;
use std::collections::BTreeMap;
use std::process::Command;

const PROGRAMS: u32 = 24;

/// Numbers that are the same in every run.
struct Drawn(u32);

impl Drawn {
    fn below(&mut self, n: u32) -> u32 {
        self.0 = self.0.wrapping_mul(1_664_525).wrapping_add(1_013_904_223);
        (self.0 >> 8) % n
    }
}

/// A program: comments and data records of every length but the one that practice and rule read differently (count 2), at
/// rising addresses with gaps; then a start address and bytes that belong to nothing.
fn program(drawn: &mut Drawn) -> Vec<u8> {
    let mut bytes = Vec::new();
    let mut address = 0x5200 + drawn.below(0x400) as u16;
    for _ in 0..1 + drawn.below(40) {
        if drawn.below(4) == 0 {
            let length = drawn.below(256) as u8;
            bytes.extend([5, length]);
            bytes.extend((0..length).map(|_| drawn.below(256) as u8));
        }
        let length = match drawn.below(4) {
            0 => 254 + drawn.below(2) as u16,
            _ => 1 + drawn.below(253) as u16,
        };
        bytes.extend([1, (length + 2) as u8]);
        bytes.extend(address.to_le_bytes());
        bytes.extend((0..length).map(|_| drawn.below(256) as u8));
        address += length + drawn.below(3) as u16 * 7;
    }
    bytes.extend([2, 2]);
    bytes.extend((0x5200 + drawn.below(0x1000) as u16).to_le_bytes());
    bytes.extend((0..drawn.below(20)).map(|_| 0xE5));
    bytes
}

/// The memory that Intel HEX fills, and the start address where a record of its own has it (05).
fn memory(hex: &str) -> (BTreeMap<u16, u8>, Option<u16>) {
    let (mut filled, mut start) = (BTreeMap::new(), None);
    for line in hex.lines() {
        let digits = line.strip_prefix(':').expect("a record").trim_end();
        let byte = |i: usize| u8::from_str_radix(&digits[2 * i..2 * i + 2], 16).unwrap();
        let (length, kind) = (byte(0) as u16, byte(3));
        match kind {
            0 => filled.extend((0..length).map(|i| (u16::from_be_bytes([byte(1), byte(2)]) + i, byte(4 + i as usize)))),
            5 => start = Some(u16::from_be_bytes([byte(6), byte(7)])),
            _ => {}
        }
    }
    (filled, start)
}

#[test]
fn program_files_as_srecord_reads_them() {
    if Command::new("srec_cat").arg("--version").output().is_err() {
        println!("skipped: no srec_cat here (Debian: srecord)");
        return;
    }
    let folder = Folder::new("srecord");
    let mut drawn = Drawn(12);
    for number in 0..PROGRAMS {
        let bytes = program(&mut drawn);
        folder.write("prog.cmd", &bytes);
        folder.done(&["new", "d.img", "--preset", "sample", "--force"]);
        folder.done(&["put", "d.img", "prog.cmd"]);
        folder.done(&["load", "d.img", "PROG/CMD", "--hex", "ours.hex", "--force"]);
        let told = folder.gdos(&["load", "d.img", "PROG/CMD", "--json"]).json();
        let words = ["prog.cmd", "-TRS80", "-o", "theirs.hex", "-intel"];
        let theirs = Command::new("srec_cat").args(words).current_dir(folder.root()).output().unwrap();
        assert!(theirs.status.success(), "program {number}: {}", String::from_utf8_lossy(&theirs.stderr));
        let (ours, _) = memory(&String::from_utf8(folder.read("ours.hex")).unwrap());
        let (theirs, start) = memory(&String::from_utf8(folder.read("theirs.hex")).unwrap());
        assert!(ours == theirs && !ours.is_empty(), "program {number}: the memory differs");
        assert_eq!(Some(told.at("start").number()), start.map(u64::from), "program {number}");
    }
}
