//! A fault in words: number and slot are the library's, the words are this crate's, read off the image.

use genie_dos::*;

/// 16 blocks of 2 units; directory at sector 80, so granules 16 and 17.
const GEOMETRY: Geometry = Geometry::new(16, 2, 80, 0x4296);

fn entry_at(slot: u8) -> usize {
    (GEOMETRY.start + usize::from(slot % 32) + 2) * 256 + 32 * usize::from(slot / 32)
}

fn hit_at(slot: u8) -> usize {
    (GEOMETRY.start + 1) * 256 + usize::from(slot)
}

/// PULS01/DAT in slots 80H and 82H, runs of one granule each (1, 3, 5, 7, 9), 6,000 bytes; LEER in slot 81H (2, 4, 6, 8).
fn disk() -> Disk {
    let mut disk = Disk::blank(GEOMETRY, 10, &[0]).unwrap();
    let new = NewFile::open(GEOMETRY, Date::new(1983, 10, 9));
    let open = |disk: &Disk, typed: &str| disk.open(&typed.parse().unwrap(), 256, Password::Unchecked).unwrap();
    for typed in ["PULS01/DAT", "LEER"] {
        disk.create(&typed.parse().unwrap(), &new).unwrap();
    }
    for granule in 0..4 {
        for typed in ["PULS01/DAT", "LEER"] {
            let handle = open(&disk, typed);
            disk.allot(&handle, 5 * granule).unwrap();
        }
    }
    let mut handle = open(&disk, "PULS01/DAT");
    handle.set_position(6000 - 256);
    disk.write_record(&mut handle, Kind::Sequential, &[7; 256]).unwrap();
    disk
}

/// What is told of the disk with these bytes changed.
fn told(changes: &[(usize, u8)]) -> String {
    let mut image = disk().into_image();
    for &(at, byte) in changes {
        image[at] = byte;
    }
    let damaged = Disk::new(image, GEOMETRY);
    let refusal = damaged.check().expect_err("damaged");
    let explained = damaged.explain(refusal.fault().expect("a fault"));
    if let Some(slot) = refusal.slot() {
        assert_eq!(explained.sector, Some(usize::from(slot % 32) + 2));
        assert_eq!(explained.byte, Some(32 * usize::from(slot / 32)));
        assert_eq!(explained.image_byte, Some(entry_at(slot)));
    }
    format!("{} {explained}", refusal.number())
}

const A: &str = "slot 80H, directory sector 2, byte 128, image byte 21120 (PULS01/DAT): ";
const B: &str = "slot 81H, directory sector 3, byte 128, image byte 21376 (LEER): ";
const EXTENSION: &str = "slot 82H, directory sector 4, byte 128, image byte 21632 (PULS01/DAT): ";

#[track_caller]
fn tells(changes: &[(usize, u8)], number: u8, place: &str, words: &str) {
    assert_eq!(told(changes), format!("{number} {place}{words}"));
}

#[test]
fn of_the_directory() {
    tells(
        &[(hit_at(0x1f), 3)],
        21,
        "",
        "HIT byte 1FH (directory sectors above 10; image byte 20767) is 3, not 0, 5, 10, 15 or 20",
    );
    tells(
        &[(80 * 256 + 8, 2)],
        30,
        "",
        "granule 16 is the directory's, but free in the GAT (byte 8, bit 0; image byte 20488)",
    );
    let short = Disk::new(vec![0; 40_960], GEOMETRY.with_start(150));
    let mut image = short.into_image();
    image[151 * 256 + 0x1f] = 5;
    let short = Disk::new(image, GEOMETRY.with_start(150));
    let fault = short.check().unwrap_err().fault().unwrap();
    assert_eq!(
        short.explain(fault).to_string(),
        "by HIT byte 1FH the directory has 15 sectors, but the disk ends 10 sectors behind its start"
    );
}

#[test]
fn of_hit_bytes_and_names() {
    tells(&[(hit_at(0x80), 0)], 22, A, "the entry is in use, but its HIT byte (image byte 20864) is 0");
    tells(&[(hit_at(0x80), 1)], 22, A, "the HIT byte (image byte 20864) is 01H, the hash of its name C1H");
    tells(
        &[(hit_at(0x82), 1)],
        22,
        EXTENSION,
        "the HIT byte (image byte 20866) is 01H, the hash of its file's name (slot 80H) C1H",
    );
    let empty = "slot 25H, directory sector 7, byte 32, image byte 22304: ";
    tells(&[(hit_at(0x25), 0xa2)], 22, empty, "the entry is not in use, but its HIT byte (image byte 20773) is A2H");

    let name = entry_at(0x80) + 5;
    let unnamed = "slot 80H, directory sector 2, byte 128, image byte 21120: ";
    let hash = |name: &[u8; 11]| name.iter().fold(0u8, |h, byte| (h ^ byte).rotate_left(1));
    let renamed = |to: &[u8; 11]| {
        let mut changes: Vec<_> = (name..).zip(*to).collect();
        changes.extend([(hit_at(0x80), hash(to)), (hit_at(0x82), hash(to))]);
        changes
    };
    tells(&renamed(b"pULS01  DAT"), 23, unnamed, "byte 05H of the name is 70H, which no name can have");
    tells(&renamed(b"PULS01  DA\x07"), 23, unnamed, "byte 0FH of the name is 07H, which no name can have");
    tells(&renamed(b"PU S01  DAT"), 23, unnamed, "in the name a blank stands before byte 08H (53H)");
    tells(&renamed(b"PULS01  D T"), 23, unnamed, "in the name a blank stands before byte 0FH (54H)");
    tells(&renamed(b"        DAT"), 23, unnamed, "the name begins with a blank");
    tells(&[(entry_at(0x80), 0x30)], 23, A, "bit 5 of byte 00 (30H) is set");
    let twice = "slot 81H, directory sector 3, byte 128, image byte 21376 (PULS01/DAT): ";
    let mut same: Vec<_> = (entry_at(0x81) + 5..).zip(*b"PULS01  DAT").collect();
    same.push((hit_at(0x81), 0xc1));
    tells(&same, 24, twice, "slot 80H has the same name");
}

#[test]
fn of_chains() {
    let (a, b, x) = (entry_at(0x80), entry_at(0x81), entry_at(0x82));
    tells(&[(b + 0x1e, 7)], 25, B, "the marker (byte 1EH) is 07H, neither FEH nor FFH");
    tells(&[(b + 0x18, 0xff)], 25, B, "pair 3 stands behind a block FFH, which ends the list of pairs");
    tells(&[(a + 0x1c, 0xff)], 25, A, "an extension follows (marker FEH), but only 3 runs stand here");
    tells(&[(a + 0x1f, 0x1f)], 25, A, "the link (byte 1FH) leads to 1FH, no slot of this directory");
    tells(&[(a + 0x1f, 0x25)], 25, A, "the link (byte 1FH) leads to slot 25H, which is not in use");
    tells(&[(a + 0x1f, 0x81)], 25, A, "the link (byte 1FH) leads to slot 81H, which is no extension");
    tells(&[(x, 0x91)], 25, EXTENSION, "byte 00 of the extension is 91H, not 90H");
    tells(&[(x + 1, 0x81)], 25, EXTENSION, "the extension points back (byte 01) to 81H, but the link is slot 80H's");
    tells(&[(x + 0x16, 0xff)], 25, EXTENSION, "the extension has no run");
    let alone = "slot 82H, directory sector 4, byte 128, image byte 21632: ";
    tells(&[(a + 0x1e, 0xff), (a + 0x14, 0), (a + 3, 0)], 25, alone, "the extension is in no file's chain");
    let two = "two links lead to the extension, from slots 80H and 81H";
    tells(&[(b + 0x1e, 0xfe), (b + 0x1f, 0x82)], 25, EXTENSION, two);
}

#[test]
fn of_runs_and_sizes() {
    let (a, b, x) = (entry_at(0x80), entry_at(0x81), entry_at(0x82));
    tells(&[(b + 0x18, 16)], 26, B, "run 2 has granules 32 to 32, but the disk's last is 31");
    tells(&[(b + 0x1b, 0x40)], 26, B, "run 3 begins at unit 2 of block 3, but a block has units 0 to 1");
    tells(
        &[(80 * 256 + 4, 0x01)],
        27,
        EXTENSION,
        "granule 9 of run 1 is free in the GAT (byte 4, bit 1; image byte 20484)",
    );
    tells(&[(b + 0x16, 0), (b + 0x17, 0x20)], 28, B, "granule 1 is also in slot 80H (PULS01/DAT)");
    tells(&[(b + 0x1c, 1), (b + 0x1d, 0)], 28, B, "granule 2 is in run 1 and in run 4 of this entry");
    tells(&[(x + 0x16, 1), (x + 0x17, 0)], 28, EXTENSION, "granule 2 is also in slot 81H (LEER)");
    tells(&[(a + 0x15, 1)], 29, A, "a size of 71536 bytes needs 56 granules, the runs have 5");
    tells(&[(b + 0x03, 9)], 29, B, "the sector count is 0, but the end byte 9");
    tells(
        &[(x + 0x16, 8), (x + 0x17, 0)],
        30,
        EXTENSION,
        "granule 16 of run 1 is the directory's, but the file has no system flag",
    );
}

/// Whatever is asked, an answer comes: of a disk without that fault, of bytes that are no disk, under any geometry.
#[test]
fn any_fault_of_any_image() {
    for image in [Vec::new(), vec![0xff; 700], vec![0xfe; 40_960], disk().into_image()] {
        for (blocks, units, start) in [(16, 2, 80), (16, 2, 155), (0, 0, 0), (usize::MAX, 8, usize::MAX), (32, 1, 0)] {
            let odd = Disk::new(image.as_slice(), Geometry::new(blocks, units, start, 0));
            for kind in FaultKind::ALL {
                for slot in [None, Some(0x00), Some(0x1f), Some(0x80), Some(0x82), Some(0xff)] {
                    let explained = odd.explain(Fault::new(kind, slot));
                    assert!(!explained.message.is_empty());
                    assert_eq!(explained.sector.is_some(), slot.is_some());
                }
            }
        }
    }
}
