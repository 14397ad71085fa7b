//! Each row of the table of refusals, for each call that can give it and for each of its reasons, and
//! the order of the rows; on the model and on the linked library.

use genie_model::binding::libraries;
use genie_model::call::{perform, Call, Outcome, FAULT_SLOT, PLACE};
use genie_model::calls::{Birth, NO_PLACE, NO_SLOT};
use genie_model::directory::{entry_place, hit_place, put_entry, set_taken, slots, Entry, Pair};
use genie_model::disks::{empty_disk, Disk};
use genie_model::fault::{self, Kind};
use genie_model::geometry::Geometry;
use genie_model::handle::{Handle, HANDLE_BYTES};
use genie_model::names::{hash, name};
use genie_model::space::permitted;

/// "position (0 to 1,966,080)"
const HIGHEST_POSITION: usize = 1_966_080;
/// "sector 0 to 7,679"
const HIGHEST_SECTOR: usize = 7_679;

const OPEN: u16 = 0x9642;
const MAIN: u16 = 0x1234;
const WORKER: u16 = 0x4321;

/// The files of the test disk, each with its slot.
const DATA: u8 = 0x80; // 300 bytes, 1 granule
const EMPTY: u8 = 0x81; // no granule
const FIXED: u8 = 0x82; // E, 300 bytes, 1 granule
const SYSTEM: u8 = 0x00; // system, 300 bytes, 1 granule
const LOCKED: u8 = 0x83; // main code MAIN, worker code WORKER, level 6

fn title(slot: u8) -> &'static str {
    match slot {
        DATA => "DATA/DAT",
        EMPTY => "EMPTY",
        FIXED => "FIXED/TXT",
        SYSTEM => "DIR/SYS",
        _ => "LOCKED",
    }
}

fn place(disk: &mut Disk, slot: u8, flags: u8, day: u8, granule: Option<usize>, size: usize) {
    let mut e = Entry([0; 32]);
    (e.0[0x00], e.0[0x01]) = (0x10 | flags, day);
    e.0[0x05..0x10].copy_from_slice(&name(title(slot)));
    let (main, worker) = if slot == LOCKED { (MAIN, WORKER) } else { (OPEN, WORKER) };
    e.0[0x10..0x12].copy_from_slice(&main.to_le_bytes());
    e.0[0x12..0x14].copy_from_slice(&worker.to_le_bytes());
    e.0[0x16..].fill(0xFF);
    if let Some(granule) = granule {
        e.set_pair(0, Pair::of_granule(&disk.g, granule));
        set_taken(&mut disk.image, &disk.g, granule, true);
    }
    e.set_size(size);
    put_entry(&mut disk.image, &disk.g, slot, &e);
    disk.image[hit_place(&disk.g, slot)] = hash(&name(title(slot)));
}

/// 16 blocks of 2 units; 26 granules free.
fn disk() -> Disk {
    let mut disk = empty_disk(
        Geometry { blocks: 16, units: 2, start: 80, open_code: OPEN, system_disk: true, granule_sectors: 5 },
        10,
        &[0],
    );
    place(&mut disk, DATA, 0, 0, Some(5), 300);
    place(&mut disk, EMPTY, 0, 0, None, 0);
    place(&mut disk, FIXED, 0, 0x40, Some(7), 300);
    place(&mut disk, SYSTEM, 0x40, 0, Some(9), 300);
    place(&mut disk, LOCKED, 6, 0, None, 0);
    disk
}

fn handle(slot: u8) -> Handle {
    Handle { slot, level: 0, length: 4, position: 0, name: name(title(slot)) }
}

fn birth() -> Birth {
    Birth { day: 31, month: 15, year: 15, length: 256, main_code: OPEN, worker_code: 0, checking: true }
}

fn look_up(text: &str) -> Call {
    Call::LookUp { name: name(text).to_vec() }
}
fn open(text: &str, checking: bool, code: u16) -> Call {
    Call::Open { name: name(text).to_vec(), length: 4, checking, code, handle: vec![0xEE; 22] }
}
fn create(text: &str) -> Call {
    Call::Create { name: name(text).to_vec(), birth: birth(), handle: vec![0xEE; 22] }
}
fn create_with(text: &str, change: impl FnOnce(&mut Birth)) -> Call {
    let mut birth = birth();
    change(&mut birth);
    Call::Create { name: name(text).to_vec(), birth, handle: vec![0xEE; 22] }
}
fn read(h: Handle) -> Call {
    Call::ReadRecord { handle: h.bytes().to_vec(), buffer: vec![0xEE; 256] }
}
fn sector(h: Handle, k: usize) -> Call {
    Call::ReadSector { handle: h.bytes().to_vec(), k }
}
fn write(h: Handle, sequential: bool) -> Call {
    Call::WriteRecord { handle: h.bytes().to_vec(), sequential, buffer: vec![0xEE; 256] }
}
fn allot(h: Handle, k: usize) -> Call {
    Call::Allot { handle: h.bytes().to_vec(), k }
}
fn trim(h: Handle) -> Call {
    Call::Trim { handle: h.bytes().to_vec() }
}
fn kill(h: Handle) -> Call {
    Call::Kill { handle: h.bytes().to_vec() }
}
fn list() -> Call {
    Call::List { which: 0, name: vec![0xEE; 11] }
}

/// All six calls by a handle; sector numbers in range.
fn by_handle(h: Handle) -> Vec<Call> {
    vec![read(h), sector(h, 0), write(h, true), write(h, false), allot(h, 0), trim(h), kill(h)]
}

/// All calls but free space, which row 2 does not concern.
fn all_calls() -> Vec<Call> {
    let mut all =
        vec![Call::Check, look_up("DATA/DAT"), open("DATA/DAT", true, OPEN), create("NEW"), list(), Call::Count];
    all.extend(by_handle(handle(DATA)));
    all
}

/// The call on a copy of the disk, by every library: the number, and if it is a refusal that nothing
/// is changed and every outgoing number is 0, or says that there is nothing to tell.
fn gives_under(disk: &Disk, g: &Geometry, call: &Call, wanted: u8) -> Outcome {
    let mut outcomes = Vec::new();
    for library in libraries() {
        let mut image = disk.image.clone();
        let outcome = perform(&*library, &mut image, g, call);
        let at = format!("{}: {call:02X?}", library.title());
        assert_eq!(outcome.number, wanted, "{at}");
        if wanted != 0 {
            assert!(image == disk.image, "changed by {at}");
            let count_stands = wanted == 4 && matches!(call, Call::LookUp { .. });
            for (title, told) in &outcome.numbers {
                // The fault's slot is looked at in tests/faults.rs; where there is no fault, there is none.
                let good = match *title {
                    FAULT_SLOT => fault::numbers().contains(&wanted) || *told == NO_SLOT,
                    // Which one it is, tests/small_letters.rs says.
                    PLACE => (*told < NO_PLACE) == (wanted == 3) && *told <= NO_PLACE,
                    title => *told == 0 || count_stands && title == "compared",
                };
                assert!(good, "{title} = {told} of {at}");
            }
            match call {
                Call::Open { handle, .. } | Call::Create { handle, .. } => {
                    let mut zeros = handle.clone();
                    if handle.len() >= HANDLE_BYTES {
                        zeros[..HANDLE_BYTES].fill(0);
                    }
                    assert_eq!(outcome.handle, zeros, "{at}");
                }
                Call::ReadRecord { handle, buffer } | Call::WriteRecord { handle, buffer, .. } => {
                    assert_eq!((&outcome.handle, &outcome.buffer), (handle, buffer), "{at}");
                }
                _ => {}
            }
        }
        outcomes.push(outcome);
    }
    outcomes.remove(0)
}

fn gives(disk: &Disk, call: &Call, wanted: u8) -> Outcome {
    gives_under(disk, &disk.g, call, wanted)
}

#[test]
fn accepted_calls_on_the_test_disk() {
    let disk = disk();
    for call in all_calls() {
        gives(&disk, &call, 0);
    }
    gives(&disk, &Call::Free, 0);
}

#[test]
fn row_1_geometry() {
    let disk = disk();
    let good = disk.g;
    let mut wrong = Vec::new();
    for blocks in [0, 15, 17, 193, usize::MAX, 16 + (1 << 62), 1 << 63] {
        wrong.push(Geometry { blocks, ..good });
    }
    for units in [0, 1, 3, 9, usize::MAX, 2 + (1 << 60)] {
        wrong.push(Geometry { units, ..good });
    }
    for start in [81, 84, 155, 160, 165, usize::MAX, usize::MAX - 5, usize::MAX - 14, 1 << 63] {
        wrong.push(Geometry { start, ..good });
    }
    wrong.push(Geometry { blocks: 4, units: 9, ..good });
    wrong.push(Geometry {
        blocks: usize::MAX,
        units: usize::MAX,
        start: usize::MAX,
        open_code: 0,
        system_disk: true,
        granule_sectors: usize::MAX,
    });
    // Sizes of granules that are none, and those that are, but not this image's.
    for granule_sectors in [0, 1, 4, 6, 10, 15, 20, 40, 1 << 32, 1 << 63, usize::MAX] {
        wrong.push(Geometry { granule_sectors, ..good });
    }
    for g in wrong {
        for call in all_calls() {
            gives_under(&disk, &g, &call, 1);
        }
        gives_under(&disk, &g, &Call::Free, 1);
    }
    // Another image length.
    for length in [0, 1, 1280, disk.image.len() - 1, disk.image.len() - 1280] {
        let short = Disk { image: disk.image[..length].to_vec(), ..disk.clone() };
        gives(&short, &Call::Check, 1);
        gives(&short, &Call::Free, 1);
    }
    let mut long = disk.clone();
    long.image.push(0);
    gives(&long, &Call::Check, 1);
    gives(&long, &Call::Free, 1);
    // Ten sectors behind the start are enough: what stands there is judged by row 2. Zeros are a directory that the GAT
    // does not mark.
    let zeros = gives_under(&disk, &Geometry { start: 150, ..good }, &Call::Check, Kind::DirectoryGranule as u8);
    assert_eq!(zeros.fault_slot(), None);
}

#[test]
fn row_2_consistency() {
    let mut broken = disk();
    let place = entry_place(&broken.g, DATA);
    broken.image[place] |= 1 << 5;
    for call in all_calls() {
        assert_eq!(gives(&broken, &call, Kind::Name as u8).fault_slot(), Some(DATA));
    }
    // Free space looks at the GAT alone.
    let told = gives(&broken, &Call::Free, 0);
    assert_eq!(told.numbers, gives(&disk(), &Call::Free, 0).numbers);
    // A directory length that passes the end is inconsistent, no matter of geometry.
    let mut last = empty_disk(
        Geometry { blocks: 16, units: 2, start: 150, open_code: OPEN, system_disk: true, granule_sectors: 5 },
        10,
        &[],
    );
    gives(&last, &Call::Check, 0);
    let place = hit_place(&last.g, 0x1F);
    last.image[place] = 5;
    assert_eq!(gives(&last, &Call::Check, Kind::DirectoryLength as u8).fault_slot(), None);
    // Row 2 comes before row 12.
    gives(&broken, &create_with("NEW", |birth| birth.day = 32), Kind::Name as u8);
}

#[test]
fn row_12_numbers_of_a_handle() {
    let disk = disk();
    let good = handle(DATA);
    let wrong = [
        Handle { position: HIGHEST_POSITION as u32 + 1, ..good },
        Handle { position: u32::MAX, ..good },
        Handle { length: 0, ..good },
        Handle { length: 257, ..good },
        Handle { length: u16::MAX, ..good },
        Handle { level: 8, ..good },
        Handle { level: 255, ..good },
        // The handle of zeros, and a handle that is stale besides: row 12 comes first.
        Handle { slot: 0, level: 0, length: 0, position: 0, name: [0; 11] },
        Handle { slot: 0xFF, level: 8, ..good },
    ];
    for h in wrong {
        for call in by_handle(h) {
            gives(&disk, &call, 12);
        }
    }
    for length in 0..HANDLE_BYTES {
        let cut = || good.bytes()[..length].to_vec();
        gives(&disk, &Call::ReadRecord { handle: cut(), buffer: vec![0; 256] }, 12);
        gives(&disk, &Call::ReadSector { handle: cut(), k: 0 }, 12);
        gives(&disk, &Call::WriteRecord { handle: cut(), sequential: true, buffer: vec![0; 256] }, 12);
        gives(&disk, &Call::Allot { handle: cut(), k: 0 }, 12);
        gives(&disk, &Call::Trim { handle: cut() }, 12);
        gives(&disk, &Call::Kill { handle: cut() }, 12);
        gives(
            &disk,
            &Call::Open { name: name("DATA/DAT").to_vec(), length: 1, checking: false, code: 0, handle: cut() },
            12,
        );
        gives(&disk, &Call::Create { name: name("NEW").to_vec(), birth: birth(), handle: cut() }, 12);
    }
}

#[test]
fn row_12_numbers_of_a_call() {
    let disk = disk();
    let good = handle(DATA);
    for length in [0, 257, 65_536 + 4, usize::MAX, (1 << 32) + 4] {
        let asked = Call::Open {
            name: name("DATA/DAT").to_vec(),
            length,
            checking: false,
            code: 0,
            handle: vec![0xEE; 19],
        };
        gives(&disk, &asked, 12);
        gives(&disk, &create_with("NEW", |birth| birth.length = length), 12);
        // Also if the file exists, or the name is malformed.
        gives(&disk, &create_with("DATA/DAT", |birth| birth.length = length), 12);
        gives(&disk, &create_with("new", |birth| birth.length = length), 12);
    }
    for wrong in [32, 256, 256 + 9, usize::MAX] {
        gives(&disk, &create_with("NEW", |birth| birth.day = wrong), 12);
        gives(&disk, &create_with("DATA/DAT", |birth| birth.day = wrong), 12);
    }
    for wrong in [16, 256, 256 + 9, usize::MAX] {
        gives(&disk, &create_with("NEW", |birth| birth.month = wrong), 12);
        gives(&disk, &create_with("NEW", |birth| birth.year = wrong), 12);
    }
    for k in [HIGHEST_SECTOR + 1, usize::MAX, 1 << 32, 1 << 63] {
        gives(&disk, &sector(good, k), 12);
        gives(&disk, &allot(good, k), 12);
    }
    gives(&disk, &sector(good, HIGHEST_SECTOR), 10);
    gives(&disk, &allot(good, HIGHEST_SECTOR), 9);
    // Position + length over 1,966,080 in a write; in a read it is past the size.
    for sequential in [true, false] {
        gives(&disk, &write(Handle { position: HIGHEST_POSITION as u32, ..good }, sequential), 12);
        gives(&disk, &write(Handle { position: HIGHEST_POSITION as u32 - 3, ..good }, sequential), 12);
        gives(&disk, &write(Handle { position: HIGHEST_POSITION as u32 - 4, ..good }, sequential), 9);
        gives(&disk, &Call::WriteRecord { handle: good.bytes().to_vec(), sequential, buffer: vec![1; 3] }, 12);
        gives(&disk, &Call::WriteRecord { handle: good.bytes().to_vec(), sequential, buffer: vec![] }, 12);
        gives(&disk, &Call::WriteRecord { handle: good.bytes().to_vec(), sequential, buffer: vec![1; 4] }, 0);
    }
    gives(&disk, &read(Handle { position: HIGHEST_POSITION as u32, ..good }), 10);
    for room in [0, 3] {
        gives(&disk, &Call::ReadRecord { handle: good.bytes().to_vec(), buffer: vec![0xEE; room] }, 12);
    }
    gives(&disk, &Call::ReadRecord { handle: good.bytes().to_vec(), buffer: vec![0xEE; 4] }, 0);
    for room in 0..11 {
        gives(&disk, &Call::List { which: 0, name: vec![0xEE; room] }, 12);
        gives(&disk, &Call::List { which: usize::MAX, name: vec![0xEE; room] }, 12);
    }
}

#[test]
fn row_3_names() {
    let disk = disk();
    let mut wrong: Vec<Vec<u8>> = vec![
        vec![],
        b"A".to_vec(),
        b"DATA    DA".to_vec(),
        b"DATA    DAT ".to_vec(),
        b"           ".to_vec(),
        b"        DAT".to_vec(),
        b" ATA    DAT".to_vec(),
        b"DA A    DAT".to_vec(),
        b"DATA    D T".to_vec(),
        b"DATA     AT".to_vec(),
        b"DATA      T".to_vec(),
        b"DATA   XDAT".to_vec(),
    ];
    for bad in [0x00, 0x1F, 0x21, 0x2F, 0x3A, 0x40, 0x5E, 0x60, 0x7E, 0x7F, 0x80, 0xA0, 0xC1, 0xE1, 0xFF] {
        for at in [0, 3, 8, 10] {
            let mut bytes = name("DATA/DAT");
            bytes[at] = bad;
            wrong.push(bytes.to_vec());
        }
    }
    for bytes in wrong {
        gives(&disk, &Call::LookUp { name: bytes.clone() }, 3);
        let asked = Call::Open { name: bytes.clone(), length: 4, checking: false, code: 0, handle: vec![0xEE; 19] };
        gives(&disk, &asked, 3);
        gives(&disk, &Call::Create { name: bytes, birth: birth(), handle: vec![0xEE; 19] }, 3);
    }
    // The edges of what is allowed.
    for text in ["0", "9", "A", "]", "[\\]", "A2345678/123", "A/B", "Z", "a", "z", "{|}", "neu/txt"] {
        gives(&disk, &look_up(text), 4);
        gives(&disk, &create(text), 0);
    }
}

#[test]
fn row_7_stale_handles() {
    let mut disk = disk();
    let good = handle(DATA);
    let last = 0xFF - 0x18; // row 7, s 7: the last slot of a directory of 10 sectors
    for slot in [EMPTY, 0x84, last, 0x08, 0x1F, 0x88, 0xFF, 0x01] {
        for call in by_handle(Handle { slot, ..good }) {
            gives(&disk, &call, 7);
        }
    }
    for text in ["DATA", "DATA/DAU", "EMPTY", "EATA/DAT"] {
        for call in by_handle(Handle { name: name(text), ..good }) {
            gives(&disk, &call, 7);
        }
    }
    // A malformed name in a handle is stale, not 3.
    for call in by_handle(Handle { name: [0xFF; 11], ..good }) {
        gives(&disk, &call, 7);
    }
    // Level 7 besides: row 7 comes first.
    for call in by_handle(Handle { slot: EMPTY, level: 7, ..good }) {
        gives(&disk, &call, 7);
    }
    // An extension never answers to a handle, even if its bytes 05 to 0F are the name.
    let g = disk.g;
    let mut file = genie_model::directory::entry(&disk.image, &g, DATA);
    for (i, granule) in [11, 13, 15].into_iter().enumerate() {
        file.set_pair(i + 1, Pair::of_granule(&g, granule));
        set_taken(&mut disk.image, &g, granule, true);
    }
    file.set_link(0xFE, 0x84);
    put_entry(&mut disk.image, &g, DATA, &file);
    let mut extension = Entry([0; 32]);
    (extension.0[0x00], extension.0[0x01]) = (0x90, DATA);
    extension.0[0x05..0x10].copy_from_slice(&name(title(DATA)));
    extension.0[0x16..].fill(0xFF);
    extension.set_pair(0, Pair::of_granule(&g, 19));
    set_taken(&mut disk.image, &g, 19, true);
    put_entry(&mut disk.image, &g, 0x84, &extension);
    disk.image[hit_place(&g, 0x84)] = hash(&name(title(DATA)));
    gives(&disk, &Call::Check, 0);
    for call in by_handle(Handle { slot: 0x84, ..good }) {
        gives(&disk, &call, 7);
    }
}

#[test]
fn row_4_not_found() {
    let disk = disk();
    for text in ["NEW", "DATA", "DATA/DAU", "EMPTY/DAT"] {
        gives(&disk, &look_up(text), 4);
        gives(&disk, &open(text, true, OPEN), 4);
    }
    let outcome = gives(&disk, &look_up("DIR/SYS"), 0);
    assert_eq!((outcome.numbered("slot"), outcome.numbered("compared")), (0, 1));
}

#[test]
fn row_5_password() {
    let disk = disk();
    let level = |call: &Call| gives(&disk, call, 0).handle[1];
    gives(&disk, &open("LOCKED", true, OPEN), 5);
    gives(&disk, &open("LOCKED", true, 0), 5);
    assert_eq!(level(&open("LOCKED", true, MAIN)), 0);
    assert_eq!(level(&open("LOCKED", true, WORKER)), 6);
    assert_eq!(level(&open("LOCKED", false, 0)), 0);
    // No password: any code gives level 0, the worker code too.
    assert_eq!(level(&open("DATA/DAT", true, 0)), 0);
    assert_eq!(level(&open("DATA/DAT", true, WORKER)), 0);
    // Create on an existing file goes by the given main code; the worker code plays no part.
    gives(&disk, &create_with("LOCKED", |birth| birth.main_code = OPEN), 5);
    gives(&disk, &create_with("LOCKED", |birth| birth.worker_code = MAIN), 5);
    assert_eq!(level(&create_with("LOCKED", |birth| birth.main_code = MAIN)), 0);
    assert_eq!(level(&create_with("LOCKED", |birth| birth.main_code = WORKER)), 6);
    assert_eq!(level(&create_with("LOCKED", |birth| birth.checking = false)), 0);
    assert_eq!(gives(&disk, &create("DIR/SYS"), 0).numbered("old"), 1);
    // Main and worker code equal, and given: level 0.
    let mut both = disk.clone();
    let place = entry_place(&both.g, LOCKED);
    both.image[place + 0x12..place + 0x14].copy_from_slice(&MAIN.to_le_bytes());
    assert_eq!(gives(&both, &open("LOCKED", true, MAIN), 0).handle[1], 0);
}

#[test]
fn row_6_levels_and_system_files() {
    let disk = disk();
    for level in 0..=7 {
        let h = Handle { level, ..handle(DATA) };
        let over = |highest: u8| if level > highest { 6 } else { 0 };
        gives(&disk, &read(h), over(5));
        gives(&disk, &sector(h, 0), over(5));
        gives(&disk, &write(h, true), over(4));
        gives(&disk, &write(h, false), over(4));
        gives(&disk, &allot(h, 0), over(4));
        gives(&disk, &trim(h), over(4));
        gives(&disk, &kill(h), over(1));
    }
    let system = handle(SYSTEM);
    gives(&disk, &read(system), 0);
    gives(&disk, &sector(system, 1), 0);
    for call in [write(system, true), write(system, false), allot(system, 0), trim(system), kill(system)] {
        gives(&disk, &call, 6);
    }
    // Row 6 comes before rows 10 and 9.
    gives(&disk, &read(Handle { level: 6, position: 9_999, ..handle(DATA) }), 6);
    gives(&disk, &allot(Handle { level: 5, ..handle(FIXED) }, HIGHEST_SECTOR), 6);
}

#[test]
fn row_10_past_the_size() {
    let disk = disk();
    gives(&disk, &read(Handle { position: 296, ..handle(DATA) }), 0);
    gives(&disk, &read(Handle { position: 297, ..handle(DATA) }), 10);
    gives(&disk, &read(handle(EMPTY)), 10);
    let last = gives(&disk, &sector(handle(DATA), 1), 0);
    assert_eq!(last.numbered("to") - last.numbered("from"), 44);
    gives(&disk, &sector(handle(DATA), 2), 10);
    gives(&disk, &sector(handle(EMPTY), 0), 10);
}

#[test]
fn row_11_no_growth() {
    let disk = disk();
    let fixed = handle(FIXED);
    for sequential in [true, false] {
        gives(&disk, &write(Handle { position: 1276, ..fixed }, sequential), 0);
        gives(&disk, &write(Handle { position: 1277, ..fixed }, sequential), 11);
        // Also if there is no space: row 11 comes before row 9.
        gives(&disk, &write(Handle { position: 1_000_000, ..fixed }, sequential), 11);
    }
    gives(&disk, &allot(fixed, 4), 0);
    gives(&disk, &allot(fixed, 5), 11);
    gives(&disk, &allot(fixed, HIGHEST_SECTOR), 11);
}

#[test]
fn row_9_granules() {
    let disk = disk();
    let free = 32 - 3 - 3; // directory, granule 0, three files
    gives(&disk, &allot(handle(EMPTY), 5 * free - 1), 0);
    gives(&disk, &allot(handle(EMPTY), 5 * free), 9);
    gives(&disk, &allot(handle(DATA), 5 * free + 4), 0);
    gives(&disk, &allot(handle(DATA), 5 * free + 5), 9);
    for sequential in [true, false] {
        let most = 1280 * free as u32;
        gives(&disk, &write(Handle { position: most - 4, ..handle(EMPTY) }, sequential), 0);
        gives(&disk, &write(Handle { position: most - 3, ..handle(EMPTY) }, sequential), 9);
    }
}

/// Every second granule free, so many permitted slots free.
fn scattered(slots_free: usize) -> Disk {
    let reserved: Vec<usize> = (0..60).filter(|granule| granule % 2 == 0).collect();
    let mut disk = empty_disk(
        Geometry { blocks: 30, units: 2, start: 80, open_code: OPEN, system_disk: true, granule_sectors: 5 },
        10,
        &reserved,
    );
    place(&mut disk, DATA, 0, 0, None, 0);
    let others: Vec<u8> = slots(10).filter(|&slot| permitted(&disk.g, slot) && slot != DATA).collect();
    for (i, &slot) in others[slots_free..].iter().enumerate() {
        let text = format!("F{i}");
        let mut e = Entry([0; 32]);
        e.0[0x00] = 0x10;
        e.0[0x05..0x10].copy_from_slice(&name(&text));
        e.0[0x16..].fill(0xFF);
        put_entry(&mut disk.image, &disk.g, slot, &e);
        disk.image[hit_place(&disk.g, slot)] = hash(&name(&text));
    }
    disk
}

#[test]
fn row_8_slots() {
    gives(&scattered(1), &create("NEW"), 0);
    gives(&scattered(0), &create("NEW"), 8);
    // An existing file is opened all the same.
    gives(&scattered(0), &create("DATA/DAT"), 0);
    // Four runs fit the entry; each extension holds four more.
    for slots_free in 0..4 {
        let disk = scattered(slots_free);
        let most = 4 * (slots_free + 1);
        gives(&disk, &allot(handle(DATA), 5 * most - 1), 0);
        gives(&disk, &allot(handle(DATA), 5 * most), 8);
        for sequential in [true, false] {
            let end = 1280 * most as u32;
            gives(&disk, &write(Handle { position: end - 4, ..handle(DATA) }, sequential), 0);
            gives(&disk, &write(Handle { position: end - 3, ..handle(DATA) }, sequential), 8);
        }
        // More granules than are free: row 9 comes first.
        gives(&disk, &allot(handle(DATA), 5 * 60), 9);
    }
}
