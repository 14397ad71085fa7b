//! Read program files (02 §12): cases by hand and files at random, on the model and on the linked library.

use genie_model::binding::libraries;
use genie_model::by_hand::{change, put_extension, put_file};
use genie_model::calls::{Number, ACCEPTED, LEVEL, RANGE, STALE};
use genie_model::disks::{empty_disk, Disk};
use genie_model::geometry::Geometry;
use genie_model::handle::{Handle, HANDLE_BYTES};
use genie_model::library::Library;
use genie_model::load::{cut, told, Told};
use genie_model::names::name;
use genie_model::random::Random;

const SLOT: u8 = 0x80;

/// Bytes of a granule of five sectors.
const GRANULE_BYTES: usize = 1280;

/// The file's granules, scattered; the last two are an extension's.
const GRANULES: [usize; 6] = [31, 2, 20, 5, 9, 12];

/// A disk with one file of these bytes.
fn disk_with(bytes: &[u8]) -> Disk {
    let g = Geometry { blocks: 16, units: 2, start: 80, open_code: 0, system_disk: true, granule_sectors: 5 };
    let mut disk = empty_disk(g, 10, &[0]);
    let runs = GRANULES.map(|granule| (granule, 1));
    put_file(&mut disk, SLOT, "PULS/CMD", &runs[..4]);
    put_extension(&mut disk, 0x81, SLOT, "PULS/CMD", &runs[4..]);
    change(&mut disk, SLOT, |e| e.set_size(bytes.len()));
    for (i, &byte) in bytes.iter().enumerate() {
        disk.image[GRANULES[i / GRANULE_BYTES] * GRANULE_BYTES + i % GRANULE_BYTES] = byte;
    }
    disk
}

fn handle_at(position: usize) -> Handle {
    Handle { slot: SLOT, level: 0, length: 256, position: position as u32, name: name("PULS/CMD") }
}

/// What one call hands back: its number, kind, address, count and position, the handle's position, the buffer.
type Answer = (Number, [usize; 4], usize, Vec<u8>);

fn ask(library: &dyn Library, disk: &Disk, h: &Handle, room: usize) -> Answer {
    let mut handle = h.bytes();
    let mut buffer = vec![0xEE; room];
    let (mut kind, mut address, mut count, mut position, mut fault_slot) = (7, 7, 7, 7, 7);
    let number = library.load_record(
        &disk.image,
        &disk.g,
        &mut handle,
        &mut buffer,
        &mut kind,
        &mut address,
        &mut count,
        &mut position,
        &mut fault_slot,
    );
    assert_eq!(fault_slot, 256, "{}", library.title());
    let left = Handle::read(&handle).expect("19 bytes");
    assert_eq!(Handle { position: h.position, ..left }, *h, "{}: only the position moves", library.title());
    (number, [kind, address, count, position], left.position(), buffer)
}

/// A buffer with these bytes at its start.
fn filled(bytes: &[u8]) -> Vec<u8> {
    let mut buffer = vec![0xEE; 255];
    buffer[..bytes.len()].copy_from_slice(bytes);
    buffer
}

/// What a call answers who asks at a place and is told this.
fn answer_of(told: &Told, at: usize) -> Answer {
    match told {
        Told::Data { address, bytes, behind } => (ACCEPTED, [1, *address, bytes.len(), 0], *behind, filled(bytes)),
        Told::Start { address } => (ACCEPTED, [2, *address, 0, 0], at, filled(&[])),
        Told::Refused(number, position) => (*number, [0, 0, 0, *position], at, filled(&[])),
    }
}

/// Both tell this at that place of the file.
fn tells(bytes: &[u8], at: usize, wanted: &Told) {
    assert_eq!(told(bytes, at), *wanted, "{bytes:02X?} at {at}");
    let disk = disk_with(bytes);
    for library in libraries() {
        assert_eq!(
            ask(&*library, &disk, &handle_at(at), 255),
            answer_of(wanted, at),
            "{}: {bytes:02X?} at {at}",
            library.title()
        );
    }
}

fn data(address: usize, bytes: &[u8], behind: usize) -> Told {
    Told::Data { address, bytes: bytes.to_vec(), behind }
}

const PROGRAM: [u8; 22] = [
    0x05, 0x03, 0x41, 0x42, 0x43, 0x01, 0x05, 0x00, 0x60, 0x11, 0x22, 0x33, 0x01, 0x02, 0x00, 0x70, 0x02, 0x02,
    0x01, 0x60, 0xFF, 0xFF,
];

#[test]
fn records_and_start_address() {
    tells(&PROGRAM, 0, &data(0x6000, &[0x11, 0x22, 0x33], 12));
    tells(&PROGRAM, 12, &data(0x7000, &[], 16));
    tells(&PROGRAM, 16, &Told::Start { address: 0x6001 });
    assert_eq!(
        cut(&PROGRAM),
        (vec![(0x6000, vec![0x11, 0x22, 0x33]), (0x7000, vec![])], Told::Start { address: 0x6001 })
    );
}

#[test]
fn ends() {
    let ends = |bytes: &[u8], number, position| tells(bytes, 0, &Told::Refused(number, position));
    ends(&[], 32, 0);
    ends(&[5, 0], 32, 2);
    ends(&[5, 0, 9], 31, 2);
    ends(&[5, 0, 2, 3, 0], 33, 3);
    ends(&[2, 2, 0], 32, 3);
    ends(&[1, 3, 0, 0x60], 32, 4);
    // "02 03" is a bad count though the file ends; a code alone has no count.
    ends(&[2, 3], 33, 1);
    ends(&[2], 32, 1);
    ends(&[9], 31, 0);
    // The record is handed out before the end is told.
    tells(&[1, 3, 0, 0x60, 0], 0, &data(0x6000, &[0], 5));
    tells(&[1, 3, 0, 0x60, 0], 5, &Told::Refused(32, 5));
    // At and behind the size.
    tells(&PROGRAM, 22, &Told::Refused(32, 22));
    tells(&PROGRAM, 1_966_080, &Told::Refused(32, 22));
}

#[test]
fn counts_nought_to_two() {
    let of = |count: u8, n: usize| {
        let mut bytes = vec![1, count];
        bytes.extend((0..n).map(|i| i as u8));
        bytes
    };
    tells(&of(0, 255), 0, &Told::Refused(32, 257));
    tells(&of(0, 256), 0, &data(0x0100, &of(0, 256)[4..], 258));
    tells(&of(1, 256), 0, &Told::Refused(32, 258));
    tells(&of(1, 257), 0, &data(0x0100, &of(1, 257)[4..], 259));
    tells(&of(2, 2), 0, &data(0x0100, &[], 4));
    tells(&of(255, 255), 0, &data(0x0100, &of(255, 255)[4..], 257));
}

/// Tests before the file's own, in the table's order.
#[test]
fn refused_before() {
    let disk = disk_with(&PROGRAM);
    let good = handle_at(0);
    let (far, level, stale) =
        (handle_at(1_966_081), Handle { level: 6, ..good }, Handle { slot: 0x82, level: 6, ..good });
    for library in libraries() {
        let number = |h: &Handle, room| ask(&*library, &disk, h, room).0;
        assert_eq!(number(&good, 254), RANGE, "{}: the buffer, though three bytes would do", library.title());
        assert_eq!(number(&far, 255), RANGE, "{}", library.title());
        assert_eq!(number(&Handle { length: 0, ..good }, 255), RANGE, "{}", library.title());
        assert_eq!(number(&stale, 254), RANGE, "{}: 12 before 7", library.title());
        assert_eq!(number(&stale, 255), STALE, "{}: 7 before 6", library.title());
        assert_eq!(number(&level, 255), LEVEL, "{}", library.title());
        assert_eq!(number(&Handle { level: 6, ..handle_at(20) }, 255), LEVEL, "{}: 6 before 31", library.title());
        assert_eq!(number(&Handle { level: 5, ..good }, 256), ACCEPTED, "{}", library.title());
        let (mut short, mut buffer) = ([0; HANDLE_BYTES - 1], [0; 255]);
        let (mut a, mut b, mut c, mut d, mut e) = (7, 7, 7, 7, 7);
        let lent = (&disk.image, &disk.g);
        let number =
            library.load_record(lent.0, lent.1, &mut short, &mut buffer, &mut a, &mut b, &mut c, &mut d, &mut e);
        assert_eq!((number, a, b, c, d, e), (RANGE, 0, 0, 0, 0, 256), "{}", library.title());
    }
}

/// A load file at random: records, comments, now and then a bad byte or a cut.
fn random_file(random: &mut Random) -> Vec<u8> {
    let mut bytes = Vec::new();
    let most = random.within(0, GRANULES.len() * GRANULE_BYTES - 300);
    while bytes.len() < most {
        let count = random.byte();
        let code = if random.percent(20) { 5 } else { 1 };
        let follow = match (code, count) {
            (1, 0) => 256,
            (1, 1) => 257,
            _ => count.into(),
        };
        bytes.extend([code, count]);
        bytes.extend((0..follow).map(|_| random.byte()));
    }
    bytes.extend([2, 2, 0x34, 0x12]);
    match random.within(0, 3) {
        0 => bytes.truncate(random.within(0, bytes.len())),
        1 => {
            let at = random.within(0, bytes.len() - 1);
            bytes[at] = random.byte();
        }
        _ => {}
    }
    bytes
}

/// Asked from the start until no record is told, across granules and into the extension: the file cut.
#[test]
fn files_at_random() {
    let mut random = Random::new(12);
    for _ in 0..300 {
        let bytes = random_file(&mut random);
        let disk = disk_with(&bytes);
        let (records, end) = cut(&bytes);
        for library in libraries() {
            let mut h = handle_at(0);
            for (address, data) in &records {
                let (number, told, at, buffer) = ask(&*library, &disk, &h, 255);
                assert_eq!((number, told), (ACCEPTED, [1, *address, data.len(), 0]), "{}", library.title());
                assert_eq!(buffer, filled(data), "{}", library.title());
                h = handle_at(at);
            }
            assert_eq!(ask(&*library, &disk, &h, 255), answer_of(&end, h.position()), "{}", library.title());
            // From any place at all.
            let at = random.within(0, bytes.len() + 1);
            assert_eq!(
                ask(&*library, &disk, &handle_at(at), 255),
                answer_of(&told(&bytes, at), at),
                "{}",
                library.title()
            );
        }
    }
}
