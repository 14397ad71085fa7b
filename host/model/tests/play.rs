//! Play back (document 02, §6): the place of every fault of a trace, the order of refusals, room, and sessions against
//! their single calls; on the model and on the linked library, and the one against the other on traces made at random.

use genie_model::binding::libraries;
use genie_model::calls::{Birth, Number, GEOMETRY, NO_SLOT};
use genie_model::directory::hit_place;
use genie_model::disks::{empty_disk, random_disk, random_disk_of, random_name, Disk};
use genie_model::geometry::Geometry;
use genie_model::handle::HANDLE_BYTES;
use genie_model::library::Library;
use genie_model::model::Model;
use genie_model::names::name;
use genie_model::plain::files_of;
use genie_model::play::{pack, read, Recorded, NO_ROOM, TRACE};
use genie_model::random::Random;
use std::time::Instant;

fn blank() -> Disk {
    empty_disk(
        Geometry { blocks: 16, units: 2, start: 80, open_code: 0, system_disk: true, granule_sectors: 5 },
        10,
        &[0],
    )
}

/// All that the call tells and leaves.
#[derive(Debug, PartialEq, Eq)]
struct Played {
    number: Number,
    calls: usize,
    place: (usize, usize),
    fault_slot: usize,
    results: Vec<u8>,
    image: Vec<u8>,
}

fn play(library: &dyn Library, disk: &Disk, trace: &[u8], room: usize) -> Played {
    let (mut image, mut results) = (disk.image.clone(), vec![0xEE; room]);
    let (mut calls, mut byte, mut bit, mut fault_slot) = (7, 7, 7, 7);
    let number =
        library.play(&mut image, &disk.g, trace, &mut results, &mut calls, &mut byte, &mut bit, &mut fault_slot);
    Played { number, calls, place: (byte, bit), fault_slot, results, image }
}

fn call(operation: usize, file: usize, position: usize, length: usize, fill: usize) -> Recorded {
    Recorded { operation, file, position, length, fill, zero: 0 }
}

/// One name, and these bytes behind it.
fn one(rest: &[u8]) -> Vec<u8> {
    [&[1][..], &name("A"), rest].concat()
}

const CREATE: [u8; 7] = [0x20, 0, 0, 0, 0x80, 0, 0];
const WRITE: [u8; 7] = [0x40, 0, 0, 0, 0x01, 0xA0, 0x80];
const END: [u8; 7] = [0; 7];

#[test]
fn places_of_faults() {
    let whole = one(&[CREATE, WRITE, END].concat());
    let cases: Vec<(Vec<u8>, usize)> = vec![
        (whole[..26].to_vec(), 208),
        (whole[..32].to_vec(), 256),
        (vec![], 0),
        (vec![0; 8], 0),
        (vec![0x21], 0),
        (vec![0x01], 8),
        ([&[0x02][..], &name("A")].concat(), 96),
        (one(&[&[0xA1][..], &[0xFF; 6], &END].concat()), 99),
        (one(&[&[0xA0][..], &[0xFF; 6], &END].concat()), 104),
        (one(&[&[0x80, 0, 0, 5, 0x80, 0, 0][..], &END].concat()), 128),
        (one(&[&[0xE0, 0, 0, 0, 0x80, 0x20, 0x80][..], &END].concat()), 137),
        (one(&[&[0x60, 0, 0, 0, 0x80, 0x20, 0x81][..], &END].concat()), 145),
        (one(&[0, 0, 0, 0, 0, 0x20, 0x80]), 137),
        (one(&[0xA9, 0, 0, 0, 0, 0]), 144),
        (one(&[0xA9, 0, 0, 0, 0, 0, 0]), 99),
        (one(&[&CREATE[..], &[0xA1, 0, 0, 0, 0, 0, 0]].concat()), 155),
    ];
    let disk = blank();
    for library in libraries() {
        for (trace, place) in &cases {
            let told = play(&*library, &disk, trace, 4);
            let bad = Played {
                number: TRACE,
                calls: 0,
                place: (place / 8, place % 8),
                fault_slot: NO_SLOT,
                results: vec![0xEE; 4],
                image: disk.image.clone(),
            };
            assert_eq!(told, bad, "{}: {trace:02X?}", library.title());
        }
        let told = play(&*library, &disk, &whole, 4);
        assert_eq!((told.number, told.calls, &told.results[..]), (0, 2, &[0, 0, 0xEE, 0xEE][..]));
        // "later bytes aren't read"
        assert_eq!(play(&*library, &disk, &[&whole[..], &[0xFF; 9]].concat(), 4), told);
    }
}

#[test]
fn results_of_calls() {
    let names = vec![name("A").to_vec(), name("B").to_vec(), b"???????????".to_vec()];
    let calls = [
        call(7, 0, 0, 256, 0),
        call(1, 0, 0, 0, 0),
        call(1, 1, 0, 511, 0),
        call(1, 2, 0, 256, 0),
        call(7, 2, 0, 0, 0),
        call(6, 2, 0, 0, 0),
        call(1, 0, 0, 256, 0),
        call(7, 0, 0, 256, 0),
        call(2, 0, 1_966_080, 1, 9),
        call(4, 0, 7_680, 0, 0),
        call(3, 0, 300, 3, 0x41),
        call(7, 0, 300, 3, 0),
        call(5, 0, 0, 0, 0),
        call(6, 0, 0, 0, 0),
        call(6, 0, 0, 0, 0),
    ];
    for library in libraries() {
        let told = play(&*library, &blank(), &pack(&names, &calls), calls.len());
        assert_eq!(told.results, [4, 12, 12, 3, 12, 3, 0, 10, 12, 12, 0, 0, 0, 0, 4], "{}", library.title());
    }
}

#[test]
fn order_of_refusals() {
    let disk = blank();
    let whole = one(&[CREATE, WRITE, END].concat());
    let mut faulty = disk.clone();
    faulty.image[hit_place(&disk.g, 0x80)] = 1;
    let short = Disk { image: disk.image[1..].to_vec(), ..disk.clone() };
    for library in libraries() {
        let number = |disk: &Disk, trace: &[u8], room| {
            let told = play(&*library, disk, trace, room);
            assert_eq!((&told.image, told.calls), (&disk.image, 0));
            assert_eq!(told.results, vec![0xEE; room]);
            (told.number, told.fault_slot)
        };
        assert_eq!(number(&short, &[], 0), (GEOMETRY, NO_SLOT));
        assert_eq!(number(&faulty, &[], 0), (22, 0x80));
        assert_eq!(number(&disk, &whole[..20], 0), (TRACE, NO_SLOT));
        assert_eq!(number(&disk, &whole, 1), (NO_ROOM, NO_SLOT));
        // "none for the end mark": no call needs no room.
        assert_eq!(play(&*library, &disk, &one(&END), 0).number, 0);
    }
}

/// A trace for a disk: names of it, of others, and none; calls of all sorts, most of them good.
fn random_trace(random: &mut Random, disk: &Disk) -> (Vec<Vec<u8>>, Vec<Recorded>) {
    let there: Vec<Vec<u8>> = files_of(&disk.image, &disk.g).keys().map(|n| n.to_vec()).collect();
    let names: Vec<Vec<u8>> = (0..random.within(1, 8))
        .map(|_| match random.within(0, 7) {
            0 => (0..11).map(|_| random.byte()).collect(),
            1..=3 if !there.is_empty() => random.pick(&there).clone(),
            _ => random_name(random).to_vec(),
        })
        .collect();
    let calls = (0..random.within(0, 30))
        .map(|_| {
            let file = random.within(0, names.len() - 1);
            let position = match random.within(0, 9) {
                0 => random.within(0, (1 << 24) - 1),
                1 => 1_966_080 - random.within(0, 300 - 1),
                _ => random.within(0, 9_000 - 1),
            };
            let length = match random.within(0, 9) {
                0 => random.within(0, 512 - 1),
                1 => 0,
                2..=4 => 256,
                _ => random.within(1, 256),
            };
            let fill = random.within(0, 256 - 1);
            match random.within(1, 9) {
                1 | 8 => call(1, file, 0, length, 0),
                operation @ (2 | 3) => call(operation, file, position, length, fill),
                9 => call(2, file, random.within(0, 2_000 - 1), length, fill),
                4 => call(4, file, position / 256, 0, 0),
                7 => call(7, file, position, length, 0),
                operation => call(operation, file, 0, 0, 0),
            }
        })
        .collect();
    (names, calls)
}

/// The library against the model: on whole traces, cut ones, and ones with a bit turned round.
#[test]
fn made_at_random() {
    let linked = genie_model::binding::linked();
    let mut random = Random::new(6);
    let (mut good, mut bad) = (0, 0);
    for _ in 0..400 {
        let disk = random_disk(&mut random);
        let (names, calls) = random_trace(&mut random, &disk);
        let whole = pack(&names, &calls);
        assert_eq!(read(&whole), Ok((names, calls.clone())));
        let mut turned = whole.clone();
        let place = random.within(0, 8 * whole.len() - 1);
        turned[place / 8] ^= 0x80 >> (place % 8);
        let cut = whole[..random.within(0, whole.len() - 1)].to_vec();
        for (trace, room) in [(&whole, calls.len()), (&whole, calls.len() / 2), (&turned, calls.len()), (&cut, 40)]
        {
            let told = play(&Model, &disk, trace, room);
            good += usize::from(told.number == 0);
            bad += usize::from(told.number == TRACE);
            let answer = play(&*linked, &disk, trace, room);
            assert!(answer == told, "{trace:02X?}: {} and {}", answer.number, told.number);
        }
    }
    assert!(good > 400 && bad > 400, "{good} and {bad}");
}

/// A call of a trace as single calls of a library: "handles come from a fresh open before each call but create".
fn singly(library: &dyn Library, image: &mut [u8], g: &Geometry, name: &[u8], one: &Recorded) -> Number {
    let (mut handle, mut old, mut slot) = ([0; HANDLE_BYTES], 0, 0);
    if one.operation == 1 {
        let birth =
            Birth { day: 0, month: 0, year: 0, length: one.length, main_code: 0, worker_code: 0, checking: false };
        return library.create(image, g, name, &birth, &mut old, &mut handle, &mut 0, &mut slot);
    }
    let length = if matches!(one.operation, 2 | 3 | 7) { one.length } else { 256 };
    let opened = library.open(image, g, name, length, false, 0, &mut handle, &mut 0, &mut slot);
    if opened != 0 {
        return opened;
    }
    if matches!(one.operation, 2 | 3 | 7) {
        handle[4..8].copy_from_slice(&(one.position as u32).to_le_bytes());
    }
    let mut record = [one.fill as u8; 256];
    match one.operation {
        2 | 3 => library.write_record(image, g, &mut handle, one.operation == 2, &record, &mut slot),
        4 => library.allot(image, g, &handle, one.position, &mut slot),
        5 => library.trim(image, g, &handle, &mut slot),
        6 => library.kill(image, g, &handle, &mut slot),
        _ => library.read_record(image, g, &mut handle, &mut record, &mut slot),
    }
}

/// "The final image equals that of the single calls": a thousand calls on a large disk, played back and made singly by the
/// library. Tells what both cost: `cargo test --release -p genie-model --test play -- --nocapture`.
#[test]
fn a_thousand_calls() {
    let linked = genie_model::binding::linked();
    let mut random = Random::new(66);
    let g = Geometry { blocks: 80, units: 4, start: 160, open_code: 0, system_disk: true, granule_sectors: 5 };
    let disk = random_disk_of(&mut random, g, 30);
    let there: Vec<Vec<u8>> = files_of(&disk.image, &g).keys().map(|n| n.to_vec()).collect();
    let names: Vec<Vec<u8>> = there.iter().take(32).cloned().collect();
    let calls: Vec<Recorded> = (0..1000)
        .map(|i| match i % 5 {
            0 => call(1, i % names.len(), 0, 256, 0),
            1 => call(3, i % names.len(), 0, 128, i % 256),
            2 => call(7, i % names.len(), 0, 64, 0),
            3 => call(2, i % names.len(), 100 + i, 256, i % 256),
            _ => call(5, i % names.len(), 0, 0, 0),
        })
        .collect();
    let whole = pack(&names, &calls);
    let (mut image, mut results) = (disk.image.clone(), vec![0; calls.len()]);
    let (mut count, mut byte, mut bit, mut fault_slot) = (0, 0, 0, 0);
    let begin = Instant::now();
    let number =
        linked.play(&mut image, &g, &whole, &mut results, &mut count, &mut byte, &mut bit, &mut fault_slot);
    let together = begin.elapsed();
    assert_eq!((number, count), (0, calls.len()));
    let mut single = disk.image.clone();
    let begin = Instant::now();
    let numbers: Vec<Number> =
        calls.iter().map(|one| singly(&*linked, &mut single, &g, &names[one.file], one)).collect();
    let apart = begin.elapsed();
    assert_eq!(results, numbers);
    assert!(image == single);
    let refused = results.iter().filter(|&&number| number != 0).count();
    println!("{} files, {refused} calls refused: {together:?} together, {apart:?} one by one", there.len());
}
