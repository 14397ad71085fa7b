//! Names in small letters (02 §7), on the model and on the linked library: what a name comes in as, the place of its first bad
//! byte, and that nothing behind the fold knows the bytes that were given.

use genie_model::binding::libraries;
use genie_model::by_hand::{change, put_file, tells};
use genie_model::call::{perform, Call, Outcome, PLACE};
use genie_model::calls::{Birth, Number, ACCEPTED, GEOMETRY, NAME, NOT_FOUND, NO_PLACE, NO_SLOT, RANGE, STALE};
use genie_model::consistency::faults;
use genie_model::directory::{entry, hit};
use genie_model::disks::{empty_disk, Disk};
use genie_model::fault::Kind;
use genie_model::geometry::Geometry;
use genie_model::handle::{Handle, HANDLE_BYTES};
use genie_model::interleave::{interleaved, List, Step};
use genie_model::library::Library;
use genie_model::names::{hash, name, Name, FULL_NAME_BYTES};

const NOTHING_WHOLE: Number = 18;
const FILE: u8 = 0x80;

/// The bytes of a text, in which `_` stands for a blank, 20H.
fn blanks(text: &str) -> Vec<u8> {
    text.replace('_', " ").into_bytes()
}

/// Names that come in, and as what.
const GOOD: [(&str, &str); 9] = [
    ("puls01__dat", "PULS01__DAT"),
    ("Puls01__Dat", "PULS01__DAT"),
    ("PULS01__DAT", "PULS01__DAT"),
    ("{|}________", "[\\]________"),
    ("[\\]________", "[\\]________"),
    ("a__________", "A__________"),
    ("z__________", "Z__________"),
    ("09az}[{|abc", "09AZ][[\\ABC"),
    ("a_______}__", "A_______]__"),
];

/// Names that do not, and the place of the first bad byte.
const BAD: [(&str, usize); 18] = [
    ("___________", 0),
    ("________DAT", 0),
    ("________dat", 0),
    ("A_B________", 2),
    ("a_b________", 2),
    ("PULS01__D_T", 10),
    ("puls01__d_t", 10),
    // An allowed byte can be the first bad one; what is worse comes after it.
    ("PULS_01~___", 5),
    ("A______B___", 7),
    ("A_______.__", 8),
    // The type begins anew: a blank at 8 is good, and so is a letter at 8 behind the name's blanks.
    ("A________A_", 9),
    ("A_________A", 10),
    ("a/dat______", 1),
    ("", 0),
    ("abc", 0),
    ("puls01__da", 0),
    ("puls01__dat_", 0),
    // No byte of a name that has not 11 is looked at.
    ("PULS01~__DAT", 0),
];

fn geometry() -> Geometry {
    Geometry { blocks: 16, units: 2, start: 80, open_code: 0, system_disk: true, granule_sectors: 5 }
}

fn birth() -> Birth {
    Birth { day: 9, month: 10, year: 3, length: 256, main_code: 0, worker_code: 0, checking: false }
}

fn of_name(given: &[u8]) -> Call {
    Call::Name { name: given.to_vec(), folded: vec![0xEE; 13] }
}

/// The three calls by name.
fn by_name(given: &[u8]) -> [Call; 3] {
    let (name, handle) = (given.to_vec(), vec![0xEE; HANDLE_BYTES]);
    [
        Call::LookUp { name: name.clone() },
        Call::Open { name: name.clone(), length: 256, checking: false, code: 0, handle: handle.clone() },
        Call::Create { name, birth: birth(), handle },
    ]
}

/// The call on a copy of the disk.
fn on(library: &dyn Library, disk: &Disk, call: &Call) -> Outcome {
    let outcome = perform(library, &mut disk.image.clone(), &disk.g, call);
    assert!(outcome.within, "{}: {call:02X?}", library.title());
    outcome
}

fn told(outcome: &Outcome) -> (Number, usize) {
    (outcome.number, outcome.numbered(PLACE))
}

#[test]
fn the_folded_name() {
    let disk = empty_disk(geometry(), 10, &[0]);
    for library in libraries() {
        for (given, folded) in GOOD {
            let outcome = on(&*library, &disk, &of_name(&blanks(given)));
            assert_eq!(told(&outcome), (ACCEPTED, NO_PLACE), "{}: {given}", library.title());
            let mut room = blanks(folded);
            room.extend([0xEE; 2]);
            assert_eq!(outcome.buffer, room, "{}: {given}", library.title());
        }
    }
}

#[test]
fn the_first_bad_byte() {
    let disk = empty_disk(geometry(), 10, &[0]);
    for library in libraries() {
        for (given, place) in BAD {
            let title = format!("{}: {given}", library.title());
            let outcome = on(&*library, &disk, &of_name(&blanks(given)));
            assert_eq!(told(&outcome), (NAME, place), "{title}");
            assert_eq!(outcome.buffer, [0xEE; 13], "{title}");
            for call in by_name(&blanks(given)) {
                assert_eq!(told(&on(&*library, &disk, &call)), (NAME, place), "{title}: {}", call.title());
            }
        }
    }
}

/// 29 codes fold, 61H to 7DH, and no other does: each of the 256 at each place, by itself and in the calls.
#[test]
fn every_byte_at_every_place() {
    let disk = empty_disk(geometry(), 10, &[0]);
    for library in libraries() {
        for place in 0..FULL_NAME_BYTES {
            for byte in 0..=255 {
                // All places before are filled, all behind it too: a blank is bad for what stands behind it.
                let mut given = *b"ABCDEFGHXYZ";
                given[place] = byte;
                let mut folded = given;
                folded[place] = if (0x61..=0x7D).contains(&byte) { byte - 0x20 } else { byte };
                let allowed = byte.is_ascii_digit() || (0x41..=0x5D).contains(&folded[place]);
                let wanted = match byte {
                    b' ' if [7, 10].contains(&place) => None,
                    b' ' if place > 0 => Some(place + 1),
                    _ if allowed => None,
                    _ => Some(place),
                };
                let title = format!("{}: {byte:02X}H at {place}", library.title());
                let outcome = on(&*library, &disk, &of_name(&given));
                let number = if wanted.is_none() { ACCEPTED } else { NAME };
                assert_eq!(told(&outcome), (number, wanted.unwrap_or(NO_PLACE)), "{title}");
                if wanted.is_none() {
                    assert_eq!(outcome.buffer[..FULL_NAME_BYTES], folded, "{title}");
                }
                let [look_up, open, create] = by_name(&given).map(|call| on(&*library, &disk, &call));
                let number = if wanted.is_none() { NOT_FOUND } else { NAME };
                for outcome in [look_up, open] {
                    assert_eq!(told(&outcome), (number, wanted.unwrap_or(NO_PLACE)), "{title}");
                }
                assert_eq!(told(&create), told(&outcome), "{title}");
                let held = if wanted.is_none() { folded } else { [0; FULL_NAME_BYTES] };
                assert_eq!(create.handle[8..], held, "{title}");
            }
        }
    }
}

/// 12 comes before 3, the room as it stood under both; the disk's numbers come before in the calls. The place is told under 3 only.
#[test]
fn other_numbers() {
    let disk = empty_disk(geometry(), 10, &[0]);
    let mut broken = disk.clone();
    broken.image[81 * 256 + 0x80] = 0xA2;
    let mut odd = disk.clone();
    odd.g.start += 1;
    for library in libraries() {
        let title = library.title();
        for given in ["puls01__dat", "PULS_01~___", "", "abc"].map(blanks) {
            for room in 0..FULL_NAME_BYTES {
                let call = Call::Name { name: given.clone(), folded: vec![0xEE; room] };
                let outcome = on(&*library, &disk, &call);
                assert_eq!(told(&outcome), (RANGE, NO_PLACE), "{title}: room {room}");
                assert_eq!(outcome.buffer, vec![0xEE; room], "{title}: room {room}");
            }
            for call in by_name(&given) {
                let outcome = on(&*library, &odd, &call);
                assert_eq!(told(&outcome), (GEOMETRY, NO_PLACE), "{title}: {}", call.title());
                let outcome = on(&*library, &broken, &call);
                assert_eq!(
                    told(&outcome),
                    (Kind::HitAgainstEntry as Number, NO_PLACE),
                    "{title}: {}",
                    call.title()
                );
                assert_eq!(outcome.fault_slot(), Some(0x80), "{title}: {}", call.title());
            }
            let open = Call::Open { name: given.clone(), length: 0, checking: true, code: 0, handle: vec![1; 19] };
            assert_eq!(told(&on(&*library, &disk, &open)), (RANGE, NO_PLACE), "{title}");
            let birth = Birth { day: 32, ..birth() };
            let create = Call::Create { name: given, birth, handle: vec![1; 19] };
            assert_eq!(told(&on(&*library, &disk, &create)), (RANGE, NO_PLACE), "{title}");
        }
    }
}

fn create(library: &dyn Library, disk: &mut Disk, given: &str) -> (Number, usize, Handle) {
    let (mut old, mut handle, mut place, mut slot) = (9, [0xEE; HANDLE_BYTES], 99, 999);
    let given = blanks(given);
    let number =
        library.create(&mut disk.image, &disk.g, &given, &birth(), &mut old, &mut handle, &mut place, &mut slot);
    assert_eq!((place, slot), (NO_PLACE, NO_SLOT), "{}", library.title());
    (number, old, Handle::read(&handle).expect("19 bytes"))
}

/// Entry, HIT byte, handle and count have the folded name; however it is given the file is the same one.
#[test]
fn one_file() {
    for library in libraries() {
        let title = library.title();
        let mut disk = empty_disk(geometry(), 10, &[0]);
        let (number, old, handle) = create(&*library, &mut disk, "puls01__dat");
        let capital = name("PULS01/DAT");
        assert_eq!((number, old), (ACCEPTED, 0), "{title}");
        assert_eq!((handle.slot, handle.name), (FILE, capital), "{title}");
        assert_eq!(entry(&disk.image, &disk.g, FILE).name(), capital, "{title}");
        assert_eq!(hit(&disk.image, &disk.g, FILE), hash(&capital), "{title}");
        assert_eq!(faults(&disk.image, &disk.g), [], "{title}");

        let before = disk.image.clone();
        for given in ["Puls01__Dat", "PULS01__DAT", "puls01__dat"] {
            assert_eq!(create(&*library, &mut disk, given), (ACCEPTED, 1, handle), "{title}: {given}");
            let [look_up, open, _] = by_name(&blanks(given)).map(|call| on(&*library, &disk, &call));
            assert_eq!(told(&look_up), (ACCEPTED, NO_PLACE), "{title}: {given}");
            let found = (look_up.numbered("slot"), look_up.numbered("compared"));
            assert_eq!(found, (FILE.into(), 1), "{title}: {given}");
            assert_eq!(
                (told(&open), &open.handle[..]),
                ((ACCEPTED, NO_PLACE), &handle.bytes()[..]),
                "{title}: {given}"
            );
        }
        assert!(disk.image == before, "{title}");
    }
}

/// A handle's name does not come in: with a small letter it is another's, so the handle is stale.
#[test]
fn a_handle_with_a_small_letter() {
    for library in libraries() {
        let title = library.title();
        let mut disk = empty_disk(geometry(), 10, &[0]);
        let good = create(&*library, &mut disk, "puls01__dat").2.bytes();
        assert_eq!(library.trim(&mut disk.image.clone(), &disk.g, &good, &mut 0), ACCEPTED, "{title}");
        for place in [0, 3, 8, 10] {
            let mut small = good;
            small[8 + place] += 0x20;
            let mut image = disk.image.clone();
            assert_eq!(library.trim(&mut image, &disk.g, &small, &mut 0), STALE, "{title}: {place}");
            assert_eq!(library.kill(&mut image, &disk.g, &small, &mut 0), STALE, "{title}: {place}");
            assert_eq!(library.allot(&mut image, &disk.g, &small, 0, &mut 0), STALE, "{title}: {place}");
            let (mut from, mut to) = (1, 1);
            let sector = library.read_sector(&image, &disk.g, &small, 0, &mut from, &mut to, &mut 0);
            assert_eq!((sector, from, to), (STALE, 0, 0), "{title}: {place}");
            assert!(image == disk.image, "{title}: {place}");
        }
    }
}

/// "A small letter in an entry on disk is still inconsistent": 23, whatever the HIT byte; and killed it is nothing whole, 18.
#[test]
fn a_small_letter_on_the_disk() {
    for (at, letter) in [(0x05, b'p'), (0x08, b's'), (0x0D, b'd'), (0x0F, b'}')] {
        let mut disk = empty_disk(geometry(), 10, &[0]);
        put_file(&mut disk, FILE, "PULS01/DAT", &[]);
        change(&mut disk, FILE, |e| e.0[at] = letter);
        let spelt: Name = entry(&disk.image, &disk.g, FILE).name();
        let hit_place = 81 * 256 + usize::from(FILE);
        disk.image[hit_place] = hash(&spelt);
        tells(&disk, Kind::Name, Some(FILE), "a small letter in an entry, its HIT byte the hash of it");
        // Under the hash of the folded name the HIT byte is at fault too, and that is told first.
        disk.image[hit_place] = hash(&name("PULS01/DAT"));
        tells(
            &disk,
            Kind::HitAgainstEntry,
            Some(FILE),
            "a small letter in an entry, its HIT byte the folded name's",
        );
        // Killed.
        disk.image[hit_place] = 0;
        change(&mut disk, FILE, |e| e.0[0] = 0);
        for library in libraries() {
            let (mut slots, mut granules, mut image) = (9, 9, disk.image.clone());
            let number = library.bring_back(&mut image, &disk.g, FILE.into(), &mut slots, &mut granules, &mut 0);
            assert_eq!((number, slots, granules), (NOTHING_WHOLE, 0, 0), "{}", library.title());
            assert!(image == disk.image, "{}", library.title());
        }
    }
}

/// Demand 3: "'Different names' in the third demand means different after folding". Under `a` and `A` two lists work on one file, and
/// their order counts; under `a` and `B` it does not.
#[test]
fn different_after_folding() {
    let steps = |byte: u8| {
        let birth = Birth { length: 1, ..birth() };
        vec![Step::Create { birth }, Step::Write { by: 0, at: Some(0), sequential: true, bytes: vec![byte] }]
    };
    let list = |text: &str, byte| List { name: name(text), steps: steps(byte) };
    let disk = empty_disk(geometry(), 10, &[0]);
    for library in libraries() {
        let both = |first: &List, second: &List| {
            [[false, false, true, true], [true, true, false, false]].map(|order| {
                let outcome = interleaved(&*library, &disk, [first, second], &order);
                assert!(outcome.accepted, "{}", library.title());
                outcome.files.expect("accepted")
            })
        };
        let [one, two] = both(&list("a", 1), &list("B", 2));
        assert_eq!(one, two, "{}", library.title());
        assert_eq!((&one[&name("A")].bytes[..], &one[&name("B")].bytes[..]), (&[1][..], &[2][..]));
        let [one, two] = both(&list("a", 1), &list("A", 2));
        assert_eq!((one.len(), &one[&name("A")].bytes[..], &two[&name("A")].bytes[..]), (1, &[2][..], &[1][..]));
    }
}
