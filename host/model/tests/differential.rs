//! The linked library against the model, and demand 3 on the linked library.

use genie_model::binding::linked;
use genie_model::compare::{run, what_is, Bounds, Seen};
use genie_model::directory::{directory_sectors, entry, slots};
use genie_model::disks::{random_disk, Disk};
use genie_model::geometry::SECTOR_BYTES;
use genie_model::interleave::{demand_three, Tally};
use genie_model::library::Library;
use genie_model::model::Model;
use genie_model::random::Random;

const SEED: u64 = 2026;
/// Enough for every refusal and event to occur. The seconds are for a machine that hangs only: the number
/// of calls ends the run, so that it is the same everywhere.
const BOUNDS: Bounds = Bounds { seed: SEED, seconds: 600.0, calls: 40_000 };

/// The random calls are worth something: they reach every refusal of every call and every event.
#[test]
fn random_calls_reach_everything() {
    let mut seen = Seen::default();
    run(&Model, &BOUNDS, &mut seen).unwrap_or_else(|text| panic!("the model differs from itself: {text}"));
    assert!(seen.missing().is_empty(), "{:?}\n{}", seen.missing(), seen.table());
}

#[test]
fn library_and_model_agree() {
    let library = linked();
    let mut seen = Seen::default();
    println!("seed {}", SEED + 1);
    run(&*library, &Bounds { seed: SEED + 1, ..BOUNDS }, &mut seen).unwrap_or_else(|text| panic!("{text}"));
    assert!(seen.missing().is_empty(), "{:?}\n{}", seen.missing(), seen.table());
}

#[test]
fn interleavings_agree_on_the_library() {
    let library = linked();
    let (mut seeds, mut tally) = (Random::new(SEED), Tally::default());
    println!("seed {SEED}");
    for _ in 0..200 {
        demand_three(&*library, seeds.draw(), &mut tally).unwrap_or_else(|text| panic!("{text}"));
    }
    assert!(tally.accepted > 400 && tally.quiet > 80 && tally.other_image > 40, "{tally:?}");
}

/// A small disk with a system file, a file with at least two extensions, and an empty one.
fn rich_disk(random: &mut Random) -> Disk {
    loop {
        let disk = random_disk(random);
        let d = directory_sectors(&disk.image, &disk.g).expect("consistent");
        let used = || slots(d).map(|slot| entry(&disk.image, &disk.g, slot)).filter(|e| e.in_use());
        let extensions = used().filter(|e| e.is_extension()).count();
        let system = used().any(|e| !e.is_extension() && e.is_system());
        let empty = used().any(|e| !e.is_extension() && e.pairs().is_empty());
        if d == 10 && (2..9).contains(&extensions) && system && empty && disk.g.granules() < 200 {
            return disk;
        }
    }
}

/// Each byte of a directory changed alone, in turn: each bit of it, and values that mean something.
#[test]
fn every_byte_of_a_directory_changed() {
    let library = linked();
    let mut random = Random::new(SEED);
    println!("seed {SEED}");
    let (mut kept, mut broken) = (0, 0);
    for _ in 0..2 {
        let disk = rich_disk(&mut random);
        let from = disk.g.start * SECTOR_BYTES;
        let mut image = disk.image.clone();
        for place in from..from + 10 * SECTOR_BYTES {
            let was = image[place];
            let flipped = (0..8).map(|bit| was ^ (1 << bit));
            for to in flipped.chain([0x00, 0xFF, 0xFE, 0x90, 0x10, 0x20, was.wrapping_add(1), was.wrapping_sub(1)])
            {
                image[place] = to;
                let (mut ours, mut theirs) = (0, 0);
                let verdict = Model.check(&image, &disk.g, &mut ours);
                let answer = library.check(&image, &disk.g, &mut theirs);
                let what = || format!("{} from {was:02X}H to {to:02X}H", what_is(&disk.image, &disk.g, place));
                assert_eq!((answer, theirs), (verdict, ours), "{} on {:?}", what(), disk.g);
                if verdict == 0 {
                    kept += 1;
                } else {
                    broken += 1;
                }
            }
            image[place] = was;
        }
    }
    assert!(kept > 5_000 && broken > 5_000, "{kept} still consistent, {broken} not");
}
