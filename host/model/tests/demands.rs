//! The model against demands 1 and 2: it refuses without a trace, and accepted calls do to the disk
//! what they would do to a plain list of named files.

use genie_model::call::{perform, Call, FAULT_SLOT, PLACE};
use genie_model::caller::Caller;
use genie_model::calls::{Birth, ACCEPTED, NAME, NO_PLACE, NO_SLOT};
use genie_model::consistency::consistent;
use genie_model::directory::{directory_sectors, entry, files, owned, slots};
use genie_model::disks::random_disk;
use genie_model::effect::effect;
use genie_model::geometry::SECTOR_BYTES;
use genie_model::handle::{Handle, HANDLE_BYTES};
use genie_model::interleave::{demand_three, Tally};
use genie_model::model::Model;
use genie_model::names::{comes_in, hash};
use genie_model::plain::files_of;
use genie_model::play::{read, Recorded, TRACE};
use genie_model::random::Random;
use genie_model::space::{free_granules, reserved_granules};

#[test]
fn calls_do_what_a_plain_list_of_files_would() {
    let mut seeds = Random::new(3);
    let mut calls = 0;
    while calls < 8_000 {
        let seed = seeds.draw();
        let mut random = Random::new(seed);
        let disk = random_disk(&mut random);
        let g = disk.g;
        if g.granules() > 500 {
            continue;
        }
        let d = directory_sectors(&disk.image, &g).expect("consistent");
        let mut caller = Caller::new(&disk, true);
        let mut image = disk.image.clone();
        let reserved = reserved_granules(&image, &g, d);
        for number in 0..60 {
            calls += 1;
            let call = caller.make(&mut random, &image, &g);
            let before = image.clone();
            let mut plain = files_of(&before, &g);
            let outcome = perform(&Model, &mut image, &g, &call);
            let at = format!("disk seed {seed}, call {number}: {call:02X?}");
            assert!(outcome.within, "{at}");
            caller.learn(&call, &outcome);

            let (lent_handle, lent_buffer, lent_name) = call.lends();
            if outcome.number != ACCEPTED {
                assert!(image == before, "a refusal wrote: {at}");
                assert_eq!(outcome.buffer, lent_buffer, "{at}");
                assert_eq!(outcome.name, lent_name, "{at}");
                let gives_handle = matches!(call, Call::Open { .. } | Call::Create { .. });
                if gives_handle && lent_handle.len() >= HANDLE_BYTES {
                    assert_eq!(outcome.handle[..HANDLE_BYTES], [0; HANDLE_BYTES], "{at}");
                    assert_eq!(outcome.handle[HANDLE_BYTES..], lent_handle[HANDLE_BYTES..], "{at}");
                } else {
                    assert_eq!(outcome.handle, lent_handle, "{at}");
                }
                for (title, told) in &outcome.numbers {
                    let good = match *title {
                        FAULT_SLOT => *told == NO_SLOT,
                        PLACE => (*told < NO_PLACE) == (outcome.number == NAME),
                        "compared" => *told == 0 || outcome.number == 4,
                        "position" => *told == 0 || (31..=33).contains(&outcome.number),
                        "byte" | "bit" => *told == 0 || outcome.number == TRACE,
                        _ => *told == 0,
                    };
                    assert!(good, "{title} = {told}: {at}");
                }
                continue;
            }

            assert!(consistent(&image, &g), "{at}");
            assert_eq!(reserved_granules(&image, &g, d), reserved, "{at}");
            let all_owned: usize = files(&image, &g, d).iter().map(|&file| owned(&image, &g, d, file).len()).sum();
            assert_eq!(free_granules(&image, &g).count() + reserved.len() + all_owned, g.granules(), "{at}");

            // Reads answer the plain file's bytes.
            let handled = || Handle::read(lent_handle).expect("accepted");
            match &call {
                Call::ReadRecord { .. } | Call::ReadBytes { .. } => {
                    let h = handled();
                    let file = &plain[&h.name];
                    let length = if let Call::ReadBytes { .. } = call { lent_buffer.len() } else { h.length() };
                    if !owns_directory(&before, &g, d, h.slot) {
                        assert_eq!(outcome.buffer[..length], file.bytes[h.position()..][..length], "{at}");
                    }
                    assert_eq!(outcome.buffer[length..], lent_buffer[length..], "{at}");
                    let after = Handle::read(&outcome.handle).expect("19 bytes");
                    assert_eq!(after, Handle { position: h.position + length as u32, ..h }, "{at}");
                }
                Call::ReadSector { k, .. } => {
                    let h = handled();
                    let part = &before[outcome.numbered("from")..outcome.numbered("to")];
                    assert!((1..=SECTOR_BYTES).contains(&part.len()), "{at}");
                    if !owns_directory(&before, &g, d, h.slot) {
                        let bytes = &plain[&h.name].bytes;
                        let end = ((k + 1) * SECTOR_BYTES).min(bytes.len());
                        assert_eq!(part, &bytes[k * SECTOR_BYTES..end], "{at}");
                    }
                }
                Call::LookUp { name } => {
                    let name = comes_in(name).expect("accepted");
                    let slot = outcome.numbered("slot") as u8;
                    let up_to_hit = slots(d)
                        .filter(|&other| other <= slot)
                        .filter(|&other| genie_model::directory::hit(&before, &g, other) == hash(&name))
                        .count();
                    assert_eq!(outcome.numbered("compared"), up_to_hit, "{at}");
                    assert_eq!(entry(&before, &g, slot).name(), name, "{at}");
                }
                Call::WriteRecord { .. } | Call::WriteBytes { .. } => {
                    let h = handled();
                    let length = if let Call::WriteBytes { .. } = call { lent_buffer.len() } else { h.length() };
                    let after = Handle::read(&outcome.handle).expect("19 bytes");
                    assert_eq!(after, Handle { position: h.position + length as u32, ..h }, "{at}");
                    // What was written is what is read back.
                    let mut buffer = vec![0; length];
                    let again = &mut h.bytes();
                    assert_eq!(genie_model::calls::read_bytes(&image, &g, again, &mut buffer), ACCEPTED, "{at}");
                    assert_eq!(buffer, lent_buffer[..length], "{at}");
                }
                // "On a consistent disk the number equals the disk's granules less those reserved and those owned."
                Call::Free => {
                    assert_eq!(outcome.numbered("free"), g.granules() - reserved.len() - all_owned, "{at}")
                }
                _ => {}
            }

            // A file brought back bears what its entry bore, bit 4 set; every byte of the disk's data is as it was.
            if let Call::BringBack { slot } = call {
                let e = entry(&before, &g, slot as u8);
                let gained = files_of(&image, &g).remove(&e.name()).expect("it is there again");
                let mut attributes = [e.0[0x00] | 1 << 4, e.0[0x01], e.0[0x02], e.0[0x04], 0, 0, 0, 0];
                attributes[4..].copy_from_slice(&e.0[0x10..0x14]);
                assert_eq!((gained.attributes, Some(gained.bytes.len())), (attributes, e.size()), "{at}");
                assert_eq!(gained.granules, outcome.numbered("granules"), "{at}");
                let directory = g.start * SECTOR_BYTES..(g.start + d) * SECTOR_BYTES;
                assert!(image[..directory.start] == before[..directory.start], "{at}");
                assert!(image[directory.end..] == before[directory.end..], "{at}");
                assert!(plain.insert(e.name(), gained).is_none(), "{at}");
            }

            // The list afterwards is the list with the call's own file changed.
            let files_before = plain.len();
            effect(&mut plain, &g, &call);
            if let Call::Play { trace, .. } = &call {
                let (names, recorded) = read(trace).expect("accepted");
                for (one, _) in recorded.iter().zip(&outcome.buffer).filter(|(_, number)| **number == ACCEPTED) {
                    effect(&mut plain, &g, &single(&names[one.file], one));
                }
            }
            let after = files_of(&image, &g);
            assert!(after == plain, "other files than a plain list: {at}");
            if let Call::Create { .. } = call {
                assert_eq!(outcome.numbered("old") == 1, plain.len() == files_before, "{at}");
            }
        }
    }
}

fn owns_directory(image: &[u8], g: &genie_model::geometry::Geometry, d: usize, file: u8) -> bool {
    let directory = genie_model::directory::directory_granules(g, d);
    owned(image, g, d, file).iter().any(|granule| directory.contains(granule))
}

/// A call of a trace that was accepted, as a call by itself.
fn single(name: &[u8], one: &Recorded) -> Call {
    let name = comes_in(name).expect("accepted");
    let held = Handle { slot: 0, level: 0, length: one.length as u16, position: one.position as u32, name };
    let handle = held.bytes().to_vec();
    match one.operation {
        1 => {
            let (length, name) = (one.length, name.to_vec());
            let birth = Birth { day: 0, month: 0, year: 0, length, main_code: 0, worker_code: 0, checking: false };
            Call::Create { name, birth, handle }
        }
        2 | 3 => {
            Call::WriteRecord { handle, sequential: one.operation == 2, buffer: vec![one.fill as u8; one.length] }
        }
        4 => Call::Allot { handle, k: one.position },
        5 => Call::Trim { handle },
        6 => Call::Kill { handle },
        _ => Call::ReadRecord { handle, buffer: Vec::new() },
    }
}

#[test]
fn interleavings_agree_on_the_model() {
    let (mut seeds, mut tally) = (Random::new(4), Tally::default());
    for _ in 0..250 {
        demand_three(&Model, seeds.draw(), &mut tally).unwrap_or_else(|text| panic!("{text}"));
    }
    assert!(tally.accepted > 500 && tally.quiet > 100 && tally.other_image > 50, "{tally:?}");
}
