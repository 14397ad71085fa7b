//! What this crate says of a growth (`Disk::growth`, `Disk::slots`) against what the library answers, on random disks.

use genie_dos::*;
use genie_model::disks::random_disk;
use genie_model::random::Random;

const DISKS: usize = 400;
const DATE: Date = Date::new(1983, 10, 9);

/// Every file of random consistent disks, and so many granules more: taken, or refused with 8 or 9.
#[test]
fn a_growth_fits_exactly_where_the_library_takes_it() {
    let mut random = Random::new(13);
    let (mut taken, mut no_slot, mut no_space) = (0, 0, 0);
    for number in 0..DISKS {
        let made = random_disk(&mut random);
        let g = made.g;
        let geometry = Geometry::new(g.blocks, g.units, g.start, g.open_code)
            .with_system_disk(g.system_disk)
            .with_granule_sectors(g.granule_sectors);
        let disk = Disk::new(made.image, geometry);
        let free = disk.free_space().unwrap().free;
        for entry in disk.entries().unwrap().iter().filter(|entry| !entry.is_system() && !entry.may_not_grow()).take(6)
        {
            let growth = disk.growth(&entry.name()).unwrap();
            assert_eq!(growth.lengthening + growth.stretches.iter().sum::<usize>(), free);
            let handle = disk.open(&entry.name(), 1, Password::Unchecked).unwrap();
            let some = [random.within(0, free), random.within(0, free), growth.lengthening + growth.room];
            for granules in [1, free / 2, free, free + 1].into_iter().chain(some).filter(|&granules| granules > 0) {
                let what = format!("disk {number} of seed 13, {} and {granules} granules: {growth:?}", entry.name());
                let mut copy = disk.clone();
                let answer = copy.allot(&handle, copy.geometry().granule_sectors * (entry.granules() + granules) - 1);
                let wanted = match growth.runs_needed(granules) {
                    None => Err(Refusal::NoSpace),
                    Some(runs) if runs > growth.room => Err(Refusal::NoSlot),
                    Some(_) => Ok(()),
                };
                assert_eq!(answer, wanted, "{what}");
                assert_eq!(
                    (growth.fits(granules), granules > free),
                    (answer.is_ok(), answer == Err(Refusal::NoSpace)),
                    "{what}"
                );
                match answer {
                    Ok(()) => taken += 1,
                    Err(Refusal::NoSlot) => no_slot += 1,
                    Err(_) => no_space += 1,
                }
            }
        }
    }
    println!("{taken} growths taken, {no_slot} refused for slots, {no_space} for granules");
    assert!([taken, no_slot, no_space].iter().all(|&many| many > DISKS / 4));
}

fn create(disk: &mut Disk, typed: &str) -> Result<Created, Refusal> {
    let new = NewFile::open(disk.geometry(), DATE);
    disk.create(&typed.parse().unwrap(), &new)
}

fn counted(disk: &Disk) -> Result<(usize, usize), Refusal> {
    disk.slots().map(|slots| (slots.all, slots.free))
}

#[test]
fn create_finds_a_slot_exactly_where_one_is_free() {
    for system_disk in [true, false] {
        let geometry = Geometry::new(40, 2, 200, 0).with_system_disk(system_disk);
        for (sectors, all) in [(10, 32), (15, 72), (20, 112), (25, 152), (30, 192)] {
            let all = if system_disk { all } else { all + 30 };
            let mut disk = Disk::blank(geometry, sectors, &[0]).unwrap();
            for used in 0..all {
                assert_eq!(counted(&disk), Ok((all, all - used)));
                create(&mut disk, &format!("A{used}")).unwrap();
            }
            assert_eq!(counted(&disk), Ok((all, 0)));
            assert_eq!(create(&mut disk, "B"), Err(Refusal::NoSlot));
        }
    }
}
