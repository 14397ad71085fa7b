//! Every call through the wrapper: that arguments and answers reach their places, and each refusal by its number.

use genie_dos::*;

const GEOMETRY: Geometry = Geometry::new(9, 5, 60, 0x4296);
const DATE: Date = Date::new(1983, 10, 9);

fn name(typed: &str) -> Name {
    typed.parse().unwrap()
}

/// A disk of 45 granules, directory of 15 sectors in granules 12 to 14, granule 0 reserved.
fn blank() -> Disk {
    Disk::blank(GEOMETRY, 15, &[0]).unwrap()
}

fn plain() -> NewFile {
    NewFile::open(GEOMETRY, DATE)
}

/// A disk with a file of these bytes.
fn with_file(typed: &str, bytes: &[u8]) -> Disk {
    let mut disk = blank();
    put(&mut disk, typed, bytes);
    disk
}

fn put(disk: &mut Disk, typed: &str, bytes: &[u8]) {
    disk.create(&name(typed), &plain()).unwrap();
    for (i, byte) in bytes.iter().enumerate() {
        let mut handle = disk.open(&name(typed), 1, Password::Unchecked).unwrap();
        handle.set_position(i as u32);
        disk.write_record(&mut handle, Kind::Sequential, &[*byte]).unwrap();
    }
}

/// Where the entry of a slot lies in the image.
fn entry_at(slot: u8) -> usize {
    (GEOMETRY.start + usize::from(slot % 32) + 2) * 256 + 32 * usize::from(slot / 32)
}

/// Runs a call that must be refused, on a copy, and sees that it left the disk as it was.
fn refusal<T: std::fmt::Debug>(disk: &Disk, call: impl FnOnce(&mut Disk) -> Result<T, Refusal>) -> Refusal {
    let mut copy = disk.clone();
    let refusal = call(&mut copy).expect_err("the call is refused");
    assert!(copy.image() == disk.image(), "{refusal} changed the image");
    refusal
}

/// The number of that refusal.
fn refused<T: std::fmt::Debug>(disk: &Disk, call: impl FnOnce(&mut Disk) -> Result<T, Refusal>) -> u8 {
    refusal(disk, call).number()
}

#[test]
fn the_worked_listing() {
    let mut disk = Disk::blank(Geometry::new(16, 2, 80, 0x4296), 10, &[0]).unwrap();
    put(&mut disk, "PULS01/DAT", &[1; 257]);
    disk.create(&name("LEER"), &plain()).unwrap();
    assert_eq!(disk.listing().unwrap(), "FILES 2\nPULS01/DAT 257 1\nLEER 0 0\nFREE 28\n");
}

#[test]
fn create_puts_each_number_in_its_place() {
    let mut disk = blank();
    let new = plain().with_date(Date::new(1987, 11, 22)).with_record_length(80).with_codes(0x1234, 0x5678);
    let Created { handle, old, .. } = disk.create(&name("ABC/D"), &new).unwrap();
    assert!(!old);
    // The first permitted slot: row 0, s 8.
    assert_eq!((handle.slot(), handle.level(), handle.record_length(), handle.position()), (8, 0, 80, 0));
    assert_eq!(handle.name(), name("ABC/D"));
    let at = entry_at(8);
    let mut entry = *b"\x10\x16\x7b\x00\x50ABC     D  \x34\x12\x78\x56\x00\x00##########";
    entry[0x16..].fill(0xff);
    assert_eq!(disk.image()[at..at + 32], entry);

    let entry = &disk.entries().unwrap()[0];
    assert_eq!((entry.slot(), entry.name(), entry.date()), (8, name("ABC/D"), Date::new(1987, 11, 22)));
    assert_eq!((entry.main_code(), entry.worker_code(), entry.record_length()), (0x1234, 0x5678, 80));

    // An old file: opened by the main code if checking is on, and nothing changes.
    assert_eq!(refused(&disk, |d| d.create(&name("ABC/D"), &plain())), 5);
    let before = disk.image().to_vec();
    for new in [new.with_record_length(7), plain().with_checking(false).with_record_length(7)] {
        let Created { handle, old, .. } = disk.create(&name("ABC/D"), &new).unwrap();
        assert!(old);
        assert_eq!((handle.slot(), handle.record_length()), (8, 7));
    }
    assert!(disk.image() == before);
}

fn looked_up(disk: &Disk, name: &Name) -> (Result<u8, Refusal>, usize) {
    let answer = disk.look_up(name);
    (answer.slot, answer.compared)
}

#[test]
fn look_up_tells_slot_and_count() {
    // Names of one hash: start at 0, exclusive-or each byte in, rotate left.
    let hash = |name: &Name| name.as_bytes().iter().fold(0u8, |h, byte| (h ^ byte).rotate_left(1));
    let all: Vec<Name> = (0..2000).map(|i| name(&format!("F{i}"))).collect();
    let alike: Vec<&Name> = all.iter().filter(|name| hash(name) == hash(&all[0])).take(4).collect();
    let mut disk = blank();
    for (i, name) in alike[..3].iter().enumerate() {
        assert_eq!(looked_up(&disk, name), (Err(Refusal::NotFound), i));
        disk.create(name, &plain()).unwrap();
    }
    let answers: Vec<_> = alike[..3].iter().map(|name| looked_up(&disk, name)).collect();
    // Slots 8 to 12 of row 0: a directory of 15 sectors has s up to 12.
    assert_eq!(answers, [(Ok(8), 1), (Ok(9), 2), (Ok(10), 3)]);
    assert_eq!(looked_up(&disk, alike[3]), (Err(Refusal::NotFound), 3));
    let blank = Refusal::Name { place: Some(0) };
    assert_eq!(looked_up(&disk, &Name::from_bytes([b' '; 11])), (Err(blank), 0));
}

#[test]
fn names_in_small_letters() {
    let mut disk = blank();
    let small = Name::from_bytes(*b"puls01  dat");
    let new = disk.create(&small, &plain()).unwrap();
    assert_eq!((new.old, new.handle.name()), (false, name("PULS01/DAT")));
    for given in [small, Name::from_bytes(*b"Puls01  Dat"), name("PULS01/DAT"), name("puls01/dat")] {
        let again = disk.create(&given, &plain()).unwrap();
        assert_eq!((again.old, again.handle), (true, new.handle));
        assert_eq!(looked_up(&disk, &given), (Ok(new.handle.slot()), 1));
        assert_eq!(disk.open(&given, 256, Password::Unchecked), Ok(new.handle));
    }
    assert_eq!(disk.listing().unwrap().lines().nth(1), Some("PULS01/DAT 0 0"));
}

#[test]
fn open_follows_the_codes() {
    let mut disk = blank();
    let new = plain().with_codes(1, 2);
    let slot = disk.create(&name("A"), &new).unwrap().handle.slot();
    let mut image = disk.into_image();
    image[entry_at(slot)] |= 5;
    let disk = Disk::new(image, GEOMETRY);
    let level = |password| disk.open(&name("A"), 3, password).map(|handle| handle.level());
    assert_eq!(level(Password::Unchecked), Ok(0));
    assert_eq!(level(Password::Code(1)), Ok(0));
    assert_eq!(level(Password::Code(2)), Ok(5));
    assert_eq!(level(Password::Code(0)), Err(Refusal::Password));
    assert_eq!(level(Password::Code(GEOMETRY.open_code)), Err(Refusal::Password));
    assert_eq!(
        Disk::new(disk.image(), GEOMETRY.with_open_code(1)).open(&name("A"), 3, Password::Code(9)).unwrap().level(),
        0
    );
    assert_eq!(disk.open(&name("A"), 256, Password::Unchecked).unwrap().record_length(), 256);
    assert_eq!(disk.open(&name("A"), 257, Password::Unchecked), Err(Refusal::Range));
}

#[test]
fn records_and_sectors() {
    let bytes: Vec<u8> = (0..1300u32).map(|i| (i * 7 + i / 256) as u8).collect();
    let disk = with_file("A/B", &bytes);
    let mut handle = disk.open(&name("A/B"), 100, Password::Unchecked).unwrap();
    let mut buffer = [0xee; 120];
    handle.set_position(1200);
    disk.read_record(&mut handle, &mut buffer).unwrap();
    assert_eq!(buffer[..100], bytes[1200..]);
    assert_eq!(buffer[100..], [0xee; 20]);
    assert_eq!(handle.position(), 1300);
    assert_eq!(disk.read_record(&mut handle, &mut buffer), Err(Refusal::PastEnd));
    assert_eq!(disk.read_record(&mut handle, &mut buffer[..99]), Err(Refusal::Range));
    assert_eq!(handle.position(), 1300);

    for k in 0..6 {
        let sector = disk.read_sector(&handle, k).unwrap();
        assert_eq!(sector, bytes.chunks(256).nth(k).unwrap());
        // Granules 1 and 2: sectors 5 to 14 of the disk, in order.
        assert_eq!(sector.as_ptr(), disk.image()[(5 + k) * 256..].as_ptr());
    }
    assert_eq!(disk.read_sector(&handle, 6), Err(Refusal::PastEnd));
    assert_eq!(disk.read_sector(&handle, 7680), Err(Refusal::Range));
    assert_eq!(disk.contents(&handle).unwrap(), bytes);
}

#[test]
fn writes_of_both_kinds() {
    let mut disk = with_file("A", b"0123456789");
    let mut handle = disk.open(&name("A"), 3, Password::Unchecked).unwrap();
    handle.set_position(2);
    disk.write_record(&mut handle, Kind::Random, b"abcdef").unwrap();
    assert_eq!(handle.position(), 5);
    assert_eq!(disk.contents(&handle).unwrap(), b"01abc56789");
    disk.write_record(&mut handle, Kind::Sequential, b"xyz").unwrap();
    assert_eq!(disk.contents(&handle).unwrap(), b"01abcxyz");
    handle.set_position(10);
    disk.write_record(&mut handle, Kind::Random, b"end").unwrap();
    assert_eq!(disk.contents(&handle).unwrap(), b"01abcxyz\0\0end");
    assert!(disk.entries().unwrap()[0].was_worked_on());
}

#[test]
fn the_largest_file_is_read_whole() {
    // Only a system file can be of the largest size: one that owns every granule, the directory's too.
    for (granule_sectors, sectors) in [(5, 0x1e00_u16), (10, 0x3c00), (20, 0x7800)] {
        the_largest_file_by_granules_of(granule_sectors, sectors);
    }
}

fn the_largest_file_by_granules_of(granule_sectors: usize, sectors: u16) {
    let geometry = Geometry::new(192, 8, 3840, 0).with_granule_sectors(granule_sectors);
    let mut disk = Disk::blank(geometry, 30, &[]).unwrap();
    let owner = name("ALL/SYS");
    let mut entry = [0xff; 32];
    entry[..5].copy_from_slice(&[0x50, 0, 0, 0, 0]);
    entry[5..16].copy_from_slice(owner.as_bytes());
    entry[16..20].copy_from_slice(&[0; 4]);
    entry[20..22].copy_from_slice(&sectors.to_le_bytes());
    // 48 runs of 32 granules: four blocks each, four runs an entry; the entries of row 0, slots 0 to 11.
    let hash = owner.as_bytes().iter().fold(0u8, |h, byte| (h ^ byte).rotate_left(1));
    let mut image = disk.into_image();
    let directory = 3840 * 256;
    image[directory..directory + 192].fill(0xff);
    for slot in 0..12u8 {
        if slot > 0 {
            entry[..0x16].fill(0);
            entry[..2].copy_from_slice(&[0x90, slot - 1]);
        }
        for run in 0..4 {
            entry[0x16 + 2 * run..0x18 + 2 * run].copy_from_slice(&[16 * slot + 4 * run as u8, 0x1f]);
        }
        entry[0x1e..].copy_from_slice(if slot < 11 { &[0xfe, 0] } else { &[0xff, 0xff] });
        entry[0x1f] = if slot < 11 { slot + 1 } else { 0xff };
        let at = directory + (usize::from(slot) + 2) * 256;
        image[at..at + 32].copy_from_slice(&entry);
        image[directory + 256 + usize::from(slot)] = hash;
    }
    disk = Disk::new(image, geometry);
    assert_eq!(disk.check(), Ok(()));
    assert_eq!(disk.count().map(|counts| (counts.files, counts.free)), Ok((0, 0)));
    let handle = disk.open(&owner, 256, Password::Unchecked).unwrap();
    assert!(disk.contents(&handle).unwrap() == disk.image());
    let entry = &disk.entries().unwrap()[0];
    assert_eq!(entry.size(), geometry.highest_position());
    assert_eq!((entry.granules(), entry.runs().len(), entry.is_system()), (1536, 48, true));
}

#[test]
fn entries_agree_with_the_listing() {
    // Files that grow in turn are scattered: every granule is a run of its own, so there are extensions.
    let mut disk = blank();
    let names: Vec<Name> = (0..3).map(|i| name(&format!("FILE{i}/T"))).collect();
    for name in &names {
        disk.create(name, &plain()).unwrap();
    }
    for granule in 0..13 {
        for name in &names {
            let handle = disk.open(name, 256, Password::Unchecked).unwrap();
            disk.allot(&handle, 5 * granule).unwrap();
        }
    }
    let listed = disk.files().unwrap();
    let entries = disk.entries().unwrap();
    assert_eq!(listed.len(), 3);
    for (listed, entry) in listed.iter().zip(&entries) {
        assert_eq!((listed.name, listed.size, listed.granules), (entry.name(), entry.size(), entry.granules()));
        assert!(entry.runs().len() > 8);
        assert_eq!(disk.look_up(&entry.name()).slot, Ok(entry.slot()));
    }
    assert_eq!(disk.count().map(|counts| (counts.files, counts.free)), Ok((3, 45 - 4 - 39)));
    // No granule twice.
    let mut owned: Vec<usize> =
        entries.iter().flat_map(|e| e.runs().iter().flat_map(|run| run.first..run.first + run.granules)).collect();
    owned.sort();
    owned.dedup();
    assert_eq!(owned.len(), 39);
    assert_eq!(disk.directory_sectors(), Ok(15));

    let handle = disk.open(&names[1], 256, Password::Unchecked).unwrap();
    disk.trim(&handle).unwrap();
    assert_eq!(disk.files().unwrap()[1].granules, 0);
    assert_eq!(disk.count().unwrap().free, 2 + 13);
    // The three files took turns, so what one gave back lies scattered; the last two granules were never taken.
    assert_eq!(disk.free_space().map(|space| (space.free, space.longest)), Ok((2 + 13, 2)));
    disk.kill(&handle).unwrap();
    assert_eq!(disk.files().unwrap().len(), 2);
}

#[test]
fn every_refusal_by_its_number() {
    let disk = with_file("A", &[1; 1281]);
    let handle = disk.open(&name("A"), 256, Password::Unchecked).unwrap();
    let edited = |at: usize, bits: u8| {
        let mut image = disk.image().to_vec();
        image[at] ^= bits;
        Disk::new(image, GEOMETRY)
    };
    let at = entry_at(handle.slot());

    // 1 and 21 to 30, by every call and with the same slot.
    let (slot, start) = (handle.slot(), GEOMETRY.start * 256);
    let fault = |kind, slot| Refusal::Inconsistent(Fault::new(kind, slot));
    for (bad, told) in [
        (Disk::new(disk.image()[1..].to_vec(), GEOMETRY), Refusal::Geometry),
        (Disk::new(disk.image().to_vec(), GEOMETRY.with_start(61)), Refusal::Geometry),
        (Disk::new(disk.image().to_vec(), GEOMETRY.with_blocks(usize::MAX)), Refusal::Geometry),
        (Disk::new(Vec::new(), GEOMETRY), Refusal::Geometry),
        (edited(at + 5, 0xff), fault(FaultKind::HitAgainstEntry, Some(slot))),
        (edited(at, 0x20), fault(FaultKind::Name, Some(slot))),
        (edited(at + 0x1e, 0x80), fault(FaultKind::Chain, Some(slot))),
        (edited(at + 0x16, 0x80), fault(FaultKind::RunOffDisk, Some(slot))),
        (edited(start, 0x02), fault(FaultKind::GatBitMissing, Some(slot))),
        (edited(at + 0x15, 0x01), fault(FaultKind::Size, Some(slot))),
        (edited(start + 256 + 0x1f, 1), fault(FaultKind::DirectoryLength, None)),
        (edited(start + 2, 0x04), fault(FaultKind::DirectoryGranule, None)),
    ] {
        let mut h = handle;
        assert_eq!(refusal(&bad, |d| d.check()), told);
        assert_eq!(refusal(&bad, |d| d.look_up(&name("A")).slot), told);
        assert_eq!(refusal(&bad, |d| d.open(&name("A"), 0, Password::Unchecked)), told);
        assert_eq!(refusal(&bad, |d| d.create(&name("A"), &plain())), told);
        assert_eq!(refusal(&bad, |d| d.read_record(&mut h, &mut [0; 256])), told);
        assert_eq!(refusal(&bad, |d| d.read_sector(&h, 0).map(<[u8]>::len)), told);
        assert_eq!(refusal(&bad, |d| d.write_record(&mut h, Kind::Random, &[0; 256])), told);
        assert_eq!(refusal(&bad, |d| d.allot(&h, 0)), told);
        assert_eq!(refusal(&bad, |d| d.trim(&h)), told);
        assert_eq!(refusal(&bad, |d| d.kill(&h)), told);
        assert_eq!(refusal(&bad, |d| d.bring_back(usize::MAX)), told);
        assert_eq!(refusal(&bad, |d| d.list(0)), told);
        assert_eq!(refusal(&bad, |d| d.count()), told);
        assert_eq!(refusal(&bad, |d| d.files()), told);
        assert_eq!(refusal(&bad, |d| d.listing()), told);
        assert_eq!(refusal(&bad, |d| d.contents(&h)), told);
        assert_eq!(refusal(&bad, |d| d.entries()), told);
        assert_eq!(refusal(&bad, |d| d.dead_entries().map(|all| all.len())), told);
        assert_eq!(refusal(&bad, |d| d.directory_sectors()), told);
        // Free space looks at the GAT alone.
        match told {
            Refusal::Geometry => assert_eq!(refusal(&bad, |d| d.free_space()), told),
            _ => assert!(bad.free_space().is_ok()),
        }
        assert_eq!(h, handle);
    }

    // 12.
    for date in [Date::new(1996, 1, 1), Date::new(1979, 1, 1), Date::new(1983, 16, 1), Date::new(1983, 1, 32)] {
        assert_eq!(refused(&disk, |d| d.create(&name("B"), &plain().with_date(date))), 12);
    }
    let mut far = handle;
    far.set_position(1_966_081);
    assert_eq!(refused(&disk, |d| d.kill(&far)), 12);
    assert_eq!(refused(&disk, |d| d.kill(&Handle::from_bytes([0; 19]))), 12);
    assert_eq!(refused(&disk, |d| d.allot(&handle, 7680)), 12);
    // 3, 7, 4.
    for (bytes, place) in [(*b"~          ", 0), (*b"PULS01  D T", 10), (*b"PULS_01~   ", 4), (*b"a/dat      ", 1)] {
        let bad = Name::from_bytes(bytes);
        assert_eq!(refusal(&disk, |d| d.create(&bad, &plain())), Refusal::Name { place: Some(place) });
        assert_eq!(refusal(&disk, |d| d.open(&bad, 1, Password::Unchecked)), Refusal::Name { place: Some(place) });
        assert_eq!(disk.look_up(&bad).slot, Err(Refusal::Name { place: Some(place) }));
    }
    for letter in [b'B', b'a'] {
        let mut stale = *handle.as_bytes();
        stale[8] = letter;
        assert_eq!(refused(&disk, |d| d.trim(&Handle::from_bytes(stale))), 7);
    }
    assert_eq!(refused(&disk, |d| d.open(&name("B"), 1, Password::Unchecked)), 4);
    // 5 stands in `open_follows_the_codes`. 6: a system file, and a level.
    assert_eq!(refused(&edited(at, 0x40), |d| d.kill(&handle)), 6);
    let mut low = *handle.as_bytes();
    low[1] = 6;
    assert_eq!(refused(&disk, |d| d.contents(&Handle::from_bytes(low))), 6);
    // 10, 11, 9.
    assert_eq!(refused(&disk, |d| d.read_sector(&handle, 6).map(<[u8]>::len)), 10);
    assert_eq!(refused(&edited(at + 1, 0x40), |d| d.allot(&handle, 10)), 11);
    assert_eq!(refused(&disk, |d| d.allot(&handle, 5 * 41)), 9);
    disk.clone().allot(&handle, 5 * 41 - 1).unwrap();
    // 8: a directory of 15 sectors has 72 permitted slots.
    let mut full = disk.clone();
    for i in 1..72 {
        full.create(&name(&format!("F{i}")), &plain()).unwrap();
    }
    assert_eq!(refused(&full, |d| d.create(&name("F72"), &plain())), 8);
}

#[test]
fn a_killed_file_comes_back() {
    let disk = with_file("A", &[1; 1281]);
    let handle = disk.open(&name("A"), 256, Password::Unchecked).unwrap();
    let slot = usize::from(handle.slot());
    let mut dead = disk.clone();
    dead.kill(&handle).unwrap();
    // What is left of it, and no more than that: the other entries are blank.
    let left = dead.dead_entries().unwrap();
    assert_eq!(left.len(), 1);
    assert_eq!(
        (left[0].slot(), left[0].name(), left[0].size(), left[0].granules()),
        (handle.slot(), name("A"), 1281, 2)
    );
    assert!(disk.dead_entries().unwrap().is_empty());

    // 12, 17, 6, 18, 19, 20.
    assert_eq!(refused(&dead, |d| d.bring_back(0x1f)), 12);
    assert_eq!(refused(&dead, |d| d.bring_back(slot + 256)), 12);
    assert_eq!(refused(&disk, |d| d.bring_back(slot)), 17);
    let edited = |at: usize, byte: u8| {
        let mut image = dead.image().to_vec();
        image[entry_at(handle.slot()) + at] = byte;
        Disk::new(image, GEOMETRY)
    };
    assert_eq!(refused(&edited(0x00, 0x40), |d| d.bring_back(slot)), 6);
    assert_eq!(refused(&edited(0x1e, 0x00), |d| d.bring_back(slot)), 18);
    assert_eq!(refused(&dead, |d| d.bring_back(0)), 18);
    let mut both = disk.clone();
    let mut second = both.create(&name("B"), &plain()).unwrap().handle;
    both.write_record(&mut second, Kind::Sequential, &[2; 256]).unwrap();
    both.kill(&second).unwrap();
    let mut larger = both.clone();
    larger.allot(&handle, 10).unwrap();
    assert_eq!(refused(&larger, |d| d.bring_back(second.slot().into())), 20);
    both.kill(&handle).unwrap();
    assert_eq!(both.create(&name("B"), &plain()).unwrap().handle.slot(), handle.slot());
    assert_eq!(refused(&both, |d| d.bring_back(second.slot().into())), 19);

    // Brought back, it is the disk before; its handle is good again.
    let back = dead.bring_back(slot).unwrap();
    assert_eq!((back.slots, back.granules), (1, 2));
    assert!(dead.image() == disk.image());
    assert_eq!(dead.contents(&handle).unwrap(), [1; 1281]);
}

#[test]
fn lent_and_owned_images() {
    let mut owned = with_file("A", b"abc");
    let mut bytes = owned.image().to_vec();
    let mut lent = Disk::new(&mut bytes[..], GEOMETRY);
    let handle = lent.open(&name("A"), 1, Password::Unchecked).unwrap();
    lent.kill(&handle).unwrap();
    assert_eq!(Disk::new(&bytes[..], GEOMETRY).count().unwrap().files, 0);
    owned.kill(&handle).unwrap();
    assert!(owned.into_image() == bytes);
}

#[test]
fn blank_disks() {
    for (sectors, slots) in [(10, 32), (15, 72), (20, 112), (25, 152), (30, 192)] {
        let mut disk = Disk::blank(Geometry::new(192, 8, 0, 0), sectors, &[]).unwrap();
        assert_eq!(disk.count().unwrap().free, 1536 - sectors / 5);
        // Of larger granules the directory takes those that it touches.
        for (granule_sectors, granules) in [(5, sectors / 5), (10, (sectors + 5) / 10), (20, (sectors + 15) / 20)] {
            let geometry = Geometry::new(40, 3, 40, 0).with_granule_sectors(granule_sectors);
            assert_eq!(Disk::blank(geometry, sectors, &[]).unwrap().count().unwrap().free, 120 - granules);
        }
        for i in 0..slots {
            disk.create(&name(&format!("F{i}")), &plain()).unwrap();
        }
        assert_eq!(disk.create(&name("G"), &plain()), Err(Refusal::NoSlot));
    }
    let blank =
        |geometry, sectors, reserved: &[usize]| Disk::blank(geometry, sectors, reserved).map(|_| ()).unwrap_err();
    let small = Geometry::new(2, 1, 0, 0);
    assert!(Disk::blank(small, 10, &[]).is_ok());
    for sectors in [15, 12, 5, usize::MAX] {
        let no_length = Refusal::Inconsistent(Fault::of_disk(FaultKind::DirectoryLength));
        assert_eq!(blank(small, sectors, &[]), no_length);
    }
    assert_eq!(blank(small, 10, &[2]), Refusal::Range);
    assert_eq!(blank(small.with_start(5), 10, &[]), Refusal::Geometry);
    assert_eq!(blank(small.with_start(usize::MAX), 10, &[]), Refusal::Geometry);
    assert_eq!(blank(small.with_blocks(0), 10, &[]), Refusal::Geometry);
    assert_eq!(blank(small.with_units(9), 10, &[]), Refusal::Geometry);
    for no_size in [0, 1, 6, 15, 40, usize::MAX] {
        assert_eq!(blank(small.with_granule_sectors(no_size), 10, &[]), Refusal::Geometry);
    }
}

#[test]
fn damaged_disks_are_refused_or_agree() {
    // Bytes of the directory are changed at random. Where the disk is still consistent, what this crate reads by itself
    // is what the library lists.
    let mut disk = blank();
    for typed in ["A/X", "B", "C/DAT"] {
        disk.create(&name(typed), &plain()).unwrap();
    }
    for granule in 0..9 {
        for typed in ["A/X", "B", "C/DAT"] {
            let handle = disk.open(&name(typed), 256, Password::Unchecked).unwrap();
            disk.allot(&handle, 5 * granule).unwrap();
        }
    }
    let directory = GEOMETRY.start * 256..(GEOMETRY.start + 15) * 256;
    let mut state = 1u64;
    let mut random = |below: usize| {
        state = state.wrapping_mul(6364136223846793005).wrapping_add(1442695040888963407);
        (state >> 33) as usize % below
    };
    let (mut consistent, mut refused) = (0, 0);
    for _ in 0..5000 {
        let mut image = disk.image().to_vec();
        for _ in 0..=random(2) {
            image[directory.start + random(directory.len())] = random(256) as u8;
        }
        let damaged = Disk::new(image, GEOMETRY);
        match damaged.files() {
            Ok(listed) => {
                consistent += 1;
                let entries = damaged.entries().unwrap();
                let ours = entries.iter().filter(|entry| !entry.is_system());
                let ours: Vec<_> = ours.map(|entry| (entry.name(), entry.size(), entry.granules())).collect();
                let theirs: Vec<_> = listed.iter().map(|file| (file.name, file.size, file.granules)).collect();
                assert_eq!(ours, theirs);
            }
            Err(refusal) => {
                refused += 1;
                let fault = refusal.fault().expect("the geometry is good");
                assert_eq!(damaged.entries(), Err(refusal), "every call tells the same fault");
                // What is told can be explained, in words of its own.
                let explained = damaged.explain(fault);
                assert_eq!(explained.fault, fault);
                assert_ne!(explained.message, fault.kind.words(), "{fault:?} is not explained");
            }
        }
    }
    assert!(consistent > 100 && refused > 100, "{consistent} consistent, {refused} refused");
}

/// A copy of a disk with one thing changed, compared with it both ways about.
#[test]
fn differences() {
    let first = with_file("PULS01/DAT", &[7; 20]);
    let unlike = |position: Option<usize>, size: bool, date: bool, attributes: bool| {
        vec![Difference::Unlike { name: name("PULS01/DAT"), position, size, date, attributes }]
    };
    let only = |first: bool, typed: &str| match first {
        true => Difference::OnlyInFirst { name: name(typed) },
        false => Difference::OnlyInSecond { name: name(typed) },
    };
    let both_ways = |second: &Disk| {
        let one_way: Vec<_> = first.differences(second).unwrap().collect();
        let other_way: Vec<_> = second.differences(&first).unwrap().collect();
        (one_way, other_way)
    };
    let same = |told: Vec<Difference>| (told.clone(), told);
    let slot = first.look_up(&name("PULS01/DAT")).slot.unwrap();
    let poked = |byte: usize, mask: u8| {
        let mut image = first.image().to_vec();
        image[entry_at(slot) + byte] ^= mask;
        Disk::new(image, GEOMETRY)
    };
    assert_eq!(both_ways(&first.clone()), same(vec![]));
    assert_eq!(both_ways(&poked(0x02, 0x10)), same(unlike(None, false, true, false)));
    assert_eq!(both_ways(&poked(0x04, 0x10)), same(unlike(None, false, false, true)));
    assert_eq!(both_ways(&poked(0x01, 0x81)), same(unlike(None, false, true, true)));
    assert_eq!(both_ways(&poked(0x03, 0x01)), same(unlike(Some(20), true, false, false)));
    assert_eq!(both_ways(&poked(0x00, 0x40)), same(vec![]), "a system file");

    let mut changed = first.clone();
    let mut handle = changed.open(&name("PULS01/DAT"), 1, Password::Unchecked).unwrap();
    handle.set_position(13);
    changed.write_record(&mut handle, Kind::Random, b"X").unwrap();
    assert_eq!(both_ways(&changed), same(unlike(Some(13), false, false, false)));
    // Allotted space is no difference, and neither is another geometry.
    let mut roomy = Disk::blank(Geometry::new(16, 2, 80, 0), 10, &[]).unwrap();
    roomy.create(&name("PULS01/DAT"), &plain()).unwrap();
    let mut handle = roomy.open(&name("PULS01/DAT"), 20, Password::Unchecked).unwrap();
    roomy.allot(&handle, 50).unwrap();
    roomy.write_record(&mut handle, Kind::Sequential, &[7; 20]).unwrap();
    assert_eq!(both_ways(&roomy), same(vec![]));

    // Several, by rising name; the iterator is done for good.
    let mut other = Disk::blank(Geometry::new(16, 2, 80, 0), 10, &[]).unwrap();
    for typed in ["Z", "A/B", "A"] {
        other.create(&name(typed), &plain()).unwrap();
    }
    let told =
        |first: bool| [only(!first, "A"), only(!first, "A/B"), only(first, "PULS01/DAT"), only(!first, "Z")].to_vec();
    assert_eq!(both_ways(&other), (told(true), told(false)));
    let mut all = first.differences(&other).unwrap();
    let names: Vec<Name> = all.by_ref().map(|difference| difference.name()).collect();
    assert_eq!(names, ["A", "A/B", "PULS01/DAT", "Z"].map(name));
    assert_eq!((all.next(), all.next()), (None, None));
}

#[test]
fn refused_differences_name_the_disk() {
    let good = blank();
    let mut image = good.image().to_vec();
    image[entry_at(0x80)] |= 0x10;
    let inconsistent = Disk::new(image, GEOMETRY);
    let hit = Refusal::Inconsistent(Fault::at(FaultKind::HitAgainstEntry, 0x80));
    let short = Disk::new(&good.image()[1..], GEOMETRY);
    let refused = |image, refusal| Some((image, refusal));
    let told = |refused: RefusedImage| (refused.image, refused.refusal);
    assert_eq!(good.differences(&inconsistent).err().map(told), refused(Which::Second, hit));
    assert_eq!(good.differences(&short).err().map(told), refused(Which::Second, Refusal::Geometry));
    assert_eq!(inconsistent.differences(&good).err().map(told), refused(Which::First, hit));
    assert_eq!(inconsistent.differences(&short).err().map(told), refused(Which::First, hit));
    assert_eq!(short.differences(&inconsistent).err().map(told), refused(Which::First, Refusal::Geometry));
    let text = good.differences(&inconsistent).err().unwrap().to_string();
    assert_eq!(text, "the second disk: 22 (disk not consistent: HIT against entry; slot 80H)");
}
