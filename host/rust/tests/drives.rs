//! Two drives: the cases of the request (02 §9) by [`Drives`], on a system disk in drive 0 and a data disk in drive 1.

use genie_dos::*;

const SYSTEM: Geometry = Geometry::new(16, 2, 80, 0x4296);
const DATA: Geometry = SYSTEM.with_system_disk(false);
/// Where HIT byte 1FH, the directory's length, is in the image.
const LENGTH_BYTE: usize = 81 * 256 + 0x1f;

fn bench() -> Drives {
    Drives::new(Disk::blank(SYSTEM, 10, &[0]).unwrap(), Disk::blank(DATA, 10, &[0]).unwrap())
}

fn name(typed: &str) -> Name {
    typed.parse().unwrap()
}

/// What a disk without a password of its own takes.
fn new() -> NewFile {
    NewFile::open(SYSTEM, Date::new(1983, 10, 9))
}

fn create(drives: &mut Drives, drive: Option<usize>, typed: &str) -> DriveHandle {
    let created = drives.create(drive, &name(typed), &new()).unwrap();
    assert!(!created.old, "{typed} was there");
    created.handle
}

/// Number and drive of a refusal.
type Told = (u8, Option<u8>);

/// Drive and slot, or the refusal; and the count.
fn found(drives: &Drives, drive: Option<usize>, typed: &str) -> (Result<(u8, u8), Told>, usize) {
    let told = drives.look_up(drive, &name(typed));
    let slot = told.slot.map(|at| (at.drive, at.slot)).map_err(|refused| (refused.refusal.number(), refused.drive));
    (slot, told.compared)
}

fn refused<T: std::fmt::Debug>(answer: Result<T, RefusedDrive>) -> Told {
    let refused = answer.unwrap_err();
    (refused.refusal.number(), refused.drive)
}

fn images(drives: &Drives) -> [Vec<u8>; 2] {
    [0, 1].map(|drive| drives.disk(drive).unwrap().image().to_vec())
}

#[test]
fn which_drive_has_a_name() {
    let mut drives = bench();
    let on1 = create(&mut drives, Some(1), "A");
    assert_eq!((on1.drive(), on1.handle().slot()), (1, 0x02));
    assert_eq!(found(&drives, None, "A"), (Ok((1, 0x02)), 1));
    assert_eq!(found(&drives, Some(0), "A"), (Err((4, None)), 0));
    let on0 = create(&mut drives, Some(0), "A");
    assert_eq!((on0.drive(), on0.handle().slot()), (0, 0x80));
    assert_eq!(found(&drives, None, "A"), (Ok((0, 0x80)), 1));
    assert_eq!(found(&drives, Some(1), "A"), (Ok((1, 0x02)), 1));
    assert_eq!(drives.open(None, &name("A"), 256, Password::Unchecked), Ok(on0));
    assert_eq!(drives.open(Some(1), &name("A"), 256, Password::Unchecked), Ok(on1));
    for drive in [2, 256, usize::MAX] {
        assert_eq!(found(&drives, Some(drive), "A"), (Err((16, None)), 0));
        assert_eq!(refused(drives.open(Some(drive), &name("A"), 256, Password::Unchecked)), (16, None));
        assert_eq!(refused(drives.create(Some(drive), &name("B"), &new())), (16, None));
        assert!(drives.disk(drive).is_none());
    }
}

#[test]
fn counts_add_up() {
    // Four names of one hash.
    let mut drives = bench();
    create(&mut drives, Some(0), "AA");
    create(&mut drives, Some(1), "BG");
    create(&mut drives, Some(1), "CE");
    assert_eq!(found(&drives, None, "CE"), (Ok((1, 0x03)), 3));
    assert_eq!(found(&drives, Some(1), "CE"), (Ok((1, 0x03)), 2));
    assert_eq!(found(&drives, None, "DK"), (Err((4, None)), 3));
}

#[test]
fn a_new_file_goes_where_a_slot_is() {
    let mut drives = bench();
    for i in 0..32 {
        assert_eq!(create(&mut drives, None, &format!("F{i}")).drive(), 0);
    }
    let first = create(&mut drives, None, "C");
    assert_eq!((first.drive(), first.handle().slot()), (1, 0x02));
    for i in 1..62 {
        assert_eq!(create(&mut drives, None, &format!("G{i}")).drive(), 1);
    }
    let before = images(&drives);
    assert_eq!(refused(drives.create(None, &name("D"), &new())), (8, None));
    assert_eq!(images(&drives), before);
    let again = drives.create(None, &name("C"), &new()).unwrap();
    assert_eq!((again.handle, again.old), (first, true));
}

#[test]
fn which_disks_are_tested() {
    let mut drives = bench();
    let (on0, on1) = (create(&mut drives, Some(0), "A"), create(&mut drives, Some(1), "B"));

    // HIT byte 1FH of drive 1 spoilt.
    let (zero, one) = drives.into_disks();
    let mut spoilt = one.into_image();
    spoilt[LENGTH_BYTE] = 1;
    let drives = Drives::new(zero, Disk::new(spoilt, DATA));
    assert_eq!(found(&drives, None, "A"), (Err((21, Some(1))), 0));
    assert_eq!(found(&drives, Some(0), "A"), (Ok((0, 0x80)), 1));
    let told = drives.look_up(None, &name("A")).slot.unwrap_err();
    assert_eq!((told.refusal.fault().unwrap().kind, told.refusal.slot()), (FaultKind::DirectoryLength, None));
    assert!(told.to_string().starts_with("drive 1: 21 ("), "{told}");

    // Drive 1 of 7 bytes, lent.
    let (zero, _) = drives.into_disks();
    let (mut image, mut short) = (zero.into_image(), [0x55; 7]);
    let mut drives = Drives::new(Disk::new(&mut image[..], SYSTEM), Disk::new(&mut short[..], DATA));
    let one_at_fault = (1, Some(1));
    assert_eq!(refused(drives.look_up(None, &name("A")).slot), one_at_fault);
    assert_eq!(refused(drives.open(None, &name("A"), 256, Password::Unchecked)), one_at_fault);
    assert_eq!(refused(drives.create(None, &name("A"), &new())), one_at_fault);
    assert_eq!(drives.open(Some(0), &name("A"), 256, Password::Unchecked), Ok(on0));
    assert!(drives.create(Some(0), &name("A"), &new()).unwrap().old);

    let (mut handle, mut buffer) = (on0, [0; 256]);
    drives.write_record(&mut handle, Kind::Sequential, &[7; 256]).unwrap();
    handle.set_position(0);
    drives.read_record(&mut handle, &mut buffer).unwrap();
    assert_eq!((handle.position(), buffer), (256, [7; 256]));
    let sector = drives.read_sector(&on0, 0).unwrap();
    assert_eq!((sector.drive, sector.bytes), (0, &[7; 256][..]));
    drives.allot(&on0, 9).unwrap();
    drives.trim(&on0).unwrap();
    drives.kill(&on0).unwrap();
    assert_eq!(refused(drives.kill(&on0)), (7, None));

    // A handle of drive 1, and one of a drive that there is not.
    for (wrong, wanted) in [(on1, one_at_fault), (DriveHandle::new(on0.handle(), 7), (16, None))] {
        let mut handle = wrong;
        assert_eq!(refused(drives.read_record(&mut handle, &mut buffer)), wanted);
        assert_eq!(refused(drives.write_record(&mut handle, Kind::Random, &[8; 256])), wanted);
        assert_eq!((handle, buffer), (wrong, [7; 256]));
        assert_eq!(refused(drives.read_sector(&wrong, 0)), wanted);
        assert_eq!(refused(drives.allot(&wrong, 0)), wanted);
        assert_eq!(refused(drives.trim(&wrong)), wanted);
        assert_eq!(refused(drives.kill(&wrong)), wanted);
    }
    assert_eq!(short, [0x55; 7]);
}

#[test]
fn a_call_leaves_the_other_disk() {
    for drive in [0, 1] {
        let mut drives = bench();
        create(&mut drives, Some(1 - drive), "A");
        let other = images(&drives)[1 - drive].clone();
        let mut handle = create(&mut drives, Some(drive), "A");
        assert_eq!(usize::from(handle.drive()), drive);
        drives.write_record(&mut handle, Kind::Sequential, &[9; 256]).unwrap();
        drives.allot(&handle, 12).unwrap();
        // The calls on that drive's disk alone take the handle's 19 bytes.
        let disk = drives.disk(drive).unwrap();
        assert_eq!(disk.contents(&handle.handle()).unwrap(), [9; 256]);
        assert_eq!(disk.files().unwrap()[0].granules, 3);
        let sector = drives.read_sector(&handle, 0).unwrap();
        assert_eq!((usize::from(sector.drive), sector.bytes), (drive, &[9; 256][..]));
        assert!(disk.image().as_ptr_range().contains(&sector.bytes.as_ptr()));
        drives.trim(&handle).unwrap();
        assert_eq!(drives.disk(drive).unwrap().files().unwrap()[0].granules, 1);
        drives.kill(&handle).unwrap();
        assert_eq!(drives.disk(drive).unwrap().count().unwrap().files, 0);
        assert_eq!(images(&drives)[1 - drive], other);
    }
}

#[test]
fn a_bad_name_has_its_place() {
    let mut drives = bench();
    let bad = Name::from_bytes(*b"PULS 01~   ");
    let wanted = Refusal::Name { place: Some(5) };
    let told = [
        drives.look_up(None, &bad).slot.unwrap_err(),
        drives.open(Some(1), &bad, 256, Password::Unchecked).unwrap_err(),
        drives.create(None, &bad, &new()).unwrap_err(),
    ];
    for refused in told {
        assert_eq!((refused.refusal, refused.drive), (wanted, None));
        assert_eq!(refused.to_string(), "3 (name not well formed; place 5)");
    }
    // 16 comes before all others, and 12 before the name.
    assert_eq!(refused(drives.open(Some(2), &bad, 0, Password::Unchecked)), (16, None));
    assert_eq!(refused(drives.open(Some(1), &bad, 0, Password::Unchecked)), (12, None));
}

#[test]
fn a_handle_of_zeros_is_one_of_drive_0() {
    let mut drives = bench();
    let zeros = DriveHandle::from_bytes([0; DriveHandle::LEN]);
    assert_eq!((zeros.drive(), zeros.handle()), (0, Handle::from_bytes([0; Handle::LEN])));
    assert_eq!(refused(drives.kill(&zeros)), (12, None));
}
