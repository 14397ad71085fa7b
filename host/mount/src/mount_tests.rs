//! The operations without a kernel.

use super::*;
use gdos::held::{self, Args, Asked};
use genie_dos::{Date, Disk, Geometry};
use std::cell::Cell;
use std::fs;
use std::path::PathBuf;
use std::sync::atomic::{AtomicUsize, Ordering};

const GEOMETRY: Geometry = Geometry::new(16, 2, 80, 0x4296);
const OPEN: u16 = 0x4296;

/// A folder of its own, gone at the end, with an image in it.
struct Place(PathBuf);

impl Place {
    fn new(disk: &Disk) -> Place {
        static NUMBER: AtomicUsize = AtomicUsize::new(0);
        let number = NUMBER.fetch_add(1, Ordering::Relaxed);
        let folder = std::env::temp_dir().join(format!("gdos-mount-{}-{number}", std::process::id()));
        fs::create_dir(&folder).unwrap();
        fs::write(folder.join("d.img"), disk.image()).unwrap();
        Place(folder)
    }

    fn image(&self) -> PathBuf {
        self.0.join("d.img")
    }

    fn on_disk(&self) -> Disk {
        Disk::new(fs::read(self.image()).unwrap(), GEOMETRY)
    }

    fn held(&self, change: bool) -> Result<Held, String> {
        let words = ["--preset", "sample"].map(Into::into).into_iter();
        let Ok(Asked::Run(args)) = Args::parse(held::GEOMETRY.1, words) else { panic!("options") };
        Held::open(&args, self.image().as_os_str(), change).map_err(|failure| failure.to_string())
    }

    fn mount(&self, change: bool, all: bool, password: Password) -> Mount {
        let new = NewFile::open(GEOMETRY, Date::new(1983, 10, 9));
        Mount::new(self.held(change).unwrap(), Settings { change, all, password, new }, Log::Kept(Vec::new()))
    }
}

impl Drop for Place {
    fn drop(&mut self) {
        let _ = fs::remove_dir_all(&self.0);
    }
}

fn blank() -> Disk {
    Disk::blank(GEOMETRY, 10, &[0]).unwrap()
}

/// A disk with a file of these bytes, then its entry's bytes 00 and 01 changed.
fn with_file(name: &str, bytes: &[u8], flags: u8, more: u8) -> Disk {
    let mut disk = blank();
    let handle = disk.create(&name.parse().unwrap(), &NewFile::open(GEOMETRY, Date::new(1983, 10, 9))).unwrap().handle;
    bytes::write(&mut disk, &handle, 0, bytes).unwrap();
    let slot = usize::from(handle.slot());
    let entry = (80 + 2 + slot % 32) * 256 + slot / 32 * 32;
    let mut image = disk.into_image();
    image[entry] |= flags;
    image[entry + 1] |= more;
    Disk::new(image, GEOMETRY)
}

fn lines(mount: &mut Mount) -> Vec<String> {
    match &mut mount.log {
        Log::Kept(lines) => std::mem::take(lines),
        _ => Vec::new(),
    }
}

fn whole(mount: &mut Mount, path: &str) -> Vec<u8> {
    let file = mount.open(path.as_bytes(), false).unwrap();
    let mut buffer = vec![0; 50_000];
    let length = mount.read(file, &mut buffer, 0).unwrap();
    mount.release(file);
    buffer.truncate(length);
    buffer
}

#[test]
fn a_disk_as_it_is() {
    let place = Place::new(&with_file("PULS01/DAT", &[7; 1300], 0x0b, 0));
    let mut mount = place.mount(false, false, Password::Code(OPEN));
    let listed = mount.readdir().unwrap();
    let attributes = Attributes { inode: 0x82, size: 1300, blocks: 5, time: 434_548_800, mode: 0o100_444, links: 1 };
    assert_eq!(listed, [("PULS01.DAT".to_string(), attributes)]);
    // Letters of either size; the slash of the system is the host's dot.
    for path in ["/PULS01.DAT", "/puls01.dat", "/Puls01.dAt"] {
        assert_eq!(mount.getattr(Which::Path(path.as_bytes())), Ok(attributes));
    }
    let root = mount.getattr(Which::Path(b"/")).unwrap();
    assert_eq!((root.inode, root.mode, root.links), (1, 0o040_555, 2));
    let room = mount.statfs().unwrap();
    let told =
        Room { granule_bytes: 1280, granules: 32, free_granules: 27, slots: 32, free_slots: 31, longest_name: 12 };
    assert_eq!(room, told);
    for (name, value) in [
        ("level", "3"),
        ("date", "1983-10-09"),
        ("slot", "80H"),
        ("granules", "2"),
        ("record_length", "256"),
        ("invisible", "yes"),
        ("system", "no"),
        ("worked_on", "yes"),
        ("password", "no"),
        ("main_code", "4296H"),
    ] {
        assert_eq!(mount.getxattr(b"/PULS01.DAT", format!("user.genie.{name}").as_bytes()), Ok(value.to_string()));
    }
    assert_eq!(mount.getxattr(b"/PULS01.DAT", b"user.genie.nothing"), Err(Errno::ENODATA));
    assert_eq!(mount.getxattr(b"/PULS01.DAT", b"security.capability"), Err(Errno::ENODATA));
    assert_eq!(mount.getxattr(b"/", b"user.genie.start"), Ok("80".to_string()));
    assert!(mount.listxattr(b"/PULS01.DAT").unwrap().split('\0').any(|name| name == "user.genie.level"));
    assert_eq!(whole(&mut mount, "/puls01.dat"), [7; 1300]);
    assert_eq!(lines(&mut mount), [""; 0]);
}

#[test]
fn reads_at_any_place() {
    let bytes: Vec<u8> = (0..2000u32).map(|n| (n * 7 % 251) as u8).collect();
    let place = Place::new(&with_file("A", &bytes, 0, 0));
    let mut mount = place.mount(false, false, Password::Code(OPEN));
    let file = mount.open(b"/A", false).unwrap();
    for (offset, length) in
        [(0, 2000), (0, 1), (255, 2), (256, 256), (1, 1998), (1279, 2), (1999, 1), (1999, 100), (300, 0)]
    {
        let mut buffer = vec![0xaa; length];
        let read = mount.read(file, &mut buffer, offset as u64).unwrap();
        assert_eq!(buffer[..read], bytes[offset..(offset + length).min(2000)], "{offset} {length}");
    }
    for offset in [2000, 2001, u64::from(u32::MAX) + 1, u64::MAX] {
        assert_eq!(mount.read(file, &mut [0; 10], offset), Ok(0), "{offset}");
    }
    mount.release(file);
    assert_eq!(mount.read(file, &mut [0; 10], 0), Err(Errno::EBADF));
    assert_eq!(mount.read(0, &mut [0; 10], 0), Err(Errno::EBADF));
}

#[test]
fn nothing_changes_without_rw() {
    let place = Place::new(&with_file("A", &[1; 300], 0, 0));
    let before = place.on_disk().into_image();
    let mut mount = place.mount(false, false, Password::Code(OPEN));
    let file = mount.open(b"/A", false).unwrap();
    assert_eq!(mount.write(file, &[2], 0, false), Err(Errno::EROFS));
    assert_eq!(mount.truncate(Which::Open(file), 0), Err(Errno::EROFS));
    assert_eq!(mount.truncate(Which::Path(b"/A"), 0), Err(Errno::EROFS));
    assert_eq!(mount.open(b"/A", true), Err(Errno::EROFS));
    assert_eq!(mount.create(b"/B", false, false), Err(Errno::EROFS));
    assert_eq!(mount.allot(file, 5000), Err(Errno::EROFS));
    assert_eq!(mount.unlink(b"/A"), Err(Errno::EROFS));
    assert_eq!(mount.save(), Ok(()));
    assert_eq!(mount.held.disk().image(), before);
    assert_eq!(place.on_disk().image(), before);
}

/// Numbers that look random, the same in every run.
struct Dice(Cell<u64>);

impl Dice {
    fn below(&self, most: usize) -> usize {
        self.0.set(self.0.get().wrapping_mul(6_364_136_223_846_793_005).wrapping_add(1_442_695_040_888_963_407));
        (self.0.get() >> 33) as usize % most
    }
}

/// Three files, open all the time, under reads, writes and new sizes at any place: as three lists of bytes would have it. What a
/// refused operation leaves is what was there.
#[test]
fn files_are_lists_of_bytes() {
    let place = Place::new(&blank());
    let mut mount = place.mount(true, false, Password::Code(OPEN));
    let dice = Dice(Cell::new(1983));
    let names = ["/A", "/PULS01.DAT", "/c.d"];
    let files = names.map(|name| mount.create(name.as_bytes(), true, false).unwrap());
    let mut lists: [Vec<u8>; 3] = Default::default();
    let mut refused = 0;
    for step in 0..3000 {
        let which = dice.below(3);
        let (file, list) = (files[which], &mut lists[which]);
        let at = dice.below([40, 3000, 20_000, 45_000][dice.below(4)]);
        let length = dice.below([3, 300, 6000][dice.below(3)]);
        match dice.below(6) {
            0 | 1 => {
                let bytes: Vec<u8> = (0..length).map(|n| (n + step) as u8).collect();
                match mount.write(file, &bytes, at as u64, false) {
                    Ok(written) => {
                        assert_eq!(written, length);
                        if length > 0 {
                            list.resize(list.len().max(at + length), 0);
                            list[at..at + length].copy_from_slice(&bytes);
                        }
                    }
                    Err(errno) => {
                        assert_eq!(errno, Errno::ENOSPC);
                        refused += 1;
                    }
                }
            }
            2 => {
                let bytes = vec![step as u8; length];
                match mount.write(file, &bytes, 0, true) {
                    Ok(_) => list.extend_from_slice(&bytes),
                    Err(errno) => assert_eq!(errno, Errno::ENOSPC),
                }
            }
            3 => match mount.truncate(Which::Open(file), at as u64) {
                Ok(()) => list.resize(at, 0),
                Err(errno) => assert_eq!((errno, at > list.len()), (Errno::ENOSPC, true)),
            },
            4 if dice.below(5) == 0 => {
                mount.truncate(Which::Path(names[which].as_bytes()), 0).unwrap();
                list.clear();
            }
            _ => {}
        }
        let mut buffer = vec![0; length];
        let read = mount.read(file, &mut buffer, at as u64).unwrap();
        assert_eq!(&buffer[..read], list.get(at..).map_or(&[][..], |rest| &rest[..rest.len().min(length)]), "{step}");
        assert_eq!(mount.getattr(Which::Open(file)).unwrap().size, list.len() as u64);
    }
    assert!(refused > 50, "{refused}");
    mount.save().unwrap();
    let disk = place.on_disk();
    for (name, list) in ["A", "PULS01/DAT", "C/D"].into_iter().zip(&lists) {
        let handle = disk.open(&name.parse().unwrap(), 256, Password::Unchecked).unwrap();
        assert_eq!(&disk.contents(&handle).unwrap(), list, "{name}");
    }
}

#[test]
fn what_is_given_back() {
    let place = Place::new(&blank());
    let mut mount = place.mount(true, false, Password::Code(OPEN));
    let file = mount.create(b"/A", true, false).unwrap();
    let granules = |mount: &mut Mount| 29 - mount.statfs().unwrap().free_granules;
    mount.write(file, &[1; 5000], 0, false).unwrap();
    assert_eq!(granules(&mut mount), 4);
    mount.truncate(Which::Open(file), 1281).unwrap();
    assert_eq!(granules(&mut mount), 2);
    mount.truncate(Which::Open(file), 0).unwrap();
    assert_eq!(granules(&mut mount), 0);
    mount.allot(file, 1281).unwrap();
    assert_eq!((granules(&mut mount), mount.getattr(Which::Open(file)).unwrap().size), (2, 0));
    assert_eq!(mount.allot(file, 0), Err(Errno::EINVAL));
    mount.write(file, &[1; 10], 0, false).unwrap();
    mount.unlink(b"/a").unwrap();
    assert_eq!(granules(&mut mount), 0);
}

/// Each refusal that a file can meet: its error, and its number in the log.
#[test]
fn refusals_are_errors_and_lines() {
    let place = Place::new(&with_file("A", &[1; 300], 0, 0));
    let mut mount = place.mount(true, false, Password::Code(OPEN));
    let said = |mount: &mut Mount, line: &str| {
        let lines = lines(mount);
        assert_eq!(lines.len(), 1, "{lines:?}");
        assert!(lines[0].contains(line), "{lines:?}");
    };
    assert_eq!(mount.getattr(Which::Path(b"/NIX")), Err(Errno::ENOENT));
    said(&mut mount, "look up: refused: 4 (name not found): NIX on ");
    assert_eq!(mount.getattr(Which::Path(b"/a.b.c")), Err(Errno::ENOENT));
    said(&mut mount, "look up: refused: 3 (name not well formed): a.b/c on ");
    assert_eq!(mount.getattr(Which::Path(b"/\xff\xfe")), Err(Errno::ENOENT));
    said(&mut mount, "refused: 3 ");
    assert_eq!(mount.create(b"/.A.swp", false, false), Err(Errno::EINVAL));
    said(&mut mount, "create: refused: 3 (name not well formed): .A/swp on ");
    assert_eq!(mount.create(b"/verylongname.txt", false, false), Err(Errno::EINVAL));
    said(&mut mount, "refused: 3 ");
    let file = mount.open(b"/A", false).unwrap();
    assert_eq!(mount.write(file, &[0; 50_000], 0, false), Err(Errno::ENOSPC));
    said(&mut mount, "write: refused: 9 (too few granules free): A on ");
    assert_eq!(mount.write(file, &[0], u64::from(u32::MAX), false), Err(Errno::EFBIG));
    said(&mut mount, "write: refused: 12 ");
    assert_eq!(mount.write(file, &[0], u64::MAX, false), Err(Errno::EFBIG));
    assert_eq!(mount.write(file, &[0], 1_966_080, false), Err(Errno::EFBIG));
    assert_eq!(mount.create(b"/a", true, false), Err(Errno::EEXIST));
    assert_eq!(mount.open(b"/", false), Err(Errno::EISDIR));
    lines(&mut mount);
    mount.unlink(b"/A").unwrap();
    assert_eq!(mount.read(file, &mut [0; 10], 0), Err(Errno::ESTALE));
    said(&mut mount, "read: refused: 7 (handle stale: its file is gone): A on ");
    assert_eq!(mount.write(file, &[0], 0, false), Err(Errno::ESTALE));
    said(&mut mount, "write: refused: 7 ");
    assert_eq!(mount.unlink(b"/A"), Err(Errno::ENOENT));
    said(&mut mount, "remove: refused: 4 ");
    // 32 slots for files on this disk.
    for number in 0..32 {
        mount.create(format!("/F{number}").as_bytes(), true, false).unwrap();
    }
    assert_eq!(mount.create(b"/ONEMORE", true, false), Err(Errno::ENOSPC));
    said(&mut mount, "create: refused: 8 (too few directory slots free): ONEMORE on ");
    assert_eq!(mount.no_call("rename", b"/F1", Errno::EOPNOTSUPP), Errno::EOPNOTSUPP);
    said(&mut mount, "rename: F1 on ");
}

#[test]
fn levels_passwords_and_system_files() {
    // A system file: listed with --all only, found by its name, never changed.
    let place = Place::new(&with_file("BOOT/SYS", &[1; 300], 0x40, 0));
    let mut mount = place.mount(true, false, Password::Code(OPEN));
    assert_eq!(mount.readdir().unwrap(), []);
    assert_eq!(mount.getattr(Which::Path(b"/BOOT.SYS")).unwrap().mode, 0o100_444);
    assert_eq!(whole(&mut mount, "/boot.sys"), [1; 300]);
    assert_eq!(mount.unlink(b"/BOOT.SYS"), Err(Errno::EACCES));
    assert_eq!(mount.open(b"/BOOT.SYS", true), Err(Errno::EACCES));
    assert!(lines(&mut mount).iter().all(|line| line.contains("refused: 6 (not allowed")));
    drop(mount);
    assert_eq!(place.mount(true, true, Password::Code(OPEN)).readdir().unwrap().len(), 1);
    // A file that may not grow.
    let place = Place::new(&with_file("E", &[1; 300], 0, 0x40));
    let mut mount = place.mount(true, false, Password::Code(OPEN));
    let file = mount.open(b"/E", false).unwrap();
    assert_eq!(mount.write(file, &[2; 1280], 0, false), Ok(1280));
    assert_eq!(mount.write(file, &[2], 1280, false), Err(Errno::EPERM));
    assert!(lines(&mut mount)[0].contains("refused: 11 (file may not grow"));
    drop(mount);
    // A password: by its code, or unlocked.
    let mut disk = blank();
    let mut new = NewFile::open(GEOMETRY, Date::new(1983, 10, 9));
    (new.main_code, new.worker_code) = (0x1234, 0x4321);
    disk.create(&"P".parse().unwrap(), &new).unwrap();
    let place = Place::new(&disk);
    let mut mount = place.mount(true, false, Password::Code(OPEN));
    assert_eq!(mount.open(b"/P", false), Err(Errno::EACCES));
    assert!(lines(&mut mount)[0].contains("open: refused: 5 (wrong password code): P on "));
    assert_eq!(mount.unlink(b"/P"), Err(Errno::EACCES));
    drop(mount);
    assert!(place.mount(false, false, Password::Code(0x1234)).open(b"/P", false).is_ok());
    assert!(place.mount(false, false, Password::Unchecked).open(b"/P", false).is_ok());
}

/// A file that is emptied, cut or lengthened keeps all that its entry says; with its flag F its space too.
#[test]
fn files_of_another_size_keep_their_attributes() {
    for (flags, more) in [(0, 0), (0x08, 0), (0, 0x80), (0, 0x40), (0x03, 0)] {
        let place = Place::new(&with_file("A", &[1; 300], flags, more));
        let mut mount = place.mount(true, false, Password::Code(OPEN));
        let entry = |mount: &mut Mount| mount.entry("test", Which::Path(b"/A")).unwrap();
        let kept = |entry: &Entry| {
            let told = of_file(entry, GEOMETRY).into_iter();
            told.filter(|(name, _)| *name != "granules").collect::<Vec<_>>()
        };
        let before = kept(&entry(&mut mount));
        for size in [299, 1, 1280, 0] {
            mount.truncate(Which::Path(b"/A"), size).unwrap();
            let after = entry(&mut mount);
            assert_eq!(after.size() as u64, size);
            assert_eq!(after.granules(), if size > 0 || more == 0x80 { 1 } else { 0 });
            assert_eq!(kept(&after), before);
        }
    }
}

#[test]
fn dates_and_permissions_stay() {
    let place = Place::new(&with_file("A", &[1; 300], 0, 0));
    let mut mount = place.mount(true, false, Password::Code(OPEN));
    let a = Which::Path(b"/A");
    assert_eq!(mount.time(a, false, 434_548_800), Ok(()));
    assert_eq!(mount.time(a, true, 0), Ok(()), "new files have this date too");
    assert_eq!(mount.time(a, false, 434_548_800 + 86_400), Err(Errno::EOPNOTSUPP));
    assert_eq!(mount.mode(a, 0o100_644), Ok(()));
    assert_eq!(mount.mode(a, 0o100_600), Err(Errno::EOPNOTSUPP));
    assert_eq!(lines(&mut mount).len(), 2);
    mount.settings.new = NewFile::open(GEOMETRY, Date::new(1984, 1, 1));
    assert_eq!(mount.time(a, true, 0), Err(Errno::EOPNOTSUPP));
}

#[test]
fn saved_whole_and_held_by_one() {
    let place = Place::new(&with_file("A", &[1; 300], 0, 0));
    let before = place.on_disk().into_image();
    let mut mount = place.mount(true, false, Password::Code(OPEN));
    let file = mount.open(b"/A", false).unwrap();
    mount.write(file, &[2; 5], 0, false).unwrap();
    assert_eq!(place.on_disk().image(), before, "in memory only");
    for byte in [3, 4] {
        mount.save().unwrap();
        assert_eq!(place.on_disk().image(), mount.held.disk().image());
        let other = place.held(true).err().expect("two writers");
        assert!(other.ends_with("is held by another: a gdos changes it, or it is mounted"), "{other}");
        mount.write(file, &[byte; 5], 100, false).unwrap();
    }
    assert!(place.held(false).is_err(), "nor a reader that stays");
    // Another program's change is not overwritten.
    fs::write(place.image(), &before).unwrap();
    lines(&mut mount);
    assert_eq!(mount.save(), Err(Errno::EIO));
    assert!(lines(&mut mount)[0].starts_with("not saved: cannot replace "));
    assert_eq!(place.on_disk().image(), before);
    drop(mount);
    // No copy is left.
    assert_eq!(fs::read_dir(&place.0).unwrap().count(), 1);
    // Removing is saved at once: nobody closes what is gone.
    let mut mount = place.mount(true, false, Password::Code(OPEN));
    mount.unlink(b"/A").unwrap();
    assert_eq!(place.on_disk().files().unwrap(), []);
}
