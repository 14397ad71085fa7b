//! A disk as a folder: the operations, by the library's calls. Nothing here knows the kernel: `ffi.rs` hands them to libfuse, tests call
//! them by themselves.

use crate::attributes::{of_disk, of_file, PREFIX};
use crate::bytes;
use crate::calendar;
use crate::errno::Errno;
use crate::log::Log;
use gdos::held::{host_name, Held, Typed};
use genie_dos::{Entry, Handle, NewFile, Password, Refusal};
use std::ffi::OsStr;
use std::os::unix::ffi::OsStrExt;
use std::os::unix::fs::MetadataExt;
use std::path::Path;

/// What the host tells of a file. As in `fuse.c`.
#[repr(C)]
#[derive(Clone, Copy, Debug, Default, PartialEq, Eq)]
pub struct Attributes {
    pub inode: u64,
    pub size: u64,
    /// Space, in blocks of 512 bytes.
    pub blocks: u64,
    pub time: i64,
    pub mode: u32,
    pub links: u32,
}

/// What the host tells of free space. As in `fuse.c`.
#[repr(C)]
#[derive(Clone, Copy, Debug, Default, PartialEq, Eq)]
pub struct Room {
    pub granule_bytes: u64,
    pub granules: u64,
    pub free_granules: u64,
    pub slots: u64,
    pub free_slots: u64,
    pub longest_name: u64,
}

/// What the options say.
pub struct Settings {
    /// The disk may be changed.
    pub change: bool,
    /// System files are listed.
    pub all: bool,
    /// How files are opened.
    pub password: Password,
    /// What new files are.
    pub new: NewFile,
}

/// A file of an operation: named by its path, or open.
#[derive(Clone, Copy)]
pub enum Which<'a> {
    Path(&'a [u8]),
    Open(u64),
}

/// A mounted disk.
pub struct Mount {
    held: Held,
    settings: Settings,
    /// The open files, by number less one.
    open: Vec<Option<Handle>>,
    log: Log,
}

const FOLDER: u32 = 0o040_000;
const REGULAR: u32 = 0o100_000;
/// NAME.TYP.
const LONGEST_NAME: u64 = 12;

/// The file that a path names: `/puls01.dat` is PULS01/DAT. The library folds small letters.
fn typed(path: &[u8]) -> Typed {
    Typed::for_host(Path::new(OsStr::from_bytes(path)))
}

fn is_root(path: &[u8]) -> bool {
    path == b"/"
}

impl Mount {
    pub fn new(held: Held, settings: Settings, log: Log) -> Mount {
        Mount { held, settings, open: Vec::new(), log }
    }

    /// The image's name as it was typed.
    pub fn image(&self) -> &str {
        self.held.image()
    }

    /// Sends what is told from now on elsewhere.
    pub fn log_to(&mut self, log: Log) {
        self.log = log;
    }

    /// A refusal: its number and words are logged, with the error that stands for it.
    fn refused(&mut self, operation: &str, typed: &Typed, refusal: Refusal) -> Errno {
        self.refused_as(operation, typed, refusal, Errno::of(refusal))
    }

    fn refused_as(&mut self, operation: &str, typed: &Typed, refusal: Refusal, errno: Errno) -> Errno {
        let failure = self.held.refused(typed, refusal).to_string();
        // What follows in lines of its own marks a byte of the name.
        let words = failure.lines().next().unwrap_or_default();
        self.log.line(&format!("{operation}: {words}: {errno:?}"), errno == Errno::ENOENT);
        errno
    }

    /// What the library was not asked, since it has no call for it.
    pub fn no_call(&mut self, operation: &str, path: &[u8], errno: Errno) -> Errno {
        let path = String::from_utf8_lossy(path.strip_prefix(b"/").unwrap_or(path));
        self.log
            .line(&format!("{operation}: {path} on {}: no call of the system does it: {errno:?}", self.image()), false);
        errno
    }

    fn handle(&self, file: u64) -> Result<Handle, Errno> {
        let index = usize::try_from(file).ok().and_then(|file| file.checked_sub(1)).ok_or(Errno::EBADF)?;
        self.open.get(index).copied().flatten().ok_or(Errno::EBADF)
    }

    fn keep(&mut self, handle: Handle) -> u64 {
        let index = match self.open.iter().position(Option::is_none) {
            Some(index) => index,
            None => {
                self.open.push(None);
                self.open.len() - 1
            }
        };
        self.open[index] = Some(handle);
        index as u64 + 1
    }

    /// A file is closed for good.
    pub fn release(&mut self, file: u64) {
        let index = usize::try_from(file).ok().and_then(|file| file.checked_sub(1));
        if let Some(place) = index.and_then(|index| self.open.get_mut(index)) {
            *place = None;
        }
    }

    /// The entry of a file, by a look up of its name; an open file's entry must still be the one that was opened.
    fn entry(&mut self, operation: &str, which: Which) -> Result<Entry, Errno> {
        let (typed, slot) = match which {
            Which::Path(path) => (typed(path), None),
            Which::Open(file) => {
                let handle = self.handle(file)?;
                (Typed::from(handle.name()), Some(handle.slot()))
            }
        };
        let found = self.held.disk().look_up(&typed.name).slot;
        let found = match (slot, found) {
            (Some(opened), Ok(found)) if opened != found => Err(Refusal::Stale),
            (Some(_), Err(Refusal::NotFound)) => Err(Refusal::Stale),
            (_, found) => found,
        };
        let entry = found.and_then(|slot| {
            let entries = self.held.disk().entries()?;
            entries.into_iter().find(|entry| entry.slot() == slot).ok_or(Refusal::NotFound)
        });
        entry.map_err(|refusal| self.refused_as(operation, &typed, refusal, Errno::of_asking(refusal)))
    }

    fn attributes_of(&self, entry: &Entry) -> Attributes {
        let space = entry.granules() * self.held.disk().geometry().granule_bytes();
        let may_write = self.settings.change && !entry.is_system();
        Attributes {
            // The root's is 1.
            inode: u64::from(entry.slot()) + 2,
            size: entry.size() as u64,
            blocks: space as u64 / 512,
            time: calendar::time_of(entry.date()),
            mode: REGULAR | if may_write { 0o644 } else { 0o444 },
            links: 1,
        }
    }

    fn root(&self) -> Attributes {
        let time = std::fs::metadata(self.held.path()).map_or(0, |data| data.mtime());
        let mode = FOLDER | if self.settings.change { 0o755 } else { 0o555 };
        Attributes { inode: 1, size: 0, blocks: 0, time, mode, links: 2 }
    }

    pub fn getattr(&mut self, which: Which) -> Result<Attributes, Errno> {
        if matches!(which, Which::Path(path) if is_root(path)) {
            return Ok(self.root());
        }
        self.entry("look up", which).map(|entry| self.attributes_of(&entry))
    }

    /// The names, as the host has them.
    pub fn readdir(&mut self) -> Result<Vec<(String, Attributes)>, Errno> {
        let entries = self.held.disk().entries().map_err(|refusal| self.refused_disk("list", refusal))?;
        let shown = entries.iter().filter(|entry| self.settings.all || !entry.is_system());
        Ok(shown.map(|entry| (host_name(&entry.name()), self.attributes_of(entry))).collect())
    }

    fn refused_disk(&mut self, operation: &str, refusal: Refusal) -> Errno {
        let line = format!("{operation}: refused: {refusal}: {}: {:?}", self.image(), Errno::EIO);
        self.log.line(&line, false);
        Errno::EIO
    }

    /// Opens a file; `cut` empties it first.
    pub fn open(&mut self, path: &[u8], cut: bool) -> Result<u64, Errno> {
        if is_root(path) {
            return Err(Errno::EISDIR);
        }
        let typed = typed(path);
        let opened = self.held.disk().open(&typed.name, 256, self.settings.password);
        let handle = opened.map_err(|refusal| self.refused("open", &typed, refusal))?;
        let file = self.keep(handle);
        if cut {
            if let Err(errno) = self.truncate(Which::Open(file), 0) {
                self.release(file);
                return Err(errno);
            }
        }
        Ok(file)
    }

    /// Creates a file, or opens the one that is there unless it is to be new.
    pub fn create(&mut self, path: &[u8], only_new: bool, cut: bool) -> Result<u64, Errno> {
        let typed = typed(path);
        if !self.settings.change {
            return Err(Errno::EROFS);
        }
        if only_new && self.held.disk().look_up(&typed.name).slot.is_ok() {
            return Err(Errno::EEXIST);
        }
        let created = self.held.disk_mut().create(&typed.name, &self.settings.new);
        let created = created.map_err(|refusal| self.refused("create", &typed, refusal))?;
        match created.old {
            true => self.open(path, cut),
            false => Ok(self.keep(created.handle)),
        }
    }

    /// Reads from an offset on into the buffer; answers how many bytes, fewer where the file ends.
    pub fn read(&mut self, file: u64, buffer: &mut [u8], offset: u64) -> Result<usize, Errno> {
        let size = self.entry("read", Which::Open(file))?.size();
        let handle = self.handle(file)?;
        let read = bytes::read(self.held.disk(), &handle, size, offset, buffer);
        read.map_err(|refusal| self.refused("read", &Typed::from(handle.name()), refusal))
    }

    /// Writes at an offset, or behind the file's end: all bytes or none.
    pub fn write(&mut self, file: u64, written: &[u8], offset: u64, append: bool) -> Result<usize, Errno> {
        let handle = self.handle(file)?;
        if !self.settings.change {
            return Err(Errno::EROFS);
        }
        let offset = match append {
            true => self.entry("write", Which::Open(file))?.size() as u64,
            false => offset,
        };
        let wrote = bytes::write(self.held.disk_mut(), &handle, offset, written);
        wrote.map_err(|refusal| self.refused("write", &Typed::from(handle.name()), refusal))?;
        Ok(written.len())
    }

    /// Gives a file another size. By a path it is opened for that, and what was done is saved, since nobody will close it.
    pub fn truncate(&mut self, which: Which, size: u64) -> Result<(), Errno> {
        if !self.settings.change {
            return Err(Errno::EROFS);
        }
        let file = match which {
            Which::Open(file) => file,
            Which::Path(path) => {
                let file = self.open(path, false)?;
                let done = self.truncate(Which::Open(file), size).and_then(|()| self.save());
                self.release(file);
                return done;
            }
        };
        let handle = self.handle(file)?;
        let entry = self.entry("truncate", which)?;
        let resized = bytes::resize(self.held.disk_mut(), &handle, &entry, size);
        resized.map_err(|refusal| self.refused("truncate", &Typed::from(handle.name()), refusal))
    }

    /// Takes space for an open file up to an offset; its size stays.
    pub fn allot(&mut self, file: u64, end: u64) -> Result<(), Errno> {
        let handle = self.handle(file)?;
        if !self.settings.change {
            return Err(Errno::EROFS);
        }
        let last = end.checked_sub(1).ok_or(Errno::EINVAL)? / 256;
        let sector = usize::try_from(last).map_err(|_| Errno::EFBIG)?;
        let allotted = self.held.disk_mut().allot(&handle, sector);
        allotted.map_err(|refusal| self.refused("allot", &Typed::from(handle.name()), refusal))
    }

    /// Removes a file, and saves that: nobody will close it.
    pub fn unlink(&mut self, path: &[u8]) -> Result<(), Errno> {
        if !self.settings.change {
            return Err(Errno::EROFS);
        }
        let typed = typed(path);
        let opened = self.held.disk().open(&typed.name, 256, self.settings.password);
        let killed = opened.and_then(|handle| self.held.disk_mut().kill(&handle));
        killed.map_err(|refusal| self.refused("remove", &typed, refusal))?;
        self.save()
    }

    pub fn statfs(&mut self) -> Result<Room, Errno> {
        let (disk, geometry) = (self.held.disk(), self.held.disk().geometry());
        match (disk.count(), disk.slots()) {
            (Ok(counts), Ok(slots)) => Ok(Room {
                granule_bytes: geometry.granule_bytes() as u64,
                granules: geometry.granules().unwrap_or(0) as u64,
                free_granules: counts.free as u64,
                slots: slots.all as u64,
                free_slots: slots.free as u64,
                longest_name: LONGEST_NAME,
            }),
            (Err(refusal), _) | (_, Err(refusal)) => Err(self.refused_disk("free space", refusal)),
        }
    }

    /// The extended attributes of a file or, of the root, of the disk: names without the prefix, and what they say.
    fn extended(&mut self, path: &[u8]) -> Result<Vec<(&'static str, String)>, Errno> {
        if is_root(path) {
            return Ok(of_disk(self.held.disk().geometry()));
        }
        let entry = self.entry("look up", Which::Path(path))?;
        Ok(of_file(&entry, self.held.disk().geometry()))
    }

    /// An extended attribute's value.
    pub fn getxattr(&mut self, path: &[u8], name: &[u8]) -> Result<String, Errno> {
        // The host asks for others before each write; they are nobody's business here.
        let name = name.strip_prefix(PREFIX.as_bytes()).ok_or(Errno::ENODATA)?;
        let extended = self.extended(path)?;
        let found = extended.into_iter().find(|(known, _)| known.as_bytes() == name);
        found.map(|(_, value)| value).ok_or(Errno::ENODATA)
    }

    /// The names of the extended attributes, each with a zero behind it.
    pub fn listxattr(&mut self, path: &[u8]) -> Result<String, Errno> {
        Ok(self.extended(path)?.iter().map(|(name, _)| format!("{PREFIX}{name}\0")).collect())
    }

    /// A file's permissions follow from the mount and its system flag: no others can be had.
    pub fn mode(&mut self, which: Which, mode: u32) -> Result<(), Errno> {
        match self.getattr(which)?.mode & 0o7777 == mode & 0o7777 {
            true => Ok(()),
            false => Err(self.no_call_on("chmod", which)),
        }
    }

    /// A file's date is given when it is created, and no call changes it: the same day is accepted.
    pub fn time(&mut self, which: Which, now: bool, time: i64) -> Result<(), Errno> {
        if matches!(which, Which::Path(path) if is_root(path)) {
            return Ok(());
        }
        let date = self.entry("utime", which)?.date();
        let same = match now {
            true => date == self.settings.new.date,
            false => calendar::is_on(time, date),
        };
        match same {
            true => Ok(()),
            false => Err(self.no_call_on("utime", which)),
        }
    }

    fn no_call_on(&mut self, operation: &str, which: Which) -> Errno {
        let path = match which {
            Which::Path(path) => path.to_vec(),
            Which::Open(file) => self.handle(file).map_or(Vec::new(), |handle| host_name(&handle.name()).into_bytes()),
        };
        self.no_call(operation, &path, Errno::EOPNOTSUPP)
    }

    /// Puts the disk in the image's place, if it was changed.
    pub fn save(&mut self) -> Result<(), Errno> {
        if !self.settings.change {
            return Ok(());
        }
        match self.held.save() {
            Ok(note) => {
                note.into_iter().for_each(|note| self.log.line(&format!("note: {note}"), false));
                Ok(())
            }
            Err(failure) => {
                self.log.line(&format!("not saved: {failure}: {:?}", Errno::EIO), false);
                Err(Errno::EIO)
            }
        }
    }
}

#[cfg(test)]
#[path = "mount_tests.rs"]
mod tests;
