//! An image that is to be changed.

use super::copy::{sync_folder_of, Copy};
use super::read::read_whole;
use crate::failure::Failure;
use crate::text::counted;
use std::fs::{self, File, Metadata, OpenOptions, TryLockError};
use std::io::{self, ErrorKind, Read, Seek};
use std::os::unix::fs::MetadataExt;
use std::path::{Path, PathBuf};
use std::thread::sleep;
use std::time::Duration;

/// An image that is to be changed. Nobody else who uses this program changes it meanwhile.
pub struct Locked {
    path: PathBuf,
    file: File,
    /// What the file was when it was read or written.
    stamp: Stamp,
}

/// Bytes of the image that are read at a time to be compared.
const PART: usize = 1 << 16;

/// By which another program's change is seen: which file it is, its length and when it was written.
#[derive(Debug, PartialEq, Eq)]
struct Stamp(u64, u64, u64, i64, i64);

impl Stamp {
    fn of(data: &Metadata) -> Stamp {
        Stamp(data.dev(), data.ino(), data.len(), data.mtime(), data.mtime_nsec())
    }
}

impl Locked {
    /// Opens an image for a change, and reads its bytes. An image without any writing permission is protected, whoever asks.
    pub fn open(path: &Path) -> Result<(Locked, Vec<u8>), Failure> {
        Locked::take(path, true, true)
    }

    /// The same of an image that is held for long, to be changed or only looked at. Where another holds it, that is told, and
    /// nobody waits.
    pub fn hold(path: &Path, change: bool) -> Result<(Locked, Vec<u8>), Failure> {
        Locked::take(path, change, false)
    }

    fn take(path: &Path, change: bool, wait: bool) -> Result<(Locked, Vec<u8>), Failure> {
        let refused = |why: &str| Failure::Wrong(format!("cannot write to {}: {why}", path.display()));
        // A link stays a link: what it leads to is replaced.
        let real = path.canonicalize().map_err(Failure::io("open", path))?;
        let there = fs::metadata(&real).map_err(Failure::io("open", path))?;
        if change && !there.is_file() && !there.is_dir() {
            return Err(refused("not a regular file"));
        }
        let what = if change { "write to" } else { "read" };
        let file = locked(&real, OpenOptions::new().read(true).write(change), wait).map_err(|e| match e.kind() {
            ErrorKind::WouldBlock => Failure::Wrong(format!("{} is held by another: {HOLDERS}", path.display())),
            _ => Failure::io(what, path)(e),
        })?;
        let held = file.metadata().map_err(Failure::io("open", path))?;
        if change && held.permissions().readonly() {
            return Err(refused("it is write-protected"));
        }
        // Who holds it for long is to hear at once, and not with the first change, that none could be saved.
        if change && !wait {
            drop(Copy::beside(&real, &[], None).map_err(Failure::io("replace", path))?);
        }
        let stamp = file.metadata().map(|data| Stamp::of(&data)).map_err(Failure::io("open", path))?;
        let bytes = read_whole(&file).map_err(Failure::io("read", path))?;
        Ok((Locked { path: real, file, stamp }, bytes))
    }

    /// Where the image is, links followed.
    pub fn path(&self) -> &Path {
        &self.path
    }

    /// Whether the file has these bytes: it is read again as far as they agree, so that nobody keeps a second copy of an image.
    fn has(&self, bytes: &[u8]) -> io::Result<bool> {
        let mut file = &self.file;
        if file.metadata()?.len() != bytes.len() as u64 {
            return Ok(false);
        }
        file.rewind()?;
        let mut part = Vec::with_capacity(PART);
        for wanted in bytes.chunks(PART) {
            part.clear();
            file.take(wanted.len() as u64).read_to_end(&mut part)?;
            if part != wanted {
                return Ok(false);
            }
        }
        Ok(true)
    }

    /// Puts these bytes in the image's place, if the file has others: its owner and permissions stay, and it stays locked. Other
    /// names of the same file keep what it was: a remark says so. What another program put in its place meanwhile, lock or not,
    /// is not overwritten.
    pub fn keep(&mut self, bytes: &[u8]) -> Result<Option<String>, Failure> {
        if self.has(bytes).map_err(Failure::io("read", &self.path))? {
            return Ok(None);
        }
        let there = fs::metadata(&self.path).map_err(Failure::io("replace", &self.path))?;
        if Stamp::of(&there) != self.stamp {
            let changed = "another program changed it since it was read, so nothing is written";
            return Err(Failure::Wrong(format!("cannot replace {}: {changed}", self.path.display())));
        }
        let put = |locked: &mut Locked| {
            let was = locked.file.metadata()?;
            locked.file = Copy::beside(&locked.path, bytes, Some(&was))?.held_at(&locked.path)?;
            locked.stamp = Stamp::of(&locked.file.metadata()?);
            sync_folder_of(&locked.path)?;
            Ok(was.nlink())
        };
        let path = self.path.clone();
        let links = put(self).map_err(Failure::io("replace", &path))?;
        let others = links.saturating_sub(1) as usize;
        Ok((others > 0).then(|| {
            let (path, others) = (self.path.display(), counted(others, "other name"));
            format!("{path} had {others} (hard links): the disk there is as it was")
        }))
    }
}

/// Who may hold an image.
const HOLDERS: &str = "a gdos changes it, or it is mounted";

/// How often who does not wait tries, and how long it rests in between: a holder may be at its end.
const TRIES: usize = 20;
const REST: Duration = Duration::from_millis(50);

/// Opens a file that nobody else who uses this program holds. Where another does, it waits and says so; or, if it is not to wait,
/// answers after a second that it would have to. Whoever held the file before may have put another in its place: then that one is
/// opened.
pub fn locked(path: &Path, how: &OpenOptions, wait: bool) -> io::Result<File> {
    let mut told = false;
    let mut tries = 0;
    loop {
        let file = how.open(path)?;
        let taken = match file.try_lock() {
            Err(TryLockError::WouldBlock) if !wait && tries < TRIES => {
                tries += 1;
                sleep(REST);
                continue;
            }
            Err(TryLockError::WouldBlock) if wait => {
                if !told {
                    eprintln!("gdos: note: waiting for {}: {HOLDERS}", path.display());
                    told = true;
                }
                file.lock()
            }
            taken => taken.map_err(io::Error::from),
        };
        match taken {
            Err(e) if e.kind() != ErrorKind::Unsupported => return Err(e),
            _ => {}
        }
        let (held, there) = (file.metadata()?, fs::metadata(path)?);
        if (held.dev(), held.ino()) == (there.dev(), there.ino()) {
            return Ok(file);
        }
    }
}
