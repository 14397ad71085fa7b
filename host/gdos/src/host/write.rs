//! Writing new files of the host, whole or not at all.

use super::copy::Copy;
use super::lock::locked;
use crate::failure::Failure;
use std::fs::{self, File, OpenOptions};
use std::io::{self, ErrorKind};
use std::path::{Path, PathBuf};

/// A file that is written but not yet in its place.
pub struct Prepared {
    /// Its name as given, for messages.
    path: PathBuf,
    /// Where it goes.
    real: PathBuf,
    copy: Copy,
    force: bool,
    /// The file that it replaces, locked.
    _held: Option<File>,
}

impl Prepared {
    /// Writes the bytes beside the file that they are to become. One that is there is replaced only if `force` says so,
    /// and only a regular file that is not write-protected; it keeps its owner and permissions, and a link stays a link.
    pub fn new(path: &Path, bytes: &[u8], force: bool) -> Result<Prepared, Failure> {
        let refused = |why: &str| Failure::Wrong(format!("cannot write {}: {why}", path.display()));
        if !force && fs::symlink_metadata(path).is_ok() && path.file_name().is_some() {
            return Err(Failure::there_already(path));
        }
        let there = fs::metadata(path).ok().filter(|_| force);
        if let Some(there) = &there {
            // A device or a pipe is no place for a file: the renaming would put one in its stead.
            if !there.is_file() && !there.is_dir() {
                return Err(refused("not a regular file"));
            }
            if there.permissions().readonly() {
                return Err(refused("it is write-protected"));
            }
        }
        let prepare = || {
            let (real, held) = match &there {
                Some(_) => {
                    let real = path.canonicalize()?;
                    let held = match locked(&real, OpenOptions::new().read(true), true) {
                        // Who may not read it may still replace it.
                        Err(e) if e.kind() == ErrorKind::PermissionDenied => None,
                        held => Some(held?),
                    };
                    (real, held)
                }
                None => (path.to_path_buf(), None),
            };
            let copy = Copy::beside(&real, bytes, there.as_ref())?;
            Ok(Prepared { path: path.to_path_buf(), real, copy, force, _held: held })
        };
        prepare().map_err(|e: io::Error| Failure::io("write", path)(e))
    }

    /// Puts it in its place.
    pub fn place(self) -> Result<(), Failure> {
        let placed = match self.force {
            true => self.copy.rename_to(&self.real),
            false => self.copy.link_to(&self.real),
        };
        placed.map_err(|e| match e.kind() {
            ErrorKind::AlreadyExists => Failure::there_already(&self.path),
            _ => Failure::io("write", &self.path)(e),
        })
    }
}

/// Writes a file of the host, whole or not at all.
pub fn write(path: &Path, bytes: &[u8], force: bool) -> Result<(), Failure> {
    Prepared::new(path, bytes, force)?.place()
}

/// The same with this time of its last change, in seconds after 1970 began. Where none is known, or the file system keeps none, it
/// is that of its writing.
pub fn write_dated(path: &Path, bytes: &[u8], force: bool, time: Option<u64>) -> Result<(), Failure> {
    let prepared = Prepared::new(path, bytes, force)?;
    if let Some(time) = time {
        prepared.copy.set_time(time);
    }
    prepared.place()
}

/// Makes a folder unless it is there. No name is the present one.
pub fn make_folder(folder: &Path) -> Result<(), Failure> {
    match folder.is_dir() || folder.as_os_str().is_empty() {
        true => Ok(()),
        false => fs::create_dir(folder).map_err(Failure::io("make the folder", folder)),
    }
}
