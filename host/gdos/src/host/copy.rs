//! A copy beside the file that it is to become.

use std::ffi::{OsStr, OsString};
use std::fs::{self, File, Metadata, OpenOptions, Permissions, TryLockError};
use std::io::{self, ErrorKind, Write};
use std::os::unix::ffi::OsStrExt;
use std::os::unix::fs::{fchown, MetadataExt, OpenOptionsExt, PermissionsExt};
use std::path::{Path, PathBuf};
use std::time::{Duration, SystemTime};

/// Bytes of a file's name that its copy's name has; the host allows 255 in all.
const MOST_NAME: usize = 200;

/// A file beside the one that it is to become. It is removed unless it got there.
pub struct Copy {
    path: PathBuf,
    file: File,
    moved: bool,
}

impl Copy {
    /// A new file of these bytes in the same folder. If it is to replace one, it has that one's owner and permissions, and
    /// nobody else reads it before.
    pub fn beside(path: &Path, bytes: &[u8], replaced: Option<&Metadata>) -> io::Result<Copy> {
        let copy = Copy::empty(path, if replaced.is_some() { 0o600 } else { 0o666 })?;
        (&copy.file).write_all(bytes)?;
        if let Some(was) = replaced {
            let is = copy.file.metadata()?;
            if (was.uid(), was.gid()) != (is.uid(), is.gid()) {
                // Only root may give files away; for others the copy is theirs.
                let _ = fchown(&copy.file, Some(was.uid()), Some(was.gid()));
            }
            copy.file.set_permissions(Permissions::from_mode(was.mode() & 0o7777))?;
        }
        copy.file.sync_all()?;
        Ok(copy)
    }

    /// Has the file be changed last at this time, in seconds after 1970 began, if the file system lets it.
    pub fn set_time(&self, seconds: u64) {
        let _ = self.file.set_modified(SystemTime::UNIX_EPOCH + Duration::from_secs(seconds));
    }

    fn empty(path: &Path, mode: u32) -> io::Result<Copy> {
        let name = path.file_name().ok_or_else(|| io::Error::new(ErrorKind::InvalidInput, "not a file's name"))?;
        let name = OsStr::from_bytes(&name.as_bytes()[..name.len().min(MOST_NAME)]);
        let mut number = 0;
        loop {
            let mut temporary = OsString::from(".");
            temporary.push(name);
            temporary.push(format!(".gdos-{}-{number}.tmp", std::process::id()));
            let path = path.with_file_name(temporary);
            // Read too: whoever holds it on compares it with what is to take its place.
            match OpenOptions::new().read(true).write(true).create_new(true).mode(mode).open(&path) {
                Ok(file) => return Ok(Copy { path, file, moved: false }),
                Err(e) if e.kind() == ErrorKind::AlreadyExists && number < 1000 => number += 1,
                Err(e) => return Err(no_room(e)),
            }
        }
    }

    /// Becomes the file at this path, in one step and in the place of what is there.
    pub fn rename_to(self, path: &Path) -> io::Result<()> {
        self.moved_to(path)?;
        sync_folder_of(path)
    }

    /// The same, and whoever holds the file that is answered is the only one who does, before and after the step. The folder is
    /// not synced yet.
    pub fn held_at(self, path: &Path) -> io::Result<File> {
        match self.file.try_lock() {
            Ok(()) => {}
            Err(TryLockError::Error(e)) if e.kind() == ErrorKind::Unsupported => {}
            Err(e) => return Err(e.into()),
        }
        let file = self.file.try_clone()?;
        self.moved_to(path)?;
        Ok(file)
    }

    fn moved_to(mut self, path: &Path) -> io::Result<()> {
        fs::rename(&self.path, path)?;
        self.moved = true;
        Ok(())
    }

    /// Becomes the file at this path unless one is there.
    pub fn link_to(self, path: &Path) -> io::Result<()> {
        match fs::hard_link(&self.path, path) {
            // File systems without links: look, then rename.
            Err(e) if e.kind() != ErrorKind::AlreadyExists => match fs::symlink_metadata(path) {
                Ok(_) => Err(ErrorKind::AlreadyExists.into()),
                Err(_) => self.rename_to(path),
            },
            linked => linked.and_then(|()| sync_folder_of(path)),
        }
    }
}

impl Drop for Copy {
    fn drop(&mut self) {
        if !self.moved {
            let _ = fs::remove_file(&self.path);
        }
    }
}

/// Who may write to a file need not be allowed to make one beside it: says that this is what is wrong.
fn no_room(e: io::Error) -> io::Error {
    match e.kind() {
        ErrorKind::PermissionDenied | ErrorKind::ReadOnlyFilesystem | ErrorKind::StorageFull => {
            let why = format!("no copy can be made in its folder, from which it would be put in its place: {e}");
            io::Error::new(e.kind(), why)
        }
        _ => e,
    }
}

/// Has the system write the folder's own content, the new name in it. Where the folder may not be read, or its file
/// system knows no such thing, there is nothing more to be done.
pub(super) fn sync_folder_of(path: &Path) -> io::Result<()> {
    let folder = match path.parent() {
        Some(folder) if !folder.as_os_str().is_empty() => folder,
        _ => Path::new("."),
    };
    let Ok(folder) = File::open(folder) else { return Ok(()) };
    folder.sync_all().or_else(|e| match e.kind() {
        ErrorKind::Unsupported | ErrorKind::InvalidInput => Ok(()),
        kind => Err(io::Error::new(kind, format!("it is in its place, but its folder could not be synced: {e}"))),
    })
}
