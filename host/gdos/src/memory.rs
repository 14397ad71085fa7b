//! Files in memory, where there is no file system: those that one run was lent, and those that it wrote. What [`crate::host`]
//! does with the host's files is done with them.

// On a machine with files only the tests use it.
#![cfg_attr(unix, allow(dead_code))]

use crate::failure::Failure;
use crate::program::run;
use genie_dos::Geometry;
use std::cell::RefCell;
use std::collections::BTreeMap;
use std::ffi::{OsStr, OsString};
use std::path::{Path, PathBuf};

/// A file: its bytes, and whether the run wrote it.
struct File {
    bytes: Vec<u8>,
    written: bool,
}

thread_local! {
    /// The files of the run that is going on.
    static FILES: RefCell<BTreeMap<PathBuf, File>> = RefCell::new(BTreeMap::new());
}

/// What a run leaves.
#[derive(Debug, PartialEq, Eq)]
pub struct Answer {
    /// The exit status.
    pub status: u8,
    /// What it wrote to standard output.
    pub out: Vec<u8>,
    /// What it wrote to standard error.
    pub err: Vec<u8>,
    /// The files that it wrote, new ones and those of other bytes than it was lent.
    pub written: Vec<(String, Vec<u8>)>,
}

/// Runs one command on files that are lent to it. They stay as they are: what the command writes is in the answer, and nothing is
/// left for the next run.
pub fn run_on(words: &[String], files: Vec<(String, Vec<u8>)>) -> Answer {
    let lent = files.into_iter().map(|(name, bytes)| (PathBuf::from(name), File { bytes, written: false }));
    FILES.with(|all| *all.borrow_mut() = lent.collect());
    let (mut out, mut err) = (Vec::new(), Vec::new());
    let status = run(words.iter().map(OsString::from), &mut out, &mut err);
    let left = FILES.with(|all| std::mem::take(&mut *all.borrow_mut()));
    let written = left.into_iter().filter(|(_, file)| file.written);
    let written = written.map(|(path, file)| (path.display().to_string(), file.bytes)).collect();
    Answer { status, out, err, written }
}

/// The bytes of a file, up to one more than any image has, as of the host's.
fn bytes_at(path: &Path) -> Option<Vec<u8>> {
    let most = Geometry::MOST_BYTES + 1;
    FILES.with(|all| all.borrow().get(path).map(|file| file.bytes[..file.bytes.len().min(most)].to_vec()))
}

fn put(path: &Path, bytes: &[u8]) {
    FILES.with(|all| all.borrow_mut().insert(path.to_path_buf(), File { bytes: bytes.to_vec(), written: true }));
}

/// Reads a file.
pub fn read(path: &Path) -> Result<Vec<u8>, Failure> {
    bytes_at(path).ok_or_else(|| Failure::Wrong(format!("cannot read {}: there is no such file", path.display())))
}

/// Reads up to so many bytes of a file.
pub fn read_part(path: Option<&Path>, most: usize) -> Result<Vec<u8>, Failure> {
    match path {
        Some(path) => {
            let whole = FILES.with(|all| all.borrow().get(path).map(|file| file.bytes.clone()));
            let cut = |bytes: Vec<u8>| bytes.into_iter().take(most).collect();
            whole.map(cut).map_or_else(|| read(path), Ok)
        }
        None => read_standard_input(),
    }
}

/// There is no standard input.
pub fn read_standard_input() -> Result<Vec<u8>, Failure> {
    Err(Failure::Wrong("cannot read standard input: there is none".to_string()))
}

/// Reads a text, if there is such a file.
pub fn read_text(path: &Path) -> Result<Option<String>, Failure> {
    let text = bytes_at(path).map(String::from_utf8).transpose();
    text.map_err(|_| Failure::Wrong(format!("{} is no text", path.display())))
}

/// What is written goes to the caller.
pub fn is_terminal() -> bool {
    false
}

/// Whether two names are of one file.
pub fn same_file(one: &Path, other: &Path) -> bool {
    one == other && bytes_at(one).is_some()
}

/// A folder is part of its files' names.
pub fn make_folder(_: &Path) -> Result<(), Failure> {
    Ok(())
}

/// A word's bytes: words are text here.
pub fn bytes_of(word: &OsStr) -> &[u8] {
    word.to_str().unwrap_or_default().as_bytes()
}

/// The word of these bytes, which are a part of one.
pub fn word_of(bytes: &[u8]) -> OsString {
    OsString::from(String::from_utf8_lossy(bytes).into_owned())
}

/// An image that is to be changed. Nobody else is there.
pub struct Locked {
    path: PathBuf,
}

impl Locked {
    /// Opens an image for a change, and reads its bytes.
    pub fn open(path: &Path) -> Result<(Locked, Vec<u8>), Failure> {
        Ok((Locked { path: path.to_path_buf() }, read(path)?))
    }

    /// Puts these bytes in the image's place, if the file has others.
    pub fn keep(&mut self, bytes: &[u8]) -> Result<Option<String>, Failure> {
        if FILES.with(|all| all.borrow().get(&self.path).map_or(true, |file| file.bytes != bytes)) {
            put(&self.path, bytes);
        }
        Ok(None)
    }
}

/// A file that is not yet in its place.
pub struct Prepared {
    path: PathBuf,
    bytes: Vec<u8>,
}

impl Prepared {
    /// Holds the bytes. A file that is there is replaced only if `force` says so.
    pub fn new(path: &Path, bytes: &[u8], force: bool) -> Result<Prepared, Failure> {
        match bytes_at(path) {
            Some(_) if !force => Err(Failure::there_already(path)),
            _ => Ok(Prepared { path: path.to_path_buf(), bytes: bytes.to_vec() }),
        }
    }

    /// Puts it in its place.
    pub fn place(self) -> Result<(), Failure> {
        put(&self.path, &self.bytes);
        Ok(())
    }
}

/// Writes a file; files in memory have no time.
pub fn write_dated(path: &Path, bytes: &[u8], force: bool, _: Option<u64>) -> Result<(), Failure> {
    write(path, bytes, force)
}

/// Writes a file.
pub fn write(path: &Path, bytes: &[u8], force: bool) -> Result<(), Failure> {
    Prepared::new(path, bytes, force)?.place()
}

#[cfg(test)]
mod tests {
    use super::*;

    fn lent() {
        let file = |bytes: &[u8]| File { bytes: bytes.to_vec(), written: false };
        let files =
            [("disk.img", file(b"old")), ("odd", file(b"\xff")), ("long", file(&[7; Geometry::MOST_BYTES + 9]))];
        let files = files.into_iter().map(|(name, file)| (PathBuf::from(name), file));
        FILES.with(|all| *all.borrow_mut() = files.collect());
    }

    #[test]
    fn what_is_lent_is_read() {
        lent();
        assert_eq!(read(Path::new("disk.img")).unwrap(), b"old");
        assert!(read(Path::new("other")).unwrap_err().to_string().contains("cannot read other"));
        assert_eq!(read(Path::new("long")).unwrap().len(), Geometry::MOST_BYTES + 1);
        assert_eq!(read_text(Path::new("disk.img")).unwrap(), Some("old".to_string()));
        assert_eq!(read_text(Path::new("other")).unwrap(), None);
        assert!(read_text(Path::new("odd")).is_err());
        assert!(same_file(Path::new("odd"), Path::new("odd")) && !same_file(Path::new("odd"), Path::new("disk.img")));
        assert!(!same_file(Path::new("other"), Path::new("other")));
    }

    #[test]
    fn what_is_written_is_told_apart() {
        lent();
        let written = || FILES.with(|all| all.borrow().values().filter(|file| file.written).count());
        let (mut same, bytes) = Locked::open(Path::new("disk.img")).unwrap();
        assert!(bytes == b"old" && same.keep(b"old").is_ok() && written() == 0);
        assert!(write(Path::new("disk.img"), b"new", false).is_err() && written() == 0);
        let prepared = Prepared::new(Path::new("copy.img"), b"new", false).unwrap();
        assert_eq!(written(), 0);
        prepared.place().unwrap();
        write(Path::new("disk.img"), b"new", true).unwrap();
        assert_eq!((written(), read(Path::new("disk.img")).unwrap()), (2, b"new".to_vec()));
    }

    #[test]
    fn words_are_text() {
        assert_eq!(word_of(bytes_of(OsStr::new("--start=80"))), "--start=80");
    }
}
