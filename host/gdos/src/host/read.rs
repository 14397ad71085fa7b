//! Reading the host's files.

use crate::failure::Failure;
use genie_dos::Geometry;
use std::fs::File;
use std::io::{self, ErrorKind, Read};
use std::path::Path;

/// One byte more than any image has, which is enough for the library to refuse its length.
const MOST: usize = Geometry::MOST_BYTES + 1;

/// Reads a file up to one byte more than any image has.
pub(super) fn read_whole(file: &File) -> io::Result<Vec<u8>> {
    read_file(file, MOST)
}

/// Reads up to so many bytes of a file. Room for the length that it states is made at once.
fn read_file(file: &File, most: usize) -> io::Result<Vec<u8>> {
    let stated = file.metadata()?.len();
    read_up_to(file, usize::try_from(stated).unwrap_or(most), most)
}

fn read_up_to(from: impl Read, room: usize, most: usize) -> io::Result<Vec<u8>> {
    let mut bytes = Vec::with_capacity(room.min(most));
    from.take(most as u64).read_to_end(&mut bytes)?;
    Ok(bytes)
}

/// Reads up to so many bytes of a file of the host, or of standard input where none is named.
pub fn read_part(path: Option<&Path>, most: usize) -> Result<Vec<u8>, Failure> {
    match path {
        Some(path) => File::open(path).and_then(|file| read_file(&file, most)).map_err(Failure::io("read", path)),
        None => standard_input(most),
    }
}

/// Reads a file of the host: an image to look at, or what is to be put on one.
pub fn read(path: &Path) -> Result<Vec<u8>, Failure> {
    File::open(path).and_then(|file| read_whole(&file)).map_err(Failure::io("read", path))
}

/// Reads what is to be put on an image from standard input.
pub fn read_standard_input() -> Result<Vec<u8>, Failure> {
    standard_input(MOST)
}

fn standard_input(most: usize) -> Result<Vec<u8>, Failure> {
    read_up_to(io::stdin().lock(), 0, most).map_err(|e| Failure::Wrong(format!("cannot read standard input: {e}")))
}

/// Longest text of a few lines.
const MOST_TEXT: u64 = 4096;

/// Reads a text of a few lines, if there is such a file.
pub fn read_text(path: &Path) -> Result<Option<String>, Failure> {
    let mut text = String::new();
    let read = File::open(path).and_then(|file| file.take(MOST_TEXT + 1).read_to_string(&mut text));
    match read {
        Ok(_) if text.len() as u64 > MOST_TEXT => {
            Err(Failure::Wrong(format!("{} is too long: it has more than {MOST_TEXT} bytes", path.display())))
        }
        Ok(_) => Ok(Some(text)),
        Err(e) => match e.kind() {
            ErrorKind::NotFound | ErrorKind::NotADirectory | ErrorKind::InvalidFilename => Ok(None),
            ErrorKind::InvalidData => Err(Failure::Wrong(format!("{} is no text", path.display()))),
            _ => Err(Failure::io("read", path)(e)),
        },
    }
}
