//! Reads, writes and sizes at any place, by the library's calls.

use genie_dos::{Disk, Entry, Handle, Kind, Refusal};

/// The same handle at a position.
fn at(handle: &Handle, position: u64) -> Result<Handle, Refusal> {
    let mut there = *handle;
    there.set_position(u32::try_from(position).map_err(|_| Refusal::Range)?);
    Ok(there)
}

/// Reads a file from a position on: as many bytes as it has there, at most the buffer's. Answers how many.
pub fn read(disk: &Disk, handle: &Handle, size: usize, position: u64, buffer: &mut [u8]) -> Result<usize, Refusal> {
    let position = position.min(size as u64);
    let length = buffer.len().min(size - position as usize);
    disk.read_bytes(&mut at(handle, position)?, &mut buffer[..length])?;
    Ok(length)
}

/// Writes bytes at a position: all of them or none. A file that ends before it gets zeros up to there; one that goes on behind them
/// keeps what it has.
pub fn write(disk: &mut Disk, handle: &Handle, position: u64, bytes: &[u8]) -> Result<(), Refusal> {
    match bytes.is_empty() {
        true => Ok(()),
        false => disk.write_bytes(&mut at(handle, position)?, Kind::Random, bytes),
    }
}

/// Gives a file another size: the rest is cut off and its granules are given back, or zeros are added. A sequential write of no bytes
/// does it, which ends the file where it stands.
pub fn resize(disk: &mut Disk, handle: &Handle, entry: &Entry, size: u64) -> Result<(), Refusal> {
    let old = entry.size() as u64;
    if size == old {
        return Ok(());
    }
    disk.write_bytes(&mut at(handle, size)?, Kind::Sequential, &[])?;
    match size < old {
        true => disk.trim(handle),
        false => Ok(()),
    }
}
