//! Program files, read record by record.

use alloc::vec::Vec;
use core::fmt;

use crate::call::call;
use crate::{Disk, Handle, Refusal};

/// One record of a program file, as [`Disk::load_record`] tells it.
#[derive(Clone, Copy, Debug, PartialEq, Eq)]
pub enum Loaded {
    /// Bytes for an address, so many of them at the buffer's start. The handle's position is just behind the record.
    Data {
        /// The address of the first byte.
        address: u16,
        /// How many bytes, 0 to 255.
        count: usize,
    },
    /// The program's start address, which ends it. The handle's position has not moved.
    Start {
        /// The address.
        address: u16,
    },
}

/// One piece of a program file, as [`Program`] tells it.
#[derive(Clone, Debug, PartialEq, Eq)]
pub enum Piece {
    /// Bytes for an address.
    Data {
        /// The address of the first byte.
        address: u16,
        /// The bytes, 0 to 255 of them.
        bytes: Vec<u8>,
    },
    /// The start address, the last piece.
    Start {
        /// The address.
        address: u16,
    },
}

/// A refused load record: 31, 32 and 33 say where in the file.
#[derive(Clone, Copy, Debug, PartialEq, Eq)]
#[non_exhaustive]
pub struct RefusedLoad {
    /// The refusal.
    pub refusal: Refusal,
    /// The byte position that goes with 31, 32 and 33; none with every other.
    pub position: Option<usize>,
}

impl fmt::Display for RefusedLoad {
    fn fmt(&self, f: &mut fmt::Formatter<'_>) -> fmt::Result {
        self.refusal.fmt(f)?;
        match self.position {
            Some(position) => write!(f, " at byte {position}"),
            None => Ok(()),
        }
    }
}

#[cfg(feature = "std")]
impl std::error::Error for RefusedLoad {}

/// The pieces of a program file: its records, then its start address or a refusal. [`Disk::program`] makes it.
#[derive(Clone, Debug)]
pub struct Program<'a> {
    disk: Disk<&'a [u8]>,
    /// The reader's place is its position; none behind the last piece.
    handle: Option<Handle>,
}

/// The most bytes that a record has: what the buffer of [`Disk::load_record`] must hold.
pub const LOAD_BYTES: usize = 255;

impl<B: AsRef<[u8]>> Disk<B> {
    /// Reads the next record of a program file from the handle's position on, comments passed over, into the buffer's
    /// start. The buffer has 255 bytes at the least; the rest of it stays as it is.
    ///
    /// ```
    /// # use genie_dos::*;
    /// # let mut disk = Disk::blank(Geometry::new(16, 2, 80, 0x4296), 10, &[0])?;
    /// # let name = "PULS/CMD".parse().unwrap();
    /// # let new = NewFile::open(disk.geometry(), Date::new(1983, 10, 9)).with_record_length(9);
    /// # let mut handle = disk.create(&name, &new)?.handle;
    /// # disk.write_record(&mut handle, Kind::Sequential, &[1, 3, 0, 0x60, 0xC9, 2, 2, 0, 0x60])?;
    /// let mut handle = disk.open(&name, 256, Password::Unchecked)?;
    /// let mut buffer = [0; 255];
    /// assert_eq!(disk.load_record(&mut handle, &mut buffer)?, Loaded::Data { address: 0x6000, count: 1 });
    /// assert_eq!((buffer[0], handle.position()), (0xC9, 5));
    /// assert_eq!(disk.load_record(&mut handle, &mut buffer)?, Loaded::Start { address: 0x6000 });
    /// # Ok::<(), Box<dyn std::error::Error>>(())
    /// ```
    pub fn load_record(&self, handle: &mut Handle, buffer: &mut [u8]) -> Result<Loaded, RefusedLoad> {
        let (image, g, lent) = (self.image(), self.geometry(), handle.as_mut_bytes());
        let (mut kind, mut address, mut count, mut position, mut fault_slot) = (0, 0, 0, 0, 0);
        // SAFETY: the slices are live references, those written to are exclusive; the outgoing numbers are locals.
        let number = unsafe {
            call!(
                genie_load_record,
                as_ptr,
                [(image, g)],
                lent.as_mut_ptr(),
                lent.len(),
                buffer.as_mut_ptr(),
                buffer.len(),
                &mut kind,
                &mut address,
                &mut count,
                &mut position,
                &mut fault_slot,
            )
        };
        if let Some(refusal) = Refusal::from_answer(number, fault_slot) {
            let own = matches!(refusal, Refusal::LoadCode | Refusal::LoadEnd | Refusal::LoadCount);
            return Err(RefusedLoad { refusal, position: if own { Some(position) } else { None } });
        }
        // An address has two bytes.
        let address = address as u16;
        Ok(if kind == 1 { Loaded::Data { address, count } } else { Loaded::Start { address } })
    }

    /// A program file's records and its start address, one after the other from the handle's position on: the last piece
    /// is the start address or a refusal.
    ///
    /// ```
    /// # use genie_dos::*;
    /// # let mut disk = Disk::blank(Geometry::new(16, 2, 80, 0x4296), 10, &[0])?;
    /// # let name = "PULS/CMD".parse().unwrap();
    /// # let new = NewFile::open(disk.geometry(), Date::new(1983, 10, 9)).with_record_length(9);
    /// # let mut handle = disk.create(&name, &new)?.handle;
    /// # disk.write_record(&mut handle, Kind::Sequential, &[1, 3, 0, 0x60, 0xC9, 2, 2, 0, 0x60])?;
    /// let handle = disk.open(&name, 256, Password::Unchecked)?;
    /// let pieces: Result<Vec<Piece>, RefusedLoad> = disk.program(handle).collect();
    /// assert_eq!(pieces?, [Piece::Data { address: 0x6000, bytes: vec![0xC9] }, Piece::Start { address: 0x6000 }]);
    /// # Ok::<(), Box<dyn std::error::Error>>(())
    /// ```
    pub fn program(&self, handle: Handle) -> Program<'_> {
        Program { disk: Disk::new(self.image(), self.geometry()), handle: Some(handle) }
    }
}

impl Iterator for Program<'_> {
    type Item = Result<Piece, RefusedLoad>;

    fn next(&mut self) -> Option<Result<Piece, RefusedLoad>> {
        let mut handle = self.handle.take()?;
        let mut buffer = [0; LOAD_BYTES];
        Some(self.disk.load_record(&mut handle, &mut buffer).map(|loaded| match loaded {
            Loaded::Data { address, count } => {
                self.handle = Some(handle);
                Piece::Data { address, bytes: buffer[..count].to_vec() }
            }
            Loaded::Start { address } => Piece::Start { address },
        }))
    }
}

impl core::iter::FusedIterator for Program<'_> {}
