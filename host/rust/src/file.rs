//! Whole files by one call, and a file as a stream of bytes.

use crate::entry::Directory;
use crate::{Created, Disk, Geometry, Handle, Kind, Name, NewFile, Password, Refusal};
use alloc::vec::Vec;

impl<B: AsRef<[u8]>> Disk<B> {
    /// The whole file. Position and record length play no part.
    pub fn contents(&self, handle: &Handle) -> Result<Vec<u8>, Refusal> {
        let mut bytes = vec![0; self.size_told(handle)];
        let mut from_the_start = *handle;
        from_the_start.set_position(0);
        self.read_bytes(&mut from_the_start, &mut bytes)?;
        Ok(bytes)
    }

    /// The whole file of a name.
    ///
    /// ```
    /// # use genie_dos::*;
    /// # let mut disk = Disk::blank(Geometry::new(16, 2, 80, 0x4296), 10, &[0])?;
    /// let name = "PULS01/DAT".parse().unwrap();
    /// let new = NewFile::open(disk.geometry(), Date::new(1983, 10, 9));
    /// disk.write_file(&name, &new, b"61 63 64")?;
    /// assert_eq!(disk.read_file(&name, Password::Unchecked)?, b"61 63 64");
    /// disk.write_file(&name, &new, b"70")?;
    /// assert_eq!(disk.read_file(&name, Password::Unchecked)?, b"70");
    /// # Ok::<(), Refusal>(())
    /// ```
    pub fn read_file(&self, name: &Name, password: Password) -> Result<Vec<u8>, Refusal> {
        self.contents(&self.open(name, 256, password)?)
    }

    /// The size that the entry in a handle's slot tells, if it is that of the handle's file; the library tests all of it
    /// again, so that on a damaged disk, or where the handle is stale, nothing hangs on the number.
    fn size_told(&self, handle: &Handle) -> usize {
        let (image, geometry) = (self.image(), self.geometry());
        if geometry.start > image.len() / Geometry::SECTOR_BYTES {
            return 0;
        }
        let entry = Directory::new(image, geometry).entry(handle.slot());
        entry.filter(|entry| entry.name() == handle.name()).map_or(0, |entry| entry.size())
    }
}

impl<B: AsMut<[u8]>> Disk<B> {
    /// A file of this name with these bytes and no others. One that is there keeps its date, codes, record length and flags
    /// (no call changes them), and gives back the space that it no longer needs. Refused, an old file is as it was, and a new
    /// one is not there.
    pub fn write_file(&mut self, name: &Name, new: &NewFile, bytes: &[u8]) -> Result<Created, Refusal> {
        let created = self.create(name, new)?;
        // A write of nothing would mark the new file as worked on.
        if bytes.is_empty() && !created.old {
            return Ok(created);
        }
        let mut handle = created.handle;
        if let Err(refusal) = self.write_bytes(&mut handle, Kind::Sequential, bytes) {
            if !created.old {
                self.kill(&created.handle)?;
            }
            return Err(refusal);
        }
        if created.old {
            self.trim(&handle)?;
        }
        Ok(created)
    }
}

#[cfg(feature = "std")]
mod stream {
    use super::*;
    use core::ops::{Deref, DerefMut};
    use std::io::{self, ErrorKind, Read, Seek, SeekFrom, Write};

    /// An open file as a stream of bytes: [`Read`] and [`Seek`] over a `&Disk` or `&mut Disk`, [`Write`] over the latter. A
    /// write goes over what stands at the position and lengthens the file where it passes the end. Each read and each write
    /// is one call of the library, which checks the disk: wrap it in a `BufReader` or `BufWriter` for small pieces.
    ///
    /// ```
    /// # use genie_dos::*;
    /// use std::io::{Read, Seek, SeekFrom, Write};
    ///
    /// # let mut disk = Disk::blank(Geometry::new(16, 2, 80, 0x4296), 10, &[0]).unwrap();
    /// # let new = NewFile::open(disk.geometry(), Date::new(1983, 10, 9));
    /// # let name = "PULS01/DAT".parse().unwrap();
    /// let handle = disk.create(&name, &new).unwrap().handle;
    /// let mut file = File::new(&mut disk, handle);
    /// file.write_all(b"61 63 64")?;
    /// file.seek(SeekFrom::Start(3))?;
    /// file.write_all(b"70")?;
    ///
    /// let mut text = String::new();
    /// File::new(&disk, handle).read_to_string(&mut text)?;
    /// assert_eq!(text, "61 70 64");
    /// # Ok::<(), std::io::Error>(())
    /// ```
    #[derive(Clone, Copy, Debug)]
    pub struct File<D> {
        disk: D,
        handle: Handle,
    }

    impl<D> File<D> {
        /// The file of a handle, from the handle's position on.
        pub const fn new(disk: D, handle: Handle) -> File<D> {
            File { disk, handle }
        }

        /// The handle, with the position that the stream has.
        pub const fn handle(&self) -> Handle {
            self.handle
        }
    }

    fn refused(refusal: Refusal) -> io::Error {
        let kind = match refusal {
            Refusal::Range => ErrorKind::InvalidInput,
            Refusal::Access | Refusal::Password => ErrorKind::PermissionDenied,
            Refusal::NotFound | Refusal::Stale => ErrorKind::NotFound,
            Refusal::Inconsistent(_) => ErrorKind::InvalidData,
            _ => ErrorKind::Other,
        };
        io::Error::new(kind, refusal)
    }

    impl<D: Deref<Target = Disk<B>>, B: AsRef<[u8]>> Read for File<D> {
        fn read(&mut self, buffer: &mut [u8]) -> io::Result<usize> {
            let left = self.disk.size_told(&self.handle).saturating_sub(self.handle.position() as usize);
            let length = buffer.len().min(left);
            // Past the end there is nothing to read, and that is no refusal of a stream.
            let mut here = self.handle;
            if length == 0 {
                here.set_position(0);
                return self.disk.read_bytes(&mut here, &mut []).map(|()| 0).map_err(refused);
            }
            self.disk.read_bytes(&mut self.handle, &mut buffer[..length]).map_err(refused)?;
            Ok(length)
        }
    }

    impl<D: DerefMut<Target = Disk<B>>, B: AsMut<[u8]>> Write for File<D> {
        fn write(&mut self, bytes: &[u8]) -> io::Result<usize> {
            if !bytes.is_empty() {
                self.disk.write_bytes(&mut self.handle, Kind::Random, bytes).map_err(refused)?;
            }
            Ok(bytes.len())
        }

        fn flush(&mut self) -> io::Result<()> {
            Ok(())
        }
    }

    impl<D: Deref<Target = Disk<B>>, B: AsRef<[u8]>> Seek for File<D> {
        fn seek(&mut self, to: SeekFrom) -> io::Result<u64> {
            let from = |start: u64, by: i64| match by {
                0.. => start.checked_add(by.unsigned_abs()),
                _ => start.checked_sub(by.unsigned_abs()),
            };
            let position = match to {
                SeekFrom::Start(position) => Some(position),
                SeekFrom::Current(by) => from(self.handle.position().into(), by),
                SeekFrom::End(by) => from(self.disk.size_told(&self.handle) as u64, by),
            };
            let highest = self.disk.geometry().highest_position() as u64;
            match position.filter(|&position| position <= highest).and_then(|position| u32::try_from(position).ok()) {
                Some(position) => {
                    self.handle.set_position(position);
                    Ok(position.into())
                }
                None => Err(refused(Refusal::Range)),
            }
        }
    }
}

#[cfg(feature = "std")]
pub use stream::File;
