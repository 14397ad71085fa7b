use crate::call::call;
use crate::{Date, Disk, Geometry, Handle, Kind, Name, NewFile, Password, Refusal};
use alloc::vec::Vec;
use core::fmt;

/// Two drives, 0 and 1, with a disk in each.
///
/// The disks can be owned or lent, as a [`Disk`] can, and their geometries may differ. A call by name goes with the number of
/// a drive (`Some(1)`) or without one (`None`). With a number only that drive's disk is tested and searched, and the other may
/// be anything; without one both are tested, and the first drive that has the name has the file. A call by handle goes to
/// the handle's drive. No call changes a byte of the other disk.
///
/// ```
/// use genie_dos::{Date, Disk, Drives, Geometry, Kind, Name, NewFile, Refusal};
///
/// let system = Geometry::new(16, 2, 80, 0x4296);
/// let data = system.with_system_disk(false);
/// let mut drives = Drives::new(Disk::blank(system, 10, &[0])?, Disk::blank(data, 10, &[0])?);
///
/// let name: Name = "PULS01/DAT".parse().unwrap();
/// let new = NewFile::open(data, Date::new(1983, 10, 9));
/// let mut handle = drives.create(Some(1), &name, &new)?.handle;
/// drives.write_record(&mut handle, Kind::Sequential, &[7; 256])?;
///
/// // Which drive has it?
/// let found = drives.look_up(None, &name).slot?;
/// assert_eq!((found.drive, found.slot), (1, 0x02));
/// assert_eq!(drives.look_up(Some(0), &name).slot.unwrap_err().refusal, Refusal::NotFound);
///
/// // What is a call on one disk is asked of that disk.
/// assert_eq!(drives.disk(1).unwrap().listing()?, "FILES 1\nPULS01/DAT 256 1\nFREE 28\n");
/// # Ok::<(), Refusal>(())
/// ```
#[derive(Clone, Debug)]
pub struct Drives<B = Vec<u8>, C = B> {
    zero: Disk<B>,
    one: Disk<C>,
}

/// An open file on one of two drives: the 19 bytes of a [`Handle`], and one for the drive.
///
/// ```
/// use genie_dos::{DriveHandle, Handle};
///
/// let on_one_disk = Handle::from_bytes(*b"\x25\x05\x00\x01\x00\x00\x00\x00PULS01  DAT");
/// let mut handle = DriveHandle::new(on_one_disk, 1);
/// assert_eq!((handle.drive(), handle.handle()), (1, on_one_disk));
/// handle.set_position(1280);
/// assert_eq!(handle.position(), 1280);
/// assert_eq!(handle.as_bytes()[19], 1);
/// ```
#[derive(Clone, Copy, PartialEq, Eq, Hash)]
pub struct DriveHandle([u8; DriveHandle::LEN]);

impl DriveHandle {
    /// Bytes of a handle.
    pub const LEN: usize = Handle::LEN + 1;

    /// The handle of a file that is open on this drive's disk. On a drive that is not 0 or 1 each call is refused.
    pub fn new(handle: Handle, drive: u8) -> DriveHandle {
        let mut bytes = [drive; DriveHandle::LEN];
        bytes[..Handle::LEN].copy_from_slice(handle.as_bytes());
        DriveHandle(bytes)
    }

    /// A handle of any 20 bytes: those of [`Handle::from_bytes`], then the drive. The library tests it like any other.
    pub const fn from_bytes(bytes: [u8; DriveHandle::LEN]) -> DriveHandle {
        DriveHandle(bytes)
    }

    /// The 20 bytes.
    pub fn as_bytes(&self) -> &[u8; DriveHandle::LEN] {
        &self.0
    }

    fn zeros() -> DriveHandle {
        DriveHandle([0; DriveHandle::LEN])
    }

    /// The drive.
    pub fn drive(&self) -> u8 {
        self.0[Handle::LEN]
    }

    /// The handle for calls on that drive's disk alone; it tells slot, level, record length and name.
    pub fn handle(&self) -> Handle {
        let mut bytes = [0; Handle::LEN];
        bytes.copy_from_slice(&self.0[..Handle::LEN]);
        Handle::from_bytes(bytes)
    }

    /// Where the next record is read or written, in bytes from the file's start.
    pub fn position(&self) -> u32 {
        self.handle().position()
    }

    /// Sets the position, as [`Handle::set_position`] does.
    pub fn set_position(&mut self, position: u32) {
        let mut handle = self.handle();
        handle.set_position(position);
        *self = DriveHandle::new(handle, self.drive());
    }
}

impl fmt::Debug for DriveHandle {
    fn fmt(&self, f: &mut fmt::Formatter<'_>) -> fmt::Result {
        f.debug_struct("DriveHandle").field("drive", &self.drive()).field("handle", &self.handle()).finish()
    }
}

/// Why a call on two drives was refused. It has changed nothing on either.
///
/// ```
/// use genie_dos::{Disk, Drives, Geometry, Refusal};
///
/// let geometry = Geometry::new(16, 2, 80, 0x4296);
/// let drives = Drives::new(Disk::blank(geometry, 10, &[0])?, Disk::new(vec![0; 7], geometry));
/// let refused = drives.look_up(None, &"PULS01/DAT".parse().unwrap()).slot.unwrap_err();
/// assert_eq!((refused.refusal, refused.drive), (Refusal::Geometry, Some(1)));
/// assert_eq!(refused.to_string(), "drive 1: 1 (geometry or image length not allowed)");
/// # Ok::<(), Refusal>(())
/// ```
#[derive(Clone, Copy, Debug, PartialEq, Eq, Hash)]
#[non_exhaustive]
pub struct RefusedDrive {
    /// Why. The slot of a fault is one of `drive`; a bad name has its place.
    pub refusal: Refusal,
    /// The drive whose disk is at fault, under [`Refusal::Geometry`] and [`Refusal::Inconsistent`]; none of every other
    /// refusal.
    pub drive: Option<u8>,
}

/// `drive 1: 1 (geometry or image length not allowed)`; the refusal alone where no drive's disk is at fault.
impl fmt::Display for RefusedDrive {
    fn fmt(&self, f: &mut fmt::Formatter<'_>) -> fmt::Result {
        if let Some(drive) = self.drive {
            write!(f, "drive {drive}: ")?;
        }
        self.refusal.fmt(f)
    }
}

#[cfg(feature = "std")]
impl std::error::Error for RefusedDrive {}

/// Without the drive.
impl From<RefusedDrive> for Refusal {
    fn from(refused: RefusedDrive) -> Refusal {
        refused.refusal
    }
}

/// Where [`Drives::look_up`] found a file.
#[derive(Clone, Copy, Debug, PartialEq, Eq)]
#[non_exhaustive]
pub struct DriveSlot {
    /// The drive that has it.
    pub drive: u8,
    /// The slot of its primary entry there.
    pub slot: u8,
}

/// The answer of [`Drives::look_up`].
#[derive(Clone, Copy, Debug, PartialEq, Eq)]
#[non_exhaustive]
pub struct DriveLookUp {
    /// Where the file is, or why it is nowhere.
    pub slot: Result<DriveSlot, RefusedDrive>,
    /// How many entries were compared, on both drives together. Told also where the name was not found.
    pub compared: usize,
}

/// The answer of [`Drives::create`].
#[derive(Clone, Copy, Debug, PartialEq, Eq)]
#[non_exhaustive]
pub struct DriveCreated {
    /// The file, open at position 0; it tells the drive.
    pub handle: DriveHandle,
    /// The file was there before: it was opened and nothing changed.
    pub old: bool,
}

/// The answer of [`Drives::read_sector`].
#[derive(Clone, Copy, Debug, PartialEq, Eq)]
#[non_exhaustive]
pub struct DriveSector<'a> {
    /// The drive of whose image the bytes are a part.
    pub drive: u8,
    /// The file's bytes in the sector, 1 to 256.
    pub bytes: &'a [u8],
}

/// What a call answers, as a result: its number, and the drive and slot that it sets.
fn accepted(call: impl FnOnce(&mut usize, &mut usize) -> u8) -> Result<(), RefusedDrive> {
    let (mut fault_drive, mut fault_slot) = (0, 0);
    let number = call(&mut fault_drive, &mut fault_slot);
    // 2 stands for no drive.
    let drive = u8::try_from(fault_drive).ok().filter(|&drive| drive < 2);
    Refusal::from_answer(number, fault_slot).map_or(Ok(()), |refusal| Err(RefusedDrive { refusal, drive }))
}

/// Likewise of a call by name, which sets the place of the name's first bad byte too.
fn accepted_by_name(call: impl FnOnce(&mut usize, &mut usize, &mut usize) -> u8) -> Result<(), RefusedDrive> {
    let mut place = 0;
    accepted(|fault_drive, fault_slot| call(&mut place, fault_drive, fault_slot))
        .map_err(|refused| RefusedDrive { refusal: refused.refusal.with_place(place), ..refused })
}

/// A drive's number as the library takes it: whether there is one, and which.
fn numbered(drive: Option<usize>) -> (bool, usize) {
    (drive.is_some(), drive.unwrap_or(0))
}

/// The call of an export with the disks of both drives.
macro_rules! call_both {
    ($export:ident, $pointer:ident, $drives:expr, $($rest:tt)*) => {{
        let [(image0, g0), (image1, g1)] = $drives;
        call!($export, $pointer, [(image0, g0), (image1, g1)], $($rest)*)
    }};
}

impl<B, C> Drives<B, C> {
    /// Two drives with these disks, drive 0's and drive 1's. Nothing is tested yet: each call does so.
    pub const fn new(zero: Disk<B>, one: Disk<C>) -> Drives<B, C> {
        Drives { zero, one }
    }

    /// Gives the disks back, drive 0's and drive 1's.
    pub fn into_disks(self) -> (Disk<B>, Disk<C>) {
        (self.zero, self.one)
    }
}

/// Calls that only look.
impl<B: AsRef<[u8]>, C: AsRef<[u8]>> Drives<B, C> {
    fn lent(&self) -> [(&[u8], Geometry); 2] {
        [(self.zero.image(), self.zero.geometry()), (self.one.image(), self.one.geometry())]
    }

    /// A drive's disk, to look at; none of a number that is not 0 or 1.
    pub fn disk(&self, drive: usize) -> Option<Disk<&[u8]>> {
        self.lent().get(drive).map(|&(image, geometry)| Disk::new(image, geometry))
    }

    /// Finds the drive that has a file, and its slot there, and tells how many entries were compared.
    ///
    /// ```
    /// # use genie_dos::*;
    /// # let disk = Disk::blank(Geometry::new(16, 2, 80, 0x4296), 10, &[0])?;
    /// # let drives = Drives::new(disk.clone(), disk);
    /// let answer = drives.look_up(None, &"PULS01/DAT".parse().unwrap());
    /// assert_eq!((answer.slot.unwrap_err().refusal, answer.compared), (Refusal::NotFound, 0));
    /// # Ok::<(), Refusal>(())
    /// ```
    pub fn look_up(&self, drive: Option<usize>, name: &Name) -> DriveLookUp {
        let ((numbered, drive), name) = (numbered(drive), name.as_bytes());
        let (mut found_drive, mut slot, mut compared) = (0, 0, 0);
        // SAFETY: the slices are live references; the outgoing numbers are locals.
        let answer = accepted_by_name(|place, fault_drive, fault_slot| unsafe {
            call_both!(
                genie_drives_look_up,
                as_ptr,
                self.lent(),
                numbered,
                drive,
                name.as_ptr(),
                name.len(),
                &mut found_drive,
                &mut slot,
                &mut compared,
                place,
                fault_drive,
                fault_slot,
            )
        });
        // A drive is below 2, a slot below 256.
        DriveLookUp { slot: answer.map(|()| DriveSlot { drive: found_drive as u8, slot: slot as u8 }), compared }
    }

    /// Opens a file for records of `length` bytes (1 to 256), as [`Disk::open`] does. Without a number it is the file of the
    /// first drive that has the name: where its code is refused the other drive is not asked.
    ///
    /// ```
    /// # use genie_dos::*;
    /// # let geometry = Geometry::new(16, 2, 80, 0x4296);
    /// # let disk = Disk::blank(geometry, 10, &[0])?;
    /// # let mut drives = Drives::new(disk.clone(), disk);
    /// let name = "EICH01/DAT".parse().unwrap();
    /// let new = NewFile::open(geometry, Date::new(1983, 10, 9));
    /// drives.create(Some(0), &name, &new.with_codes(0x1234, 0x1234))?;
    /// drives.create(Some(1), &name, &new)?;
    /// assert_eq!(drives.open(None, &name, 256, Password::Code(0x4321)).unwrap_err().refusal, Refusal::Password);
    /// assert_eq!(drives.open(Some(1), &name, 256, Password::Code(0x4321))?.drive(), 1);
    /// # Ok::<(), Refusal>(())
    /// ```
    pub fn open(
        &self,
        drive: Option<usize>,
        name: &Name,
        length: usize,
        password: Password,
    ) -> Result<DriveHandle, RefusedDrive> {
        let ((numbered, drive), name) = (numbered(drive), name.as_bytes());
        let (checking, code) = password.told();
        let mut handle = DriveHandle::zeros();
        // SAFETY: the slices are live references, the handle's a local.
        accepted_by_name(|place, fault_drive, fault_slot| unsafe {
            call_both!(
                genie_drives_open,
                as_ptr,
                self.lent(),
                numbered,
                drive,
                name.as_ptr(),
                name.len(),
                length,
                checking,
                code,
                handle.0.as_mut_ptr(),
                handle.0.len(),
                place,
                fault_drive,
                fault_slot,
            )
        })?;
        Ok(handle)
    }

    /// Reads the record at the handle's position, on the handle's drive, as [`Disk::read_record`] does.
    ///
    /// ```
    /// # use genie_dos::*;
    /// # let geometry = Geometry::new(16, 2, 80, 0x4296);
    /// # let disk = Disk::blank(geometry, 10, &[0])?;
    /// # let mut drives = Drives::new(disk.clone(), disk);
    /// # let name = "PULS01/DAT".parse().unwrap();
    /// # let mut handle = drives.create(Some(1), &name, &NewFile::open(geometry, Date::new(1983, 10, 9)))?.handle;
    /// # drives.write_record(&mut handle, Kind::Sequential, &[7; 256])?;
    /// let mut handle = drives.open(None, &name, 100, Password::Unchecked)?;
    /// let mut buffer = [0; 100];
    /// drives.read_record(&mut handle, &mut buffer)?;
    /// assert_eq!((handle.drive(), handle.position(), buffer), (1, 100, [7; 100]));
    /// # Ok::<(), Refusal>(())
    /// ```
    pub fn read_record(&self, handle: &mut DriveHandle, buffer: &mut [u8]) -> Result<(), RefusedDrive> {
        // SAFETY: the slices are live references, those written to are exclusive.
        accepted(|fault_drive, fault_slot| unsafe {
            call_both!(
                genie_drives_read_record,
                as_ptr,
                self.lent(),
                handle.0.as_mut_ptr(),
                handle.0.len(),
                buffer.as_mut_ptr(),
                buffer.len(),
                fault_drive,
                fault_slot,
            )
        })
    }

    /// The file's bytes in its sector `k`, a part of its drive's image itself, and which drive that is. Position and record
    /// length play no part.
    ///
    /// ```
    /// # use genie_dos::*;
    /// # let geometry = Geometry::new(16, 2, 80, 0x4296);
    /// # let disk = Disk::blank(geometry, 10, &[0])?;
    /// # let mut drives = Drives::new(disk.clone(), disk);
    /// # let name = "PULS01/DAT".parse().unwrap();
    /// # let mut handle = drives.create(Some(1), &name, &NewFile::open(geometry, Date::new(1983, 10, 9)))?.handle;
    /// # drives.write_record(&mut handle, Kind::Sequential, &[7; 256])?;
    /// let sector = drives.read_sector(&handle, 0)?;
    /// assert_eq!((sector.drive, sector.bytes), (1, &[7; 256][..]));
    /// assert!(drives.disk(1).unwrap().image().as_ptr_range().contains(&sector.bytes.as_ptr()));
    /// assert_eq!(drives.read_sector(&handle, 1).unwrap_err().refusal, Refusal::PastEnd);
    /// # Ok::<(), Refusal>(())
    /// ```
    pub fn read_sector(&self, handle: &DriveHandle, k: usize) -> Result<DriveSector<'_>, RefusedDrive> {
        let (mut drive, mut from, mut to) = (0, 0, 0);
        // SAFETY: the slices are live references; the outgoing numbers are locals.
        accepted(|fault_drive, fault_slot| unsafe {
            call_both!(
                genie_drives_read_sector,
                as_ptr,
                self.lent(),
                handle.0.as_ptr(),
                handle.0.len(),
                k,
                &mut drive,
                &mut from,
                &mut to,
                fault_drive,
                fault_slot,
            )
        })?;
        // The drive is below 2.
        Ok(DriveSector { drive: drive as u8, bytes: &self.lent()[drive].0[from..to] })
    }
}

/// Calls that change a disk: that of one drive, whatever they answer.
impl<B: AsMut<[u8]>, C: AsMut<[u8]>> Drives<B, C> {
    fn lent_to_change(&mut self) -> [(&mut [u8], Geometry); 2] {
        let (g0, g1) = (self.zero.geometry(), self.one.geometry());
        [(self.zero.image_mut(), g0), (self.one.image_mut(), g1)]
    }

    /// Creates a file of size 0, or opens the one that is there. Without a number a new file goes to drive 0, or to drive 1
    /// where drive 0 has no free slot.
    ///
    /// ```
    /// # use genie_dos::*;
    /// # let geometry = Geometry::new(16, 2, 80, 0x4296);
    /// # let disk = Disk::blank(geometry, 10, &[0])?;
    /// # let mut drives = Drives::new(disk.clone(), disk);
    /// let name = "LEER".parse().unwrap();
    /// let new = NewFile::open(geometry, Date::new(1983, 10, 9));
    /// let created = drives.create(None, &name, &new)?;
    /// assert_eq!((created.handle.drive(), created.old), (0, false));
    /// assert!(drives.create(None, &name, &new)?.old);
    /// // A file of the same name on the other drive does not matter.
    /// assert!(!drives.create(Some(1), &name, &new)?.old);
    /// assert_eq!(drives.create(Some(2), &name, &new).unwrap_err().refusal, Refusal::NoSuchDrive);
    /// # Ok::<(), Refusal>(())
    /// ```
    pub fn create(&mut self, drive: Option<usize>, name: &Name, new: &NewFile) -> Result<DriveCreated, RefusedDrive> {
        let ((numbered, drive), name) = (numbered(drive), name.as_bytes());
        let mut handle = DriveHandle::zeros();
        let mut old = 0;
        // SAFETY: the slices are live references, those of the images exclusive; the others written to are locals.
        accepted_by_name(|place, fault_drive, fault_slot| unsafe {
            call_both!(
                genie_drives_create,
                as_mut_ptr,
                self.lent_to_change(),
                numbered,
                drive,
                name.as_ptr(),
                name.len(),
                new.date.day,
                new.date.month,
                // A year before 1980 becomes one that is far out of range.
                new.date.year.wrapping_sub(Date::FIRST_YEAR),
                new.record_length,
                new.main_code,
                new.worker_code,
                new.checking,
                &mut old,
                handle.0.as_mut_ptr(),
                handle.0.len(),
                place,
                fault_drive,
                fault_slot,
            )
        })?;
        Ok(DriveCreated { handle, old: old != 0 })
    }

    /// Writes the buffer's first bytes, as many as a record has, at the handle's position, on the handle's drive, as
    /// [`Disk::write_record`] does. See [`read_sector`](Drives::read_sector) for what is then read.
    pub fn write_record(&mut self, handle: &mut DriveHandle, kind: Kind, buffer: &[u8]) -> Result<(), RefusedDrive> {
        // SAFETY: the slices are live references, those written to are exclusive.
        accepted(|fault_drive, fault_slot| unsafe {
            call_both!(
                genie_drives_write_record,
                as_mut_ptr,
                self.lent_to_change(),
                handle.0.as_mut_ptr(),
                handle.0.len(),
                kind == Kind::Sequential,
                buffer.as_ptr(),
                buffer.len(),
                fault_drive,
                fault_slot,
            )
        })
    }

    /// Takes granules of the handle's drive until the file owns those up to its sector `k`; its size stays.
    ///
    /// ```
    /// # use genie_dos::*;
    /// # let geometry = Geometry::new(16, 2, 80, 0x4296);
    /// # let disk = Disk::blank(geometry, 10, &[0])?;
    /// # let mut drives = Drives::new(disk.clone(), disk);
    /// # let name = "LEER".parse().unwrap();
    /// # let handle = drives.create(Some(1), &name, &NewFile::open(geometry, Date::new(1983, 10, 9)))?.handle;
    /// drives.allot(&handle, 5)?; // sector 5 is in the second granule
    /// assert_eq!(drives.disk(1).unwrap().files()?[0].granules, 2);
    /// drives.trim(&handle)?; // the file is empty: both go back
    /// assert_eq!(drives.disk(1).unwrap().files()?[0].granules, 0);
    /// # Ok::<(), Refusal>(())
    /// ```
    pub fn allot(&mut self, handle: &DriveHandle, k: usize) -> Result<(), RefusedDrive> {
        // SAFETY: the slices are live references, those of the images exclusive.
        accepted(|fault_drive, fault_slot| unsafe {
            call_both!(
                genie_drives_allot,
                as_mut_ptr,
                self.lent_to_change(),
                handle.0.as_ptr(),
                handle.0.len(),
                k,
                fault_drive,
                fault_slot,
            )
        })
    }

    /// Gives back the granules that the file's size does not need, as [`Disk::trim`] does. See [`allot`](Drives::allot) for an
    /// example.
    pub fn trim(&mut self, handle: &DriveHandle) -> Result<(), RefusedDrive> {
        // SAFETY: the slices are live references, those of the images exclusive.
        accepted(|fault_drive, fault_slot| unsafe {
            call_both!(
                genie_drives_trim,
                as_mut_ptr,
                self.lent_to_change(),
                handle.0.as_ptr(),
                handle.0.len(),
                fault_drive,
                fault_slot,
            )
        })
    }

    /// Removes the file from the handle's drive and frees its granules. The handle is stale from then on.
    ///
    /// ```
    /// # use genie_dos::*;
    /// # let geometry = Geometry::new(16, 2, 80, 0x4296);
    /// # let disk = Disk::blank(geometry, 10, &[0])?;
    /// # let mut drives = Drives::new(disk.clone(), disk);
    /// # let name = "LEER".parse().unwrap();
    /// # let handle = drives.create(Some(1), &name, &NewFile::open(geometry, Date::new(1983, 10, 9)))?.handle;
    /// drives.kill(&handle)?;
    /// assert_eq!(drives.kill(&handle).unwrap_err().refusal, Refusal::Stale);
    /// # Ok::<(), Refusal>(())
    /// ```
    pub fn kill(&mut self, handle: &DriveHandle) -> Result<(), RefusedDrive> {
        // SAFETY: the slices are live references, those of the images exclusive.
        accepted(|fault_drive, fault_slot| unsafe {
            call_both!(
                genie_drives_kill,
                as_mut_ptr,
                self.lent_to_change(),
                handle.0.as_ptr(),
                handle.0.len(),
                fault_drive,
                fault_slot,
            )
        })
    }
}
