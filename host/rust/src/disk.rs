use crate::call::call;
use crate::entry::Directory;
use crate::{Date, Entry, Fault, FaultKind, Geometry, Handle, Name, Refusal, TracePlace};
use alloc::string::String;
use alloc::vec::Vec;

/// A disk: the bytes of its image and the geometry that the caller states for it.
///
/// The image can be owned (`Disk<Vec<u8>>`) or lent (`Disk<&[u8]>` to look only, `Disk<&mut [u8]>`). Any bytes will
/// do: each call tests the geometry, the image's length and the whole directory before it does anything, so that a
/// damaged disk is refused with [`Refusal::Inconsistent`], which says what is wrong and where, and stays as it is.
/// ([`Disk::free_space`] tests the first two only.)
///
/// ```
/// use genie_dos::{Date, Disk, Geometry, Kind, Name, NewFile, Password};
///
/// let geometry = Geometry::new(16, 2, 80, 0x4296);
/// let mut disk = Disk::blank(geometry, 10, &[0])?;
///
/// let name: Name = "PULS01/DAT".parse().unwrap();
/// let new = NewFile::open(geometry, Date::new(1983, 10, 9)).with_record_length(128);
/// let mut handle = disk.create(&name, &new)?.handle;
/// disk.write_record(&mut handle, Kind::Sequential, &[7; 128])?;
/// disk.write_record(&mut handle, Kind::Sequential, &[8; 128])?;
///
/// let lent = Disk::new(disk.image(), geometry);
/// let handle = lent.open(&name, 1, Password::Unchecked)?;
/// assert_eq!(lent.contents(&handle)?.len(), 256);
/// assert_eq!(lent.listing()?, "FILES 1\nPULS01/DAT 256 1\nFREE 28\n");
/// # Ok::<(), genie_dos::Refusal>(())
/// ```
#[derive(Clone, Debug)]
pub struct Disk<B = Vec<u8>> {
    image: B,
    geometry: Geometry,
}

/// The answer of [`Disk::look_up`].
#[derive(Clone, Copy, Debug, PartialEq, Eq)]
#[non_exhaustive]
pub struct LookUp {
    /// The slot of the file's primary entry, or why there is none.
    pub slot: Result<u8, Refusal>,
    /// How many entries were compared: those whose hash is the name's, up to the found one. Told also where the name
    /// was not found.
    pub compared: usize,
}

/// How [`Disk::open`] is to treat the file's password.
#[derive(Clone, Copy, Debug, PartialEq, Eq)]
#[non_exhaustive]
pub enum Password {
    /// Checking is off: every file opens at level 0.
    Unchecked,
    /// Checking is on and this code is given.
    Code(u16),
}

impl Password {
    /// As the library takes it: whether codes are checked, and the code.
    pub(crate) fn told(self) -> (bool, u16) {
        match self {
            Password::Unchecked => (false, 0),
            Password::Code(code) => (true, code),
        }
    }
}

/// What [`Disk::create`] puts into a new file's entry: made by [`open`](NewFile::open) and altered by `with_...`.
#[derive(Clone, Copy, Debug, PartialEq, Eq)]
#[non_exhaustive]
pub struct NewFile {
    /// The file's date.
    pub date: Date,
    /// The record length, 1 to 256; the handle's as well.
    pub record_length: usize,
    /// The main code. If the file exists, this is the code that it is opened by.
    pub main_code: u16,
    /// The worker code.
    pub worker_code: u16,
    /// Whether the password of an existing file is checked.
    pub checking: bool,
}

impl NewFile {
    /// A file without a password, records of 256 bytes, checking on.
    pub const fn open(geometry: Geometry, date: Date) -> NewFile {
        NewFile {
            date,
            record_length: 256,
            main_code: geometry.open_code,
            worker_code: geometry.open_code,
            checking: true,
        }
    }

    /// The same with this date.
    pub const fn with_date(self, date: Date) -> NewFile {
        NewFile { date, ..self }
    }

    /// The same with this record length.
    pub const fn with_record_length(self, record_length: usize) -> NewFile {
        NewFile { record_length, ..self }
    }

    /// The same with these codes, the main one and the worker's.
    pub const fn with_codes(self, main_code: u16, worker_code: u16) -> NewFile {
        NewFile { main_code, worker_code, ..self }
    }

    /// The same with the password of an existing file checked or not.
    pub const fn with_checking(self, checking: bool) -> NewFile {
        NewFile { checking, ..self }
    }
}

/// The answer of [`Disk::create`].
#[derive(Clone, Copy, Debug, PartialEq, Eq)]
#[non_exhaustive]
pub struct Created {
    /// The file, open at position 0.
    pub handle: Handle,
    /// The file was there before: it was opened and nothing changed.
    pub old: bool,
}

/// The two kinds of write.
#[derive(Clone, Copy, Debug, PartialEq, Eq)]
#[non_exhaustive]
pub enum Kind {
    /// The file ends behind the record, even if it was longer.
    Sequential,
    /// The file ends behind the record or where it ended, whichever is later.
    Random,
}

/// A file of the listing.
#[derive(Clone, Copy, Debug, PartialEq, Eq)]
#[non_exhaustive]
pub struct Listed {
    /// Its name.
    pub name: Name,
    /// Its size in bytes.
    pub size: usize,
    /// Granules that it owns.
    pub granules: usize,
}

/// The answer of [`Disk::count`].
#[derive(Clone, Copy, Debug, PartialEq, Eq)]
#[non_exhaustive]
pub struct Counts {
    /// Files, system files left out.
    pub files: usize,
    /// Free granules.
    pub free: usize,
}

/// The answer of [`Disk::free_space`], in granules.
#[derive(Clone, Copy, Debug, PartialEq, Eq)]
#[non_exhaustive]
pub struct FreeSpace {
    /// Free granules.
    pub free: usize,
    /// Those of the longest free stretch: free granules with consecutive numbers.
    pub longest: usize,
}

/// The answer of [`Disk::bring_back`].
#[derive(Clone, Copy, Debug, PartialEq, Eq)]
#[non_exhaustive]
pub struct BroughtBack {
    /// Directory slots that are in use again.
    pub slots: usize,
    /// Granules that are taken again.
    pub granules: usize,
}

/// What a call answers, as a result: its number, and the slot that it sets.
fn accepted(call: impl FnOnce(&mut usize) -> u8) -> Result<(), Refusal> {
    let mut fault_slot = 0;
    let number = call(&mut fault_slot);
    Refusal::from_answer(number, fault_slot).map_or(Ok(()), Err)
}

/// Likewise of a call by name, which sets the place of the name's first bad byte too.
fn accepted_by_name(call: impl FnOnce(&mut usize, &mut usize) -> u8) -> Result<(), Refusal> {
    let mut place = 0;
    accepted(|fault_slot| call(&mut place, fault_slot)).map_err(|refusal| refusal.with_place(place))
}

impl<B> Disk<B> {
    /// A disk of these bytes. Nothing is tested yet: each call does so.
    pub const fn new(image: B, geometry: Geometry) -> Disk<B> {
        Disk { image, geometry }
    }

    /// The geometry stated for the disk.
    pub const fn geometry(&self) -> Geometry {
        self.geometry
    }

    /// Gives the image back.
    pub fn into_image(self) -> B {
        self.image
    }
}

impl Disk<Vec<u8>> {
    /// An empty disk: a directory of `directory_sectors` (10, 15, 20, 25 or 30), its granules and the `reserved` ones
    /// taken. Outside the directory every byte is E5H, as formatting leaves it. Refused as the library refuses such a
    /// disk; a reserved granule that the disk does not have is [`Refusal::Range`].
    ///
    /// ```
    /// use genie_dos::{Disk, Geometry, Refusal};
    ///
    /// let disk = Disk::blank(Geometry::new(16, 2, 80, 0x4296), 10, &[0])?;
    /// assert_eq!(disk.count()?.free, 32 - 3);
    ///
    /// let odd_start = Disk::blank(Geometry::new(16, 2, 81, 0x4296), 10, &[0]);
    /// assert_eq!(odd_start.err(), Some(Refusal::Geometry));
    /// # Ok::<(), Refusal>(())
    /// ```
    pub fn blank(geometry: Geometry, directory_sectors: usize, reserved: &[usize]) -> Result<Disk, Refusal> {
        let bytes = geometry.image_len().ok_or(Refusal::Geometry)?;
        let mut disk = Disk::new(vec![0xe5; bytes], geometry);
        if disk.check() == Err(Refusal::Geometry) {
            return Err(Refusal::Geometry);
        }
        // From here on ten sectors are behind the start, so GAT and HIT are on the disk.
        let gat = geometry.start * Geometry::SECTOR_BYTES;
        let hit = gat + Geometry::SECTOR_BYTES;
        let above_ten = directory_sectors.checked_sub(10).and_then(|above| u8::try_from(above).ok());
        let no_length = Refusal::Inconsistent(Fault::of_disk(FaultKind::DirectoryLength));
        let above_ten = above_ten.ok_or(no_length)?;
        let end = gat + directory_sectors * Geometry::SECTOR_BYTES;
        disk.image.get_mut(gat..end).ok_or(no_length)?.fill(0);
        disk.image[hit + 0x1f] = above_ten;
        for granule in geometry.directory_granules(directory_sectors).chain(reserved.iter().copied()) {
            if granule * geometry.granule_bytes() >= bytes {
                return Err(Refusal::Range);
            }
            disk.image[gat + granule / geometry.units] |= 1 << (granule % geometry.units);
        }
        disk.check().map(|()| disk)
    }
}

/// Calls that only look.
impl<B: AsRef<[u8]>> Disk<B> {
    /// The image's bytes.
    pub fn image(&self) -> &[u8] {
        self.image.as_ref()
    }

    /// Tests geometry, image length and consistency: accepted, or refused with 1 or one of 21 to 30.
    ///
    /// ```
    /// use genie_dos::{Disk, Fault, FaultKind, Geometry, Refusal};
    ///
    /// let geometry = Geometry::new(16, 2, 80, 0x4296);
    /// assert_eq!(Disk::new([0u8; 40_959], geometry).check(), Err(Refusal::Geometry));
    ///
    /// // Zeros are a disk without files, but the GAT marks the directory itself as free.
    /// let clear = Refusal::Inconsistent(Fault::of_disk(FaultKind::DirectoryGranule));
    /// assert_eq!(Disk::new([0u8; 40_960], geometry).check(), Err(clear));
    ///
    /// // Slot 80H has a HIT byte though its entry is not in use.
    /// let mut image = Disk::blank(geometry, 10, &[0])?.into_image();
    /// image[81 * 256 + 0x80] = 0xA2;
    /// let refusal = Disk::new(image, geometry).check().unwrap_err();
    /// assert_eq!((refusal.number(), refusal.slot()), (22, Some(0x80)));
    /// # Ok::<(), Refusal>(())
    /// ```
    pub fn check(&self) -> Result<(), Refusal> {
        let (image, g) = (self.image.as_ref(), self.geometry);
        // SAFETY: the slice is a live reference.
        accepted(|fault_slot| unsafe { call!(genie_check, as_ptr, [(image, g)], fault_slot) })
    }

    /// Finds a file's slot and tells how many entries were compared.
    ///
    /// ```
    /// # use genie_dos::*;
    /// # let disk = Disk::blank(Geometry::new(16, 2, 80, 0x4296), 10, &[0])?;
    /// let answer = disk.look_up(&"PULS01/DAT".parse().unwrap());
    /// assert_eq!((answer.slot, answer.compared), (Err(Refusal::NotFound), 0));
    /// # Ok::<(), Refusal>(())
    /// ```
    pub fn look_up(&self, name: &Name) -> LookUp {
        let (image, g, name) = (self.image.as_ref(), self.geometry, name.as_bytes());
        let (mut slot, mut compared) = (0, 0);
        // SAFETY: the slices are live references; the outgoing numbers are locals.
        let answer = accepted_by_name(|place, fault_slot| unsafe {
            call!(
                genie_look_up,
                as_ptr,
                [(image, g)],
                name.as_ptr(),
                name.len(),
                &mut slot,
                &mut compared,
                place,
                fault_slot,
            )
        });
        // A slot is below 256.
        LookUp { slot: answer.map(|()| slot as u8), compared }
    }

    /// Opens a file for records of `length` bytes (1 to 256).
    ///
    /// The level is 0 if checking is off, the file has no password, or the code is its main code; it is the file's own
    /// level if the code is its worker code only; any other code is refused.
    ///
    /// ```
    /// # use genie_dos::*;
    /// # let mut disk = Disk::blank(Geometry::new(16, 2, 80, 0x4296), 10, &[0])?;
    /// let name = "EICH01/DAT".parse().unwrap();
    /// let new = NewFile::open(disk.geometry(), Date::new(1983, 10, 9)).with_codes(0x1234, disk.geometry().open_code);
    /// disk.create(&name, &new)?;
    /// assert_eq!(disk.open(&name, 256, Password::Code(0x1234))?.level(), 0);
    /// assert_eq!(disk.open(&name, 256, Password::Code(0x4321)), Err(Refusal::Password));
    /// assert!(disk.open(&name, 256, Password::Unchecked).is_ok());
    /// # Ok::<(), Refusal>(())
    /// ```
    pub fn open(&self, name: &Name, length: usize, password: Password) -> Result<Handle, Refusal> {
        let (image, g, name) = (self.image.as_ref(), self.geometry, name.as_bytes());
        let (checking, code) = password.told();
        let mut handle = Handle::zeros();
        let lent = handle.as_mut_bytes();
        // SAFETY: the slices are live references, the handle's a local.
        accepted_by_name(|place, fault_slot| unsafe {
            call!(
                genie_open,
                as_ptr,
                [(image, g)],
                name.as_ptr(),
                name.len(),
                length,
                checking,
                code,
                lent.as_mut_ptr(),
                lent.len(),
                place,
                fault_slot,
            )
        })?;
        Ok(handle)
    }

    /// Reads the record at the handle's position into the buffer's start and advances the position. The rest of the
    /// buffer stays as it is.
    ///
    /// ```
    /// # use genie_dos::*;
    /// # let mut disk = Disk::blank(Geometry::new(16, 2, 80, 0x4296), 10, &[0])?;
    /// # let name = "PULS01/DAT".parse().unwrap();
    /// # let mut handle = disk.create(&name, &NewFile::open(disk.geometry(), Date::new(1983, 10, 9)))?.handle;
    /// # disk.write_record(&mut handle, Kind::Sequential, &[7; 256])?;
    /// let mut handle = disk.open(&name, 100, Password::Unchecked)?;
    /// let mut buffer = [0; 100];
    /// disk.read_record(&mut handle, &mut buffer)?;
    /// disk.read_record(&mut handle, &mut buffer)?;
    /// assert_eq!(handle.position(), 200);
    /// // The file has 256 bytes: there is no third record.
    /// assert_eq!(disk.read_record(&mut handle, &mut buffer), Err(Refusal::PastEnd));
    /// assert_eq!(handle.position(), 200);
    /// # Ok::<(), Refusal>(())
    /// ```
    pub fn read_record(&self, handle: &mut Handle, buffer: &mut [u8]) -> Result<(), Refusal> {
        let (image, g, lent) = (self.image.as_ref(), self.geometry, handle.as_mut_bytes());
        // SAFETY: the slices are live references, those written to are exclusive.
        accepted(|fault_slot| unsafe {
            call!(
                genie_read_record,
                as_ptr,
                [(image, g)],
                lent.as_mut_ptr(),
                lent.len(),
                buffer.as_mut_ptr(),
                buffer.len(),
                fault_slot,
            )
        })
    }

    /// Reads as many bytes as the buffer holds, from the handle's position on, and advances the position: a whole file
    /// in one call. The record length plays no part.
    ///
    /// ```
    /// # use genie_dos::*;
    /// # let mut disk = Disk::blank(Geometry::new(16, 2, 80, 0x4296), 10, &[0])?;
    /// # let name = "PULS01/DAT".parse().unwrap();
    /// # let mut handle = disk.create(&name, &NewFile::open(disk.geometry(), Date::new(1983, 10, 9)))?.handle;
    /// disk.write_bytes(&mut handle, Kind::Sequential, &[7; 1300])?;
    /// handle.set_position(0);
    /// let mut buffer = vec![0; 1300];
    /// disk.read_bytes(&mut handle, &mut buffer)?;
    /// assert_eq!(buffer, [7; 1300]);
    /// assert_eq!(handle.position(), 1300);
    /// assert_eq!(disk.read_bytes(&mut handle, &mut [0]), Err(Refusal::PastEnd));
    /// # Ok::<(), Refusal>(())
    /// ```
    pub fn read_bytes(&self, handle: &mut Handle, buffer: &mut [u8]) -> Result<(), Refusal> {
        let (image, g, lent) = (self.image.as_ref(), self.geometry, handle.as_mut_bytes());
        // SAFETY: the slices are live references, those written to are exclusive.
        accepted(|fault_slot| unsafe {
            call!(
                genie_read_bytes,
                as_ptr,
                [(image, g)],
                lent.as_mut_ptr(),
                lent.len(),
                buffer.as_mut_ptr(),
                buffer.len(),
                fault_slot,
            )
        })
    }

    /// The file's bytes in its sector `k`: 1 to 256 bytes, a part of the image itself. Position and record length play
    /// no part.
    ///
    /// ```
    /// # use genie_dos::*;
    /// # let mut disk = Disk::blank(Geometry::new(16, 2, 80, 0x4296), 10, &[0])?;
    /// # let name = "PULS01/DAT".parse().unwrap();
    /// # let mut handle = disk.create(&name, &NewFile::open(disk.geometry(), Date::new(1983, 10, 9)))?.handle;
    /// # disk.write_record(&mut handle, Kind::Sequential, &[1; 256])?;
    /// let sector: &[u8] = disk.read_sector(&handle, 0)?;
    /// assert!(disk.image().as_ptr_range().contains(&sector.as_ptr()));
    /// assert_eq!(disk.read_sector(&handle, 1), Err(Refusal::PastEnd));
    /// # Ok::<(), Refusal>(())
    /// ```
    pub fn read_sector(&self, handle: &Handle, k: usize) -> Result<&[u8], Refusal> {
        let (image, g, lent) = (self.image.as_ref(), self.geometry, handle.as_bytes());
        let (mut from, mut to) = (0, 0);
        // SAFETY: the slices are live references; the outgoing numbers are locals.
        accepted(|fault_slot| unsafe {
            call!(genie_read_sector, as_ptr, [(image, g)], lent.as_ptr(), lent.len(), k, &mut from, &mut to, fault_slot)
        })?;
        Ok(&image[from..to])
    }

    /// The file of a running number, from 0, by rising slot; none past the last. System files are left out.
    ///
    /// ```
    /// # use genie_dos::*;
    /// # let mut disk = Disk::blank(Geometry::new(16, 2, 80, 0x4296), 10, &[0])?;
    /// # let name = "LEER".parse().unwrap();
    /// # disk.create(&name, &NewFile::open(disk.geometry(), Date::new(1983, 10, 9)))?;
    /// let first = disk.list(0)?.unwrap();
    /// assert_eq!((first.name.to_string().as_str(), first.size, first.granules), ("LEER", 0, 0));
    /// assert_eq!(disk.list(1)?, None);
    /// let counts = disk.count()?;
    /// assert_eq!((counts.files, counts.free), (1, 29));
    /// # Ok::<(), Refusal>(())
    /// ```
    pub fn list(&self, number: usize) -> Result<Option<Listed>, Refusal> {
        let (image, g) = (self.image.as_ref(), self.geometry);
        let mut name = [b' '; Name::LEN];
        let (mut size, mut granules, mut more) = (0, 0, 0);
        // SAFETY: the image is a live reference; name and outgoing numbers are locals.
        accepted(|fault_slot| unsafe {
            call!(
                genie_list,
                as_ptr,
                [(image, g)],
                number,
                name.as_mut_ptr(),
                name.len(),
                &mut size,
                &mut granules,
                &mut more,
                fault_slot,
            )
        })?;
        Ok((more != 0).then(|| Listed { name: Name::from_bytes(name), size, granules }))
    }

    /// How many files the listing has, and how many granules are free.
    pub fn count(&self) -> Result<Counts, Refusal> {
        let (image, g) = (self.image.as_ref(), self.geometry);
        let (mut files, mut free) = (0, 0);
        // SAFETY: the image is a live reference; the outgoing numbers are locals.
        accepted(|fault_slot| unsafe { call!(genie_count, as_ptr, [(image, g)], &mut files, &mut free, fault_slot) })?;
        Ok(Counts { files, free })
    }

    /// How many granules are free, and how many of them lie in a row at the most. Only the GAT sector is looked at: a
    /// disk that is not consistent is answered too (the clear bits are counted), and the one refusal is
    /// [`Refusal::Geometry`].
    ///
    /// ```
    /// # use genie_dos::*;
    /// // 32 granules, of which 0 and the directory's 16 and 17 are reserved.
    /// let mut disk = Disk::blank(Geometry::new(16, 2, 80, 0x4296), 10, &[0])?;
    /// let space = disk.free_space()?;
    /// assert_eq!((space.free, space.longest), (29, 15));
    /// # Ok::<(), Refusal>(())
    /// ```
    pub fn free_space(&self) -> Result<FreeSpace, Refusal> {
        let (image, g) = (self.image.as_ref(), self.geometry);
        let (mut free, mut longest) = (0, 0);
        // SAFETY: the image is a live reference; the outgoing numbers are locals.
        accepted(|_| unsafe { call!(genie_free, as_ptr, [(image, g)], &mut free, &mut longest) })?;
        Ok(FreeSpace { free, longest })
    }

    /// All files of the listing, by one call of the library.
    pub fn files(&self) -> Result<Vec<Listed>, Refusal> {
        Ok(self.rows()?.map(|(_, listed)| listed).collect())
    }

    /// The rows of the listing, by rising slot: of each the slot of the file's primary entry, and what is told of the file.
    fn rows(&self) -> Result<impl Iterator<Item = (u8, Listed)>, Refusal> {
        // A row of the table: name 11, slot 1, size 4, granules 2, two of zero. The longest directory has 28 sectors of 8 slots.
        const ROW: usize = 20;
        const SLOTS: usize = 28 * 8;
        let (image, g) = (self.image.as_ref(), self.geometry);
        let mut table = vec![0; ROW * SLOTS];
        let mut told = 0;
        // SAFETY: the image is a live reference; table and outgoing number are locals.
        accepted(|fault_slot| unsafe {
            call!(genie_list_from, as_ptr, [(image, g)], 0, table.as_mut_ptr(), table.len(), &mut told, fault_slot)
        })?;
        let low_first = |bytes: &[u8]| bytes.iter().rev().fold(0, |number, &byte| number << 8 | usize::from(byte));
        Ok((0..told).map(move |number| {
            let row = &table[ROW * number..ROW * (number + 1)];
            let mut name = [b' '; Name::LEN];
            name.copy_from_slice(&row[..Name::LEN]);
            let (size, granules) = (low_first(&row[12..16]), low_first(&row[16..18]));
            (row[11], Listed { name: Name::from_bytes(name), size, granules })
        }))
    }

    /// The listing as text: `FILES`, a line for each file (name, size, granules), `FREE`.
    pub fn listing(&self) -> Result<String, Refusal> {
        let Counts { files, free } = self.count()?;
        let mut text = format!("FILES {files}\n");
        for file in self.files()? {
            text += &format!("{} {} {}\n", file.name, file.size, file.granules);
        }
        text += &format!("FREE {free}\n");
        Ok(text)
    }

    /// The entries of all files, system files included, by rising slot: dates, flags, codes and places too, which the
    /// library does not tell. Size and granules are those of the library's listing; the rest this crate reads from the
    /// slots that the listing names, and of system files, which are not listed, all.
    ///
    /// ```
    /// # use genie_dos::*;
    /// # let mut disk = Disk::blank(Geometry::new(16, 2, 80, 0x4296), 10, &[0])?;
    /// # let name = "LEER".parse().unwrap();
    /// # let handle = disk.create(&name, &NewFile::open(disk.geometry(), Date::new(1983, 10, 9)))?.handle;
    /// # disk.allot(&handle, 5)?;
    /// for entry in disk.entries()? {
    ///     println!("{} of {} lies in {:?}", entry.name(), entry.date(), entry.runs());
    /// }
    /// # assert_eq!(disk.entries()?[0].runs(), [Run { first: 1, granules: 2 }]);
    /// # Ok::<(), Refusal>(())
    /// ```
    pub fn entries(&self) -> Result<Vec<Entry>, Refusal> {
        let rows = self.rows()?;
        Ok(Directory::new(self.image.as_ref(), self.geometry).entries(rows))
    }

    /// The primary entries that are not in use and not blank, by rising slot: what killed files left, and whatever
    /// else stands there. Their names and runs are as the bytes say; whether a file can be made of one again,
    /// [`bring_back`](Disk::bring_back) tells. The disk is checked first.
    pub fn dead_entries(&self) -> Result<Vec<Entry>, Refusal> {
        self.check()?;
        Ok(Directory::new(self.image.as_ref(), self.geometry).dead_entries())
    }

    /// Sectors of the directory: 10, 15, 20, 25 or 30. The disk is checked first.
    pub fn directory_sectors(&self) -> Result<usize, Refusal> {
        self.check()?;
        Ok(Directory::new(self.image.as_ref(), self.geometry).sectors())
    }
}

/// Calls that change the disk.
impl<B: AsMut<[u8]>> Disk<B> {
    pub(crate) fn image_mut(&mut self) -> &mut [u8] {
        self.image.as_mut()
    }

    /// Creates a file of size 0, or opens the one that is there.
    ///
    /// ```
    /// # use genie_dos::*;
    /// # let mut disk = Disk::blank(Geometry::new(16, 2, 80, 0x4296), 10, &[0])?;
    /// let name = "LEER".parse().unwrap();
    /// let new = NewFile::open(disk.geometry(), Date::new(1983, 10, 9));
    /// assert!(!disk.create(&name, &new)?.old);
    /// assert!(disk.create(&name, &new)?.old);
    /// # Ok::<(), Refusal>(())
    /// ```
    pub fn create(&mut self, name: &Name, new: &NewFile) -> Result<Created, Refusal> {
        let (image, g, name) = (self.image.as_mut(), self.geometry, name.as_bytes());
        let mut handle = Handle::zeros();
        let lent = handle.as_mut_bytes();
        let mut old = 0;
        // SAFETY: the slices are live references, the image's is exclusive; the others written to are locals.
        accepted_by_name(|place, fault_slot| unsafe {
            call!(
                genie_create,
                as_mut_ptr,
                [(image, g)],
                name.as_ptr(),
                name.len(),
                new.date.day,
                new.date.month,
                // A year before 1980 becomes one that is far out of range.
                new.date.year.wrapping_sub(Date::FIRST_YEAR),
                new.record_length,
                new.main_code,
                new.worker_code,
                new.checking,
                &mut old,
                lent.as_mut_ptr(),
                lent.len(),
                place,
                fault_slot,
            )
        })?;
        Ok(Created { handle, old: old != 0 })
    }

    /// Writes the buffer's first bytes, as many as a record has, at the handle's position and advances it. Bytes between
    /// the old end and the position become zero; granules are taken as needed.
    ///
    /// ```
    /// # use genie_dos::*;
    /// # let mut disk = Disk::blank(Geometry::new(16, 2, 80, 0x4296), 10, &[0])?;
    /// # let name = "PULS01/DAT".parse().unwrap();
    /// # disk.create(&name, &NewFile::open(disk.geometry(), Date::new(1983, 10, 9)))?;
    /// let mut handle = disk.open(&name, 2, Password::Unchecked)?;
    /// handle.set_position(3);
    /// disk.write_record(&mut handle, Kind::Sequential, b"XY")?;
    /// assert_eq!(disk.contents(&handle)?, b"\0\0\0XY");
    ///
    /// handle.set_position(0);
    /// disk.write_record(&mut handle, Kind::Random, b"AB")?;
    /// assert_eq!(disk.contents(&handle)?, b"AB\0XY");
    ///
    /// assert_eq!(disk.write_record(&mut handle, Kind::Random, b"!"), Err(Refusal::Range));
    /// # Ok::<(), Refusal>(())
    /// ```
    pub fn write_record(&mut self, handle: &mut Handle, kind: Kind, buffer: &[u8]) -> Result<(), Refusal> {
        let (image, g, lent) = (self.image.as_mut(), self.geometry, handle.as_mut_bytes());
        // SAFETY: the slices are live references, those written to are exclusive.
        accepted(|fault_slot| unsafe {
            call!(
                genie_write_record,
                as_mut_ptr,
                [(image, g)],
                lent.as_mut_ptr(),
                lent.len(),
                kind == Kind::Sequential,
                buffer.as_ptr(),
                buffer.len(),
                fault_slot,
            )
        })
    }

    /// Writes all bytes of the buffer at the handle's position and advances it, as [`Disk::write_record`] does those of a
    /// record: a whole file in one call, or, refused, nothing of it. The record length plays no part. A write of no bytes is a
    /// write: a sequential one ends the file at the position.
    ///
    /// ```
    /// # use genie_dos::*;
    /// # let mut disk = Disk::blank(Geometry::new(16, 2, 80, 0x4296), 10, &[0])?;
    /// # let name = "PULS01/DAT".parse().unwrap();
    /// let new = NewFile::open(disk.geometry(), Date::new(1983, 10, 9));
    /// let mut handle = disk.create(&name, &new)?.handle;
    /// disk.write_bytes(&mut handle, Kind::Sequential, &[7; 3000])?;
    /// assert_eq!((handle.position(), disk.files()?[0].granules), (3000, 3));
    /// // The 26 granules that are free hold no more than 33,280 bytes.
    /// assert_eq!(disk.write_bytes(&mut handle, Kind::Sequential, &[8; 40_000]), Err(Refusal::NoSpace));
    /// handle.set_position(100);
    /// disk.write_bytes(&mut handle, Kind::Sequential, &[])?;
    /// assert_eq!(disk.files()?[0].size, 100);
    /// # Ok::<(), Refusal>(())
    /// ```
    pub fn write_bytes(&mut self, handle: &mut Handle, kind: Kind, buffer: &[u8]) -> Result<(), Refusal> {
        let (image, g, lent) = (self.image.as_mut(), self.geometry, handle.as_mut_bytes());
        // SAFETY: the slices are live references, those written to are exclusive.
        accepted(|fault_slot| unsafe {
            call!(
                genie_write_bytes,
                as_mut_ptr,
                [(image, g)],
                lent.as_mut_ptr(),
                lent.len(),
                kind == Kind::Sequential,
                buffer.as_ptr(),
                buffer.len(),
                fault_slot,
            )
        })
    }

    /// Takes granules until the file owns those up to its sector `k`; its size stays.
    ///
    /// ```
    /// # use genie_dos::*;
    /// # let mut disk = Disk::blank(Geometry::new(16, 2, 80, 0x4296), 10, &[0])?;
    /// # let name = "LEER".parse().unwrap();
    /// # let handle = disk.create(&name, &NewFile::open(disk.geometry(), Date::new(1983, 10, 9)))?.handle;
    /// disk.allot(&handle, 5)?; // sector 5 is in the second granule
    /// assert_eq!(disk.files()?[0].granules, 2);
    /// disk.trim(&handle)?; // the file is empty: both go back
    /// assert_eq!(disk.files()?[0].granules, 0);
    /// # Ok::<(), Refusal>(())
    /// ```
    pub fn allot(&mut self, handle: &Handle, k: usize) -> Result<(), Refusal> {
        let (image, g, lent) = (self.image.as_mut(), self.geometry, handle.as_bytes());
        // SAFETY: the slices are live references, the image's is exclusive.
        accepted(|fault_slot| unsafe {
            call!(genie_allot, as_mut_ptr, [(image, g)], lent.as_ptr(), lent.len(), k, fault_slot)
        })
    }

    /// Gives back the granules that the file's size does not need. A file with the flag F keeps them. See
    /// [`allot`](Disk::allot) for an example.
    pub fn trim(&mut self, handle: &Handle) -> Result<(), Refusal> {
        let (image, g, lent) = (self.image.as_mut(), self.geometry, handle.as_bytes());
        // SAFETY: the slices are live references, the image's is exclusive.
        accepted(|fault_slot| unsafe {
            call!(genie_trim, as_mut_ptr, [(image, g)], lent.as_ptr(), lent.len(), fault_slot)
        })
    }

    /// Removes the file and frees its granules. The handle is stale from then on.
    ///
    /// ```
    /// # use genie_dos::*;
    /// # let mut disk = Disk::blank(Geometry::new(16, 2, 80, 0x4296), 10, &[0])?;
    /// # let name = "LEER".parse().unwrap();
    /// # let handle = disk.create(&name, &NewFile::open(disk.geometry(), Date::new(1983, 10, 9)))?.handle;
    /// disk.kill(&handle)?;
    /// assert_eq!(disk.kill(&handle), Err(Refusal::Stale));
    /// # Ok::<(), Refusal>(())
    /// ```
    pub fn kill(&mut self, handle: &Handle) -> Result<(), Refusal> {
        let (image, g, lent) = (self.image.as_mut(), self.geometry, handle.as_bytes());
        // SAFETY: the slices are live references, the image's is exclusive.
        accepted(|fault_slot| unsafe {
            call!(genie_kill, as_mut_ptr, [(image, g)], lent.as_ptr(), lent.len(), fault_slot)
        })
    }

    /// Brings back the killed file whose primary entry is in a slot, if its entries are whole, its name is not in use and
    /// its granules are free. Its bytes are what those granules hold now, which another file may have written since.
    ///
    /// ```
    /// # use genie_dos::*;
    /// # let mut disk = Disk::blank(Geometry::new(16, 2, 80, 0x4296), 10, &[0])?;
    /// # let name = "PULS01/DAT".parse().unwrap();
    /// # let mut handle = disk.create(&name, &NewFile::open(disk.geometry(), Date::new(1983, 10, 9)))?.handle;
    /// # disk.write_record(&mut handle, Kind::Sequential, &[7; 256])?;
    /// let before = disk.image().to_vec();
    /// disk.kill(&handle)?;
    /// let back = disk.bring_back(handle.slot().into())?;
    /// assert_eq!((back.slots, back.granules), (1, 1));
    /// assert_eq!(disk.image(), before);
    /// assert_eq!(disk.bring_back(handle.slot().into()), Err(Refusal::SlotInUse));
    /// # Ok::<(), Refusal>(())
    /// ```
    pub fn bring_back(&mut self, slot: usize) -> Result<BroughtBack, Refusal> {
        let (image, g) = (self.image.as_mut(), self.geometry);
        let (mut slots, mut granules) = (0, 0);
        // SAFETY: the slice is a live, exclusive reference; the outgoing numbers are locals.
        accepted(|fault_slot| unsafe {
            call!(genie_bring_back, as_mut_ptr, [(image, g)], slot, &mut slots, &mut granules, fault_slot)
        })?;
        Ok(BroughtBack { slots, granules })
    }
    /// Plays back a recorded session: the calls of a trace, one after the other, with the result of each (none where it was
    /// accepted). The trace is read through before anything runs, and the disk is checked once. [`Trace`](crate::Trace)
    /// packs one.
    ///
    /// ```
    /// # use genie_dos::*;
    /// # let mut disk = Disk::blank(Geometry::new(16, 2, 80, 0x4296), 10, &[0])?;
    /// let mut trace = vec![1];
    /// trace.extend_from_slice(b"A          "); // one name
    /// trace.extend_from_slice(&[0x20, 0, 0, 0, 0x80, 0, 0]); // create it, with record length 256
    /// trace.extend_from_slice(&[0xE0, 0, 0, 0, 0x80, 0, 0]); // read a record
    /// assert_eq!(disk.play(&trace), Err(Refusal::Trace(TracePlace { byte: 26, bit: 0 }))); // it breaks off
    /// trace.extend_from_slice(&[0; 7]);
    /// assert_eq!(disk.play(&trace)?, [None, Some(Refusal::PastEnd)]);
    /// # Ok::<(), Refusal>(())
    /// ```
    pub fn play(&mut self, trace: &[u8]) -> Result<Vec<Option<Refusal>>, Refusal> {
        let mut results = vec![0; trace.len() / 7];
        let calls = self.play_into(trace, &mut results)?;
        Ok(results[..calls].iter().map(|&number| Refusal::from_number(number)).collect())
    }

    /// The same into a lent buffer, a byte a call: 0, or the call's refusal number. Answers how many calls there are; what
    /// stands behind them in the buffer stays.
    pub fn play_into(&mut self, trace: &[u8], results: &mut [u8]) -> Result<usize, Refusal> {
        let (image, g) = (self.image.as_mut(), self.geometry);
        let (mut calls, mut byte, mut bit) = (0, 0, 0);
        // SAFETY: the slices are live references, those written to exclusive; the outgoing numbers are locals.
        let played = accepted(|fault_slot| unsafe {
            call!(
                genie_play,
                as_mut_ptr,
                [(image, g)],
                trace.as_ptr(),
                trace.len(),
                results.as_mut_ptr(),
                results.len(),
                &mut calls,
                &mut byte,
                &mut bit,
                fault_slot,
            )
        });
        match played {
            Err(Refusal::Trace(_)) => Err(Refusal::Trace(TracePlace { byte, bit: bit as u8 })),
            played => played.map(|()| calls),
        }
    }
}
