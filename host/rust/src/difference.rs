use crate::call::call;
use crate::{Disk, Geometry, Name, Refusal};
use core::fmt;

/// A difference between two disks, as [`Disk::differences`] tells it.
///
/// Files are compared by what they are, not by where they lie: slots and granules are no difference. A file that is a
/// system file on either disk is compared by name only.
#[derive(Clone, Copy, Debug, PartialEq, Eq)]
pub enum Difference {
    /// Only the first disk has a file of this name.
    OnlyInFirst {
        /// The file's name.
        name: Name,
    },
    /// Only the second disk has a file of this name.
    OnlyInSecond {
        /// The file's name.
        name: Name,
    },
    /// Both disks have the file, and at least one of these differs.
    Unlike {
        /// The file's name.
        name: Name,
        /// The first byte position, from 0, where the contents part, or the smaller size if one file is a beginning of
        /// the other; none where the contents are alike.
        position: Option<usize>,
        /// The sizes differ.
        size: bool,
        /// The dates differ.
        date: bool,
        /// Other attributes differ: flags, level, record length or codes.
        attributes: bool,
    },
}

impl Difference {
    /// The name of the file that differs.
    pub fn name(&self) -> Name {
        match *self {
            Difference::OnlyInFirst { name } | Difference::OnlyInSecond { name } => name,
            Difference::Unlike { name, .. } => name,
        }
    }
}

/// One of the two disks that are compared.
#[derive(Clone, Copy, Debug, PartialEq, Eq, Hash)]
pub enum Which {
    /// The first: the one whose method was called.
    First,
    /// The second: the one that was given.
    Second,
}

/// Why two disks could not be compared: one of them was refused. The first's refusal is told before the second's.
#[derive(Clone, Copy, Debug, PartialEq, Eq)]
#[non_exhaustive]
pub struct RefusedImage {
    /// The disk that was refused.
    pub image: Which,
    /// [`Refusal::Geometry`] or [`Refusal::Inconsistent`].
    pub refusal: Refusal,
}

/// `the second disk: 30 (disk not consistent: directory granule)`.
impl fmt::Display for RefusedImage {
    fn fmt(&self, f: &mut fmt::Formatter<'_>) -> fmt::Result {
        let which = match self.image {
            Which::First => "first",
            Which::Second => "second",
        };
        write!(f, "the {which} disk: {}", self.refusal)
    }
}

#[cfg(feature = "std")]
impl std::error::Error for RefusedImage {}

/// The differences of two disks, by name and type bytes, rising. [`Disk::differences`] makes it.
///
/// Each step is one call of the library, which tests both disks anew.
#[derive(Clone, Debug)]
pub struct Differences<'a> {
    first: Disk<&'a [u8]>,
    second: Disk<&'a [u8]>,
    /// What comes next, with its running number; none behind the last.
    next: Option<(usize, Difference)>,
}

impl<B: AsRef<[u8]>> Disk<B> {
    /// The differences between this disk, the first, and another, the second: an iterator, empty if they are alike.
    /// Their geometries may differ.
    ///
    /// ```
    /// use genie_dos::{Date, Difference, Disk, Geometry, Kind, Name, NewFile};
    ///
    /// let geometry = Geometry::new(16, 2, 80, 0x4296);
    /// let mut before = Disk::blank(geometry, 10, &[0])?;
    /// let name: Name = "PULS01/DAT".parse().unwrap();
    /// let new = NewFile::open(geometry, Date::new(1983, 10, 9)).with_record_length(3);
    /// let mut handle = before.create(&name, &new)?.handle;
    /// before.write_record(&mut handle, Kind::Sequential, b"ABC")?;
    ///
    /// let mut after = before.clone();
    /// handle.set_position(1);
    /// after.write_record(&mut handle, Kind::Random, b"BXY")?;
    /// let leer: Name = "LEER".parse().unwrap();
    /// after.create(&leer, &new)?;
    ///
    /// let differences: Vec<Difference> = before.differences(&after)?.collect();
    /// assert_eq!(
    ///     differences,
    ///     [
    ///         Difference::OnlyInSecond { name: leer },
    ///         Difference::Unlike { name, position: Some(2), size: true, date: false, attributes: false },
    ///     ]
    /// );
    /// assert_eq!(before.differences(&before)?.next(), None);
    /// # Ok::<(), Box<dyn std::error::Error>>(())
    /// ```
    ///
    /// A refusal says which disk it is of:
    ///
    /// ```
    /// use genie_dos::{Disk, Fault, FaultKind, Geometry, Refusal, Which};
    ///
    /// let geometry = Geometry::new(16, 2, 80, 0x4296);
    /// let disk = Disk::blank(geometry, 10, &[0])?;
    /// let damaged = Disk::new([0; 40_960], geometry);
    /// let clear = Refusal::Inconsistent(Fault::of_disk(FaultKind::DirectoryGranule));
    /// let refused = disk.differences(&damaged).err().unwrap();
    /// assert_eq!((refused.image, refused.refusal), (Which::Second, clear));
    /// # Ok::<(), Refusal>(())
    /// ```
    pub fn differences<'a, C: AsRef<[u8]>>(&'a self, second: &'a Disk<C>) -> Result<Differences<'a>, RefusedImage> {
        let first = Disk::new(self.image(), self.geometry());
        let second = Disk::new(second.image(), second.geometry());
        let next = told(&first, &second, 0)?;
        Ok(Differences { first, second, next: next.map(|difference| (0, difference)) })
    }
}

impl Iterator for Differences<'_> {
    type Item = Difference;

    fn next(&mut self) -> Option<Difference> {
        let (number, difference) = self.next?;
        // Both disks are borrowed and were accepted, so they are accepted again.
        let next = told(&self.first, &self.second, number + 1).unwrap_or(None);
        self.next = next.map(|difference| (number + 1, difference));
        Some(difference)
    }
}

impl core::iter::FusedIterator for Differences<'_> {}

/// The difference of a running number, from 0; none past the last.
fn told(first: &Disk<&[u8]>, second: &Disk<&[u8]>, number: usize) -> Result<Option<Difference>, RefusedImage> {
    let (one, g): (&[u8], Geometry) = (first.image(), first.geometry());
    let (other, h): (&[u8], Geometry) = (second.image(), second.geometry());
    let mut name = [b' '; Name::LEN];
    let (mut image, mut kind, mut position, mut flags) = (0, 0, 0, 0);
    // SAFETY: the images are live references; name and outgoing numbers are locals.
    let mut fault_slot = 0;
    let answer = unsafe {
        call!(
            genie_compare,
            as_ptr,
            [(one, g), (other, h)],
            number,
            name.as_mut_ptr(),
            name.len(),
            &mut image,
            &mut kind,
            &mut position,
            &mut flags,
            &mut fault_slot,
        )
    };
    if let Some(refusal) = Refusal::from_answer(answer, fault_slot) {
        let image = if image == 2 { Which::Second } else { Which::First };
        return Err(RefusedImage { image, refusal });
    }
    let name = Name::from_bytes(name);
    let differs = |flag: usize| flags & flag != 0;
    Ok(match kind {
        0 => None,
        1 => Some(Difference::OnlyInFirst { name }),
        2 => Some(Difference::OnlyInSecond { name }),
        _ => Some(Difference::Unlike {
            name,
            position: differs(8).then_some(position),
            size: differs(1),
            date: differs(2),
            attributes: differs(4),
        }),
    })
}
