use crate::entry::Directory;
use crate::{Disk, Geometry, Name, Refusal};
use alloc::vec::Vec;

/// The slots of a directory that files and their extensions may have, as [`Disk::slots`] counts them.
#[derive(Clone, Copy, Debug, PartialEq, Eq)]
#[non_exhaustive]
pub struct Slots {
    /// How many there are.
    pub all: usize,
    /// How many of them are free.
    pub free: usize,
}

/// What a file can grow by, as [`Disk::growth`] finds it: whether so many granules fit, and in how many runs.
///
/// A growth that the library's first choice does not serve lengthens the file's last run as far as it goes, and then takes the
/// longest free stretch that is left, at most 32 granules at a time. No choice of as many granules has fewer runs: where this one
/// has more than there is room for, the growth is refused with 8.
#[derive(Clone, Debug, PartialEq, Eq)]
#[non_exhaustive]
pub struct Growth {
    /// Granules that the last run can be lengthened by: those that are free just behind it, up to 32 in the run.
    pub lengthening: usize,
    /// The free stretches that are left then, in granules, by rising place.
    pub stretches: Vec<usize>,
    /// Further runs that there is room for: those left of the four pairs of the file's last entry, and four for each free slot
    /// that an extension may have.
    pub room: usize,
}

impl Growth {
    /// Most granules of a run.
    const MOST: usize = 32;
    /// Runs that an entry has place for.
    const PAIRS: usize = 4;

    /// The fewest further runs in which the file can get so many granules more; none where fewer are free.
    pub fn runs_needed(&self, granules: usize) -> Option<usize> {
        let mut left = granules.saturating_sub(self.lengthening);
        let mut stretches = self.stretches.clone();
        let mut runs = 0;
        while left > 0 {
            let longest = stretches.iter_mut().max()?;
            let taken = left.min(Self::MOST).min(*longest);
            if taken == 0 {
                return None;
            }
            *longest -= taken;
            left -= taken;
            runs += 1;
        }
        Some(runs)
    }

    /// Whether the file can get so many granules more.
    pub fn fits(&self, granules: usize) -> bool {
        matches!(self.runs_needed(granules), Some(runs) if runs <= self.room)
    }
}

impl<B: AsRef<[u8]>> Disk<B> {
    /// The slots that files may have, by the geometry's kind of disk. The disk is checked first.
    ///
    /// ```
    /// use genie_dos::{Disk, Geometry, Slots};
    ///
    /// let geometry = Geometry::new(16, 2, 80, 0x4296);
    /// let disk = Disk::blank(geometry, 10, &[0])?;
    /// assert_eq!((disk.slots()?.all, disk.slots()?.free), (32, 32));
    /// let data = Disk::new(disk.image(), geometry.with_system_disk(false));
    /// assert_eq!((data.slots()?.all, data.slots()?.free), (62, 62));
    /// # Ok::<(), genie_dos::Refusal>(())
    /// ```
    pub fn slots(&self) -> Result<Slots, Refusal> {
        self.check()?;
        Ok(Directory::new(self.image(), self.geometry()).slots_for_files())
    }

    /// What the file of this name can grow by. The disk is checked first.
    ///
    /// ```
    /// use genie_dos::{Date, Disk, Geometry, Growth, NewFile};
    ///
    /// let geometry = Geometry::new(16, 2, 80, 0x4296);
    /// let mut disk = Disk::blank(geometry, 10, &[0, 3])?;
    /// let name = "PULS01/DAT".parse().unwrap();
    /// let handle = disk.create(&name, &NewFile::open(geometry, Date::new(1983, 10, 9)))?.handle;
    /// disk.allot(&handle, 0)?; // granule 1; 2 is free behind it, then 4 to 15 and 18 to 31
    /// let growth = disk.growth(&name)?;
    /// assert_eq!((growth.lengthening, growth.stretches.as_slice(), growth.room), (1, &[12, 14][..], 3 + 4 * 31));
    /// assert_eq!([1, 15, 16, 28].map(|granules| growth.runs_needed(granules)), [Some(0), Some(1), Some(2), None]);
    /// # Ok::<(), genie_dos::Refusal>(())
    /// ```
    pub fn growth(&self, name: &Name) -> Result<Growth, Refusal> {
        let slot = self.look_up(name).slot?;
        let directory = Directory::new(self.image(), self.geometry());
        let last = directory.last_entry_of(slot).ok_or(Refusal::NotFound)?;
        let (runs, behind) =
            (last.runs().len(), last.runs().last().map(|run| (run.first + run.granules, run.granules)));
        let mut stretches = Vec::new();
        let mut lengthening = 0;
        for (first, granules) in directory.free_stretches() {
            // The stretch behind the last run begins just there: the run's own granules are taken.
            let longer = match behind {
                Some((next, owned)) if next == first => granules.min(Growth::MOST.saturating_sub(owned)),
                _ => 0,
            };
            lengthening += longer;
            stretches.extend(Some(granules - longer).filter(|&left| left > 0));
        }
        let room = Growth::PAIRS.saturating_sub(runs) + Growth::PAIRS * directory.slots_for_files().free;
        Ok(Growth { lengthening, stretches, room })
    }
}

impl Directory<'_> {
    /// Slots that files may have, and how many of them are free: their HIT byte is 0.
    fn slots_for_files(&self) -> Slots {
        let permitted: Vec<u8> = self.slots().filter(|&slot| !self.keeps(slot)).collect();
        let free = permitted.iter().filter(|&&slot| self.hit(slot) == 0).count();
        Slots { all: permitted.len(), free }
    }

    /// On a system disk rows 0 to 3 with s 0 to 7 are kept for system files, on a data disk slots 00H and 01H alone.
    fn keeps(&self, slot: u8) -> bool {
        match self.geometry().system_disk {
            true => slot / 32 <= 3 && slot % 32 <= 7,
            false => slot <= 1,
        }
    }

    /// The first granule and the length of each free stretch, rising: free granules with consecutive numbers.
    fn free_stretches(&self) -> Vec<(usize, usize)> {
        let Geometry { units, .. } = self.geometry();
        let granules = self.geometry().granules().unwrap_or(0);
        let mut stretches: Vec<(usize, usize)> = Vec::new();
        for granule in (0..granules).filter(|granule| self.gat(granule / units) >> (granule % units) & 1 == 0) {
            match stretches.last_mut() {
                Some((first, many)) if *first + *many == granule => *many += 1,
                _ => stretches.push((granule, 1)),
            }
        }
        stretches
    }
}
