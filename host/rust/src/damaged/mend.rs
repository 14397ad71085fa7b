use super::choice::{choose, why_out, Grounds};
use super::doubt::{doubtful, Doubtful};
use super::evidence::{lost_by_flags, Evidence};
use super::faults::told;
use super::length::presumed;
use super::remedy::{ByteChange, Remedy};
use super::Reading;
use crate::{Disk, Explained, Fault, FaultKind, Geometry, Name, Refusal};
use alloc::vec::Vec;
use core::fmt;

/// One fault mended: what the library told, and what was done.
#[derive(Clone, Debug, PartialEq, Eq)]
#[non_exhaustive]
pub struct Step {
    /// The fault that the library told of the copy as it then stood, in words.
    pub told: Explained,
    /// Where an entry was taken out at its first fault because of another: that one, for which it cannot stay.
    pub because: Option<Explained>,
    /// What was done.
    pub remedy: Remedy,
    /// The bytes that it changed; at least one.
    pub changes: Vec<ByteChange>,
}

impl Step {
    /// The fault that decided what was done.
    pub fn decisive(&self) -> &Explained {
        self.because.as_ref().unwrap_or(&self.told)
    }
}

/// A file of the damaged disk that the copy does not have.
#[derive(Clone, Debug, PartialEq, Eq)]
#[non_exhaustive]
pub struct Dropped {
    /// Its slot.
    pub slot: u8,
    /// Its name as the bytes say, well formed or not.
    pub name: Name,
    /// The number, from 0, of the step that took it out.
    pub step: usize,
}

/// A consistent copy of a damaged disk, and how it was made. [`Disk::mend`] makes it.
#[derive(Clone, Debug)]
#[non_exhaustive]
pub struct Mended {
    /// The copy; the library's check accepts it.
    pub disk: Disk,
    /// What was done, in order; nothing of a disk that was consistent.
    pub steps: Vec<Step>,
    /// The files that the copy does not have, by rising slot.
    pub dropped: Vec<Dropped>,
    /// The files of the copy about which there is doubt, by rising slot.
    pub doubtful: Vec<Doubtful>,
}

/// Why a disk could not be mended.
#[derive(Clone, Debug, PartialEq, Eq)]
#[non_exhaustive]
pub enum Unmended {
    /// The library refuses the geometry, or gives an answer that is no fault of the disk.
    Refused(Refusal),
    /// Mending was given up: the library still tells this fault after so many steps. It does not happen as long as this crate
    /// reads the directory as the library does.
    GaveUp {
        /// The fault.
        fault: Fault,
        /// Steps that were made.
        steps: usize,
    },
}

impl fmt::Display for Unmended {
    fn fmt(&self, f: &mut fmt::Formatter<'_>) -> fmt::Result {
        match self {
            Unmended::Refused(refusal) => refusal.fmt(f),
            Unmended::GaveUp { fault, steps } => {
                write!(f, "gave up after {steps} steps: {}", Refusal::Inconsistent(*fault))
            }
        }
    }
}

#[cfg(feature = "std")]
impl std::error::Error for Unmended {}

impl<B: AsRef<[u8]>> Disk<B> {
    /// A consistent copy of the disk. It goes by the library's own word: the check tells a fault, the copy is changed by the
    /// smallest change that takes it away, and is checked again, until the check accepts it. The disk itself stays as it is.
    ///
    /// ```
    /// use genie_dos::{Date, Disk, Geometry, NewFile};
    ///
    /// let geometry = Geometry::new(16, 2, 80, 0x4296);
    /// let mut disk = Disk::blank(geometry, 10, &[0])?;
    /// let new = NewFile::open(geometry, Date::new(1983, 10, 9));
    /// for name in ["PULS01/DAT", "PULS02/DAT", "LEER"] {
    ///     disk.create(&name.parse().unwrap(), &new)?;
    /// }
    /// let mut image = disk.into_image();
    /// image[82 * 256 + 128 + 0x1E] = 7; // the marker of slot 80H
    /// image[81 * 256 + 0x81] ^= 1; // the HIT byte of slot 81H
    ///
    /// let mended = Disk::new(image, geometry).mend()?;
    /// assert_eq!(mended.disk.check(), Ok(()));
    /// let done: Vec<_> = mended.steps.iter().map(|step| step.remedy.to_string()).collect();
    /// assert_eq!(done, ["slot 80H taken out of the directory", "the HIT byte of slot 81H is put to the hash, 01H"]);
    /// assert_eq!(mended.dropped[0].name.to_string(), "PULS01/DAT");
    /// assert_eq!(mended.doubtful[0].name.to_string(), "PULS02/DAT");
    /// # Ok::<(), Box<dyn std::error::Error>>(())
    /// ```
    pub fn mend(&self) -> Result<Mended, Unmended> {
        mend(self.image(), self.geometry(), None)
    }
}

/// Most steps that mending can take on a disk of so many granules.
///
/// Each step lowers a number that cannot fall below 0. The number has one for a directory length that is not allowed, one for each
/// clear GAT bit of the disk, and for each slot as many as there are steps left to it: put back, name put, bit 5 cleared, HIT byte
/// put to a hash, and taken out or HIT byte cleared. Each is done once to a slot, and after the last one the slot is not in use with
/// a HIT byte of 0, which no step changes. No step clears a GAT bit, and only the first touches the length.
fn most_steps(granules: usize) -> usize {
    const STEPS_OF_A_SLOT: usize = 5;
    1 + granules + STEPS_OF_A_SLOT * 256
}

/// Mends a copy; a preferred file stays where there is a choice.
pub(super) fn mend(image: &[u8], g: Geometry, preferred: Option<u8>) -> Result<Mended, Unmended> {
    let mut disk = Disk::new(image.to_vec(), g);
    let mut steps: Vec<Step> = Vec::new();
    let mut grounds: Option<Grounds> = None;
    loop {
        let fault = match disk.check() {
            Ok(()) => break,
            Err(Refusal::Inconsistent(fault)) => fault,
            Err(refusal) => return Err(Unmended::Refused(refusal)),
        };
        let gave_up = Unmended::GaveUp { fault, steps: steps.len() };
        if steps.len() >= most_steps(g.granules().unwrap_or(0)) {
            return Err(gave_up);
        }
        let reading = Reading::of(disk.image(), g);
        let (remedy, changes, because) = match (fault.kind, &reading) {
            (FaultKind::DirectoryLength, _) => {
                let reading = presumed(disk.image(), g).ok_or(gave_up.clone())?;
                let remedy = Remedy::Length { sectors: reading.sectors };
                let changes = remedy.changes(&reading, disk.image());
                (remedy, changes, None)
            }
            (_, Some(now)) => {
                let grounds = grounds.get_or_insert_with(|| Grounds {
                    evidence: Evidence::of(now),
                    preferred,
                    hits_put: Vec::new(),
                });
                let remedy = choose(now, grounds, fault);
                if let Remedy::HitPut { slot, .. } = remedy {
                    grounds.hits_put.push(slot);
                }
                let changes = remedy.changes(now, disk.image());
                let because = because(now, fault, &remedy);
                (remedy, changes, because)
            }
            (_, None) => return Err(gave_up),
        };
        if changes.is_empty() {
            return Err(gave_up);
        }
        let told = disk.explain(fault);
        let mut copy = disk.into_image();
        for change in &changes {
            // Changes are made of bytes that the image has.
            copy[change.image_byte] = change.after;
        }
        disk = Disk::new(copy, g);
        steps.push(Step { told, because, remedy, changes });
    }
    let dropped = dropped(image, &disk, &steps);
    let doubtful = doubtful(image, &disk, &steps);
    Ok(Mended { disk, steps, dropped, doubtful })
}

/// The fault for which a slot was taken out, if it is another than the one that the library told.
fn because(now: &Reading, fault: Fault, remedy: &Remedy) -> Option<Explained> {
    let slot = fault.slot.filter(|slot| matches!(remedy, Remedy::TakenOut { slots } if slots.contains(slot)))?;
    let (slot, detail) = why_out(now, slot)?;
    let told = told(now, Some(slot), detail).told;
    (told.fault != fault).then_some(told)
}

/// The reading of the damaged image under the directory length of the copy.
pub(super) fn original<'a>(image: &'a [u8], copy: &Disk) -> Option<Reading<'a>> {
    let sectors = copy.directory_sectors().ok()?;
    Some(Reading::with_length(image, copy.geometry(), sectors))
}

fn dropped(image: &[u8], copy: &Disk, steps: &[Step]) -> Vec<Dropped> {
    let g = copy.geometry();
    let (before, after) = match (original(image, copy), Reading::of(copy.image(), g)) {
        (Some(before), Some(after)) => (before, after),
        _ => return Vec::new(),
    };
    let was_file = |&slot: &u8| before.entry(slot).is_file() || lost_by_flags(&before, slot);
    let gone = before.slots().filter(was_file).filter(|&slot| !after.entry(slot).is_file());
    let gone = gone.filter_map(|slot| {
        let took = |step: &Step| match &step.remedy {
            Remedy::TakenOut { slots } => slots.contains(&slot),
            Remedy::HitCleared { slot: cleared } => *cleared == slot,
            _ => false,
        };
        Some(Dropped { slot, name: before.entry(slot).name(), step: steps.iter().position(took)? })
    });
    gone.collect()
}
