use super::detail::listed;
use super::evidence::lost_by_flags;
use super::mend::{original, Step};
use super::remedy::Remedy;
use super::Reading;
use crate::{Disk, Name};
use alloc::vec::Vec;
use core::fmt;

/// Why a file of a mended copy may not be what it was.
#[derive(Clone, Debug, PartialEq, Eq)]
#[non_exhaustive]
pub enum Doubt {
    /// Granules of it stood in another entry of the damaged disk too: its bytes may be another file's.
    Shared {
        /// The granules.
        granules: Vec<usize>,
        /// The other entry's slot.
        slot: u8,
    },
    /// Granules of it were free in the GAT: either the GAT was damaged or its runs were, and then its bytes are not its own.
    WasFree {
        /// The granules.
        granules: Vec<usize>,
    },
    /// Its HIT byte was 0: it may have been killed, and its name is not borne out.
    HitWasZero,
    /// Its HIT byte was not the hash of its name: it may have had another name.
    NameNotBorneOut {
        /// The HIT byte.
        hit: u8,
    },
    /// A byte of its name was damaged and was put to what its HIT byte demands: it may have had another name.
    NameMended {
        /// The bytes as they were.
        was: Name,
    },
    /// Another entry had its name: it may be that one's, or have had another name.
    SameName {
        /// The other entry's slot.
        slot: u8,
    },
    /// Its byte 00 said that it was no file in use: it may have been killed.
    WasNotInUse {
        /// Byte 00 as it was.
        flags: u8,
    },
    /// It lies on the directory: its bytes are the directory's, as far as they were damaged and mended.
    IsDirectory,
}

impl fmt::Display for Doubt {
    fn fmt(&self, f: &mut fmt::Formatter<'_>) -> fmt::Result {
        match self {
            Doubt::Shared { granules, slot } => {
                let verb = if granules.len() == 1 { "was" } else { "were" };
                write!(f, "{} {verb} also in slot {slot:02X}H: its bytes may be another file's", listed(granules))
            }
            Doubt::WasFree { granules } => {
                let verb = if granules.len() == 1 { "was" } else { "were" };
                write!(f, "{} {verb} free in the GAT: its bytes may not be its own", listed(granules))
            }
            Doubt::HitWasZero => f.write_str("its HIT byte was 0: it may have been killed, or have had another name"),
            Doubt::NameNotBorneOut { hit } => {
                write!(f, "its HIT byte was {hit:02X}H, not the hash of its name: it may have had another name")
            }
            Doubt::NameMended { was } => {
                write!(
                    f,
                    "its name was \"{}\", mended by its HIT byte: it may have had another",
                    was.as_bytes().escape_ascii()
                )
            }
            Doubt::SameName { slot } => write!(f, "slot {slot:02X}H had the same name"),
            Doubt::WasNotInUse { flags } => {
                write!(f, "its byte 00 was {flags:02X}H, that of no file in use: it may have been killed")
            }
            Doubt::IsDirectory => f.write_str("it lies on the directory: its bytes are the directory's"),
        }
    }
}

/// A file of a mended copy about which there is doubt.
#[derive(Clone, Debug, PartialEq, Eq)]
#[non_exhaustive]
pub struct Doubtful {
    /// Its slot.
    pub slot: u8,
    /// Its name.
    pub name: Name,
    /// Why; at least one.
    pub doubts: Vec<Doubt>,
}

/// The doubtful files of a copy, by rising slot.
pub(super) fn doubtful(image: &[u8], copy: &Disk, steps: &[Step]) -> Vec<Doubtful> {
    let after = Reading::of(copy.image(), copy.geometry());
    let (before, after) = match (original(image, copy), after) {
        (Some(before), Some(after)) => (before, after),
        _ => return Vec::new(),
    };
    // A disk that was consistent has nothing doubtful.
    if steps.is_empty() {
        return Vec::new();
    }
    let all = after.files().map(|slot| Doubtful {
        slot,
        name: after.entry(slot).name(),
        doubts: doubts(&before, &after, steps, slot),
    });
    all.filter(|file| !file.doubts.is_empty()).collect()
}

/// What speaks against a file of the copy.
fn doubts(before: &Reading, after: &Reading, steps: &[Step], file: u8) -> Vec<Doubt> {
    let mut doubts = Vec::new();
    let extensions: Vec<u8> = after.walks.of_file(file).map(|meeting| meeting.slot).collect();
    let entries: Vec<u8> = core::iter::once(file).chain(extensions.iter().copied()).collect();
    let granules: Vec<usize> = entries.iter().flat_map(|&slot| after.on_disk(slot)).collect();

    // Entries that named a granule: those in use, and those that their HIT byte says are files.
    for other in before.slots().filter(|slot| !entries.contains(slot)) {
        let entry = before.entry(other);
        if entry.in_use() || lost_by_flags(before, other) {
            let named = |granule: &&usize| entry.runs(before.g).any(|run| run.granules().contains(*granule));
            let shared: Vec<usize> = granules.iter().filter(named).copied().collect();
            if !shared.is_empty() {
                doubts.push(Doubt::Shared { granules: shared, slot: other });
            }
        }
    }
    let free: Vec<usize> = granules.iter().copied().filter(|&granule| !before.taken(granule)).collect();
    // The directory's own granules are no file's to doubt.
    if !free.is_empty() {
        doubts.push(Doubt::WasFree { granules: free });
    }

    let (name, hit) = (after.entry(file).name(), before.hit(file));
    // An extension's HIT byte bears the name out too.
    let borne_out = extensions.iter().any(|&slot| before.hit(slot) == name.hash());
    match hit {
        0 if !borne_out => doubts.push(Doubt::HitWasZero),
        hit if hit != name.hash() && !borne_out => doubts.push(Doubt::NameNotBorneOut { hit }),
        _ => {}
    }
    if before.entry(file).name() != name {
        doubts.push(Doubt::NameMended { was: before.entry(file).name() });
    }
    let flags = before.entry(file).flags();
    if steps.iter().any(|step| step.remedy == Remedy::PutBack { slot: file }) {
        doubts.push(Doubt::WasNotInUse { flags });
    }
    // Another of its name does not count whose own HIT byte spoke against it.
    let same = before.files().find(|&other| {
        other != file && before.entry(other).name() == name && (before.hit(other) == name.hash() || hit != name.hash())
    });
    if let Some(slot) = same {
        doubts.push(Doubt::SameName { slot });
    }
    if granules.iter().any(|granule| after.directory_granules().contains(granule)) {
        doubts.push(Doubt::IsDirectory);
    }
    doubts
}
