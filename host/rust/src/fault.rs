use core::fmt;

/// What contradicts itself on a disk that is not consistent: one of ten kinds, by the rule of a consistent disk that is
/// broken.
///
/// ```
/// use genie_dos::FaultKind;
///
/// assert_eq!(FaultKind::GranuleShared.number(), 28);
/// assert_eq!(FaultKind::from_number(28), Some(FaultKind::GranuleShared));
/// assert_eq!(FaultKind::GranuleShared.to_string(), "granule shared");
/// ```
#[derive(Clone, Copy, Debug, PartialEq, Eq, PartialOrd, Ord, Hash)]
#[non_exhaustive]
pub enum FaultKind {
    /// 21: the directory's length (HIT byte 1FH) is not allowed, or passes the end of the disk.
    DirectoryLength,
    /// 22: a HIT byte is not 0 though the entry is not in use, or is 0 though it is, or is not the hash.
    HitAgainstEntry,
    /// 23: a file's name is not well formed, or bit 5 of its entry is set.
    Name,
    /// 24: a file in a lower slot has the same name.
    DuplicateName,
    /// 25: a marker, a link or the order of the pairs is wrong, or an extension is badly formed, met twice or in no file's
    /// chain.
    Chain,
    /// 26: a run passes the end of the disk, or its first unit is none that a block has.
    RunOffDisk,
    /// 27: the GAT marks a granule of a run as free.
    GatBitMissing,
    /// 28: a granule is in two runs, of this entry or of this and a lower slot's.
    GranuleShared,
    /// 29: the size does not fit the granules owned, or there is an end byte without a sector.
    Size,
    /// 30: a granule of the directory is in a run of a file without the system flag; or, where there is no slot, the GAT
    /// marks it as free.
    DirectoryGranule,
}

impl FaultKind {
    /// All kinds, in the order of their numbers, which is the order in which they are told of one slot.
    pub const ALL: [FaultKind; 10] = [
        FaultKind::DirectoryLength,
        FaultKind::HitAgainstEntry,
        FaultKind::Name,
        FaultKind::DuplicateName,
        FaultKind::Chain,
        FaultKind::RunOffDisk,
        FaultKind::GatBitMissing,
        FaultKind::GranuleShared,
        FaultKind::Size,
        FaultKind::DirectoryGranule,
    ];

    /// The refusal number, 21 to 30.
    pub const fn number(self) -> u8 {
        21 + self as u8
    }

    /// The kind of a refusal number; none for a number that is no fault's.
    pub fn from_number(number: u8) -> Option<FaultKind> {
        FaultKind::ALL.into_iter().find(|kind| kind.number() == number)
    }

    /// The kind in two or three words.
    pub const fn words(self) -> &'static str {
        match self {
            FaultKind::DirectoryLength => "directory length",
            FaultKind::HitAgainstEntry => "HIT against entry",
            FaultKind::Name => "name",
            FaultKind::DuplicateName => "duplicate name",
            FaultKind::Chain => "chain",
            FaultKind::RunOffDisk => "run off the disk",
            FaultKind::GatBitMissing => "GAT bit missing",
            FaultKind::GranuleShared => "granule shared",
            FaultKind::Size => "size",
            FaultKind::DirectoryGranule => "directory granule",
        }
    }

    /// The meaning of the refusal number.
    pub(crate) const fn meaning(self) -> &'static str {
        match self {
            FaultKind::DirectoryLength => "disk not consistent: directory length",
            FaultKind::HitAgainstEntry => "disk not consistent: HIT against entry",
            FaultKind::Name => "disk not consistent: name",
            FaultKind::DuplicateName => "disk not consistent: duplicate name",
            FaultKind::Chain => "disk not consistent: chain",
            FaultKind::RunOffDisk => "disk not consistent: run off the disk",
            FaultKind::GatBitMissing => "disk not consistent: GAT bit missing",
            FaultKind::GranuleShared => "disk not consistent: granule shared",
            FaultKind::Size => "disk not consistent: size",
            FaultKind::DirectoryGranule => "disk not consistent: directory granule",
        }
    }
}

impl fmt::Display for FaultKind {
    fn fmt(&self, f: &mut fmt::Formatter<'_>) -> fmt::Result {
        f.pad(self.words())
    }
}

/// The fault of a disk that is not consistent, as the library tells it: of all faults the one in the lowest slot, and at
/// that slot the first kind. [`Disk::explain`](crate::Disk::explain) says it in words.
#[derive(Clone, Copy, Debug, PartialEq, Eq, Hash)]
#[non_exhaustive]
pub struct Fault {
    /// What is wrong.
    pub kind: FaultKind,
    /// The slot of the entry at fault; none of [`FaultKind::DirectoryLength`], and none of
    /// [`FaultKind::DirectoryGranule`] where it is the GAT that is wrong.
    pub slot: Option<u8>,
}

impl Fault {
    /// A fault of this kind, of a slot or of none.
    pub const fn new(kind: FaultKind, slot: Option<u8>) -> Fault {
        Fault { kind, slot }
    }

    /// A fault of a slot.
    pub const fn at(kind: FaultKind, slot: u8) -> Fault {
        Fault { kind, slot: Some(slot) }
    }

    /// A fault that belongs to no slot.
    pub const fn of_disk(kind: FaultKind) -> Fault {
        Fault { kind, slot: None }
    }
}

#[cfg(test)]
mod tests {
    use super::*;
    use alloc::vec::Vec;

    #[test]
    fn numbers_and_words() {
        let numbers: Vec<u8> = FaultKind::ALL.iter().map(|kind| kind.number()).collect();
        assert_eq!(numbers, (21..=30).collect::<Vec<_>>());
        for kind in FaultKind::ALL {
            assert_eq!(FaultKind::from_number(kind.number()), Some(kind));
            assert_eq!(kind.meaning(), format!("disk not consistent: {kind}"));
        }
        for none in [0, 1, 2, 20, 31, 255] {
            assert_eq!(FaultKind::from_number(none), None);
        }
    }
}
