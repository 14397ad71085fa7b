use super::entry::RawEntry;
use super::Reading;
use crate::FaultKind;
use alloc::string::{String, ToString};
use alloc::vec::Vec;

/// What exactly is wrong where a fault is, as the image's bytes say it.
#[derive(Clone, Debug, PartialEq, Eq)]
#[non_exhaustive]
pub enum Detail {
    /// 21: HIT byte 1FH stands for no length.
    Length {
        /// The byte.
        above: u8,
    },
    /// 21: the directory passes the end of the disk.
    PastEnd {
        /// Sectors by HIT byte 1FH.
        sectors: usize,
        /// Sectors from the directory's start to the end of the disk.
        room: usize,
    },
    /// 22: the entry is in use, but its HIT byte is 0.
    HitZero,
    /// 22: the entry is not in use, but its HIT byte is not 0.
    HitOfUnused {
        /// The HIT byte.
        hit: u8,
    },
    /// 22: the HIT byte is not the hash of the file's name.
    HitNotHash {
        /// The HIT byte.
        hit: u8,
        /// The hash.
        hash: u8,
        /// The file's slot.
        file: u8,
    },
    /// 23: a byte that cannot stand where it does in a name.
    NameByte {
        /// Its place in the name, 0 to 10.
        place: usize,
        /// The byte.
        byte: u8,
    },
    /// 23: bit 5 of byte 00 is set.
    BitFive {
        /// Byte 00.
        flags: u8,
    },
    /// 24: a file in a lower slot has the same name.
    SameName {
        /// That slot.
        lower: u8,
    },
    /// 25: a pair stands behind a block FFH.
    PairBehindEnd {
        /// The pair's number, from 1.
        pair: usize,
    },
    /// 25: the marker is neither FEH nor FFH.
    Marker {
        /// The marker.
        marker: u8,
    },
    /// 25: fewer than four runs stand before a marker FEH.
    TooFewRuns {
        /// The runs that stand there.
        runs: usize,
    },
    /// 25: the link leads to no slot of the directory.
    LinkToNoSlot {
        /// The link.
        link: u8,
    },
    /// 25: the link leads to an entry that is not in use.
    LinkToUnused {
        /// The link.
        link: u8,
    },
    /// 25: the link leads to an entry that is no extension.
    LinkToNoExtension {
        /// The link.
        link: u8,
    },
    /// 25: the extension is in no file's chain.
    InNoChain,
    /// 25: two links lead to the extension.
    MetTwice {
        /// The slot of the link that was met first.
        first: u8,
        /// The slot of the other.
        second: u8,
    },
    /// 25: byte 00 of the extension is not 90H.
    ExtensionFlags {
        /// Byte 00.
        flags: u8,
    },
    /// 25: the extension points back to another slot than that whose link leads to it.
    BackLink {
        /// Where it points.
        back: u8,
        /// The slot of the link.
        before: u8,
    },
    /// 25: the extension has no run.
    NoRun,
    /// 26: a run's first unit is none that a block has.
    UnitTooHigh {
        /// The run's number in its entry, from 1.
        run: usize,
        /// The unit.
        unit: usize,
        /// The block.
        block: usize,
    },
    /// 26: a run passes the end of the disk.
    RunPastEnd {
        /// The run's number in its entry, from 1.
        run: usize,
        /// Its first granule.
        first: usize,
        /// Its last granule.
        last: usize,
    },
    /// 27: granules of a run are free in the GAT.
    Free {
        /// The granules, rising.
        granules: Vec<usize>,
        /// The run's number in its entry, from 1.
        run: usize,
    },
    /// 28: a granule is in two runs of this entry.
    TwiceHere {
        /// The granule.
        granule: usize,
        /// The earlier run's number in the entry, from 1.
        first: usize,
        /// The later run's.
        second: usize,
    },
    /// 28: granules are in runs of a lower slot's entry too.
    AlsoIn {
        /// The granules, in the order of this entry's runs.
        granules: Vec<usize>,
        /// The lower slot.
        lower: u8,
    },
    /// 29: the sector count is 0 and the end byte is not.
    NoSectors {
        /// The end byte.
        end: usize,
    },
    /// 29: the size is larger than the granules.
    TooLarge {
        /// The size in bytes.
        size: usize,
        /// Granules of the file's runs.
        granules: usize,
    },
    /// 30: granules of the directory are in a run of a file without the system flag.
    OnDirectory {
        /// The granules, rising.
        granules: Vec<usize>,
        /// The run's number in its entry, from 1.
        run: usize,
    },
    /// 30: a granule of the directory is free in the GAT.
    DirectoryFree {
        /// The granule.
        granule: usize,
    },
}

impl Detail {
    /// The kind of fault that this is.
    pub fn kind(&self) -> FaultKind {
        match self {
            Detail::Length { .. } | Detail::PastEnd { .. } => FaultKind::DirectoryLength,
            Detail::HitZero | Detail::HitOfUnused { .. } | Detail::HitNotHash { .. } => FaultKind::HitAgainstEntry,
            Detail::NameByte { .. } | Detail::BitFive { .. } => FaultKind::Name,
            Detail::SameName { .. } => FaultKind::DuplicateName,
            Detail::PairBehindEnd { .. }
            | Detail::Marker { .. }
            | Detail::TooFewRuns { .. }
            | Detail::LinkToNoSlot { .. }
            | Detail::LinkToUnused { .. }
            | Detail::LinkToNoExtension { .. }
            | Detail::InNoChain
            | Detail::MetTwice { .. }
            | Detail::ExtensionFlags { .. }
            | Detail::BackLink { .. }
            | Detail::NoRun => FaultKind::Chain,
            Detail::UnitTooHigh { .. } | Detail::RunPastEnd { .. } => FaultKind::RunOffDisk,
            Detail::Free { .. } => FaultKind::GatBitMissing,
            Detail::TwiceHere { .. } | Detail::AlsoIn { .. } => FaultKind::GranuleShared,
            Detail::NoSectors { .. } | Detail::TooLarge { .. } => FaultKind::Size,
            Detail::OnDirectory { .. } | Detail::DirectoryFree { .. } => FaultKind::DirectoryGranule,
        }
    }

    /// The byte of the image that is told with it: that of HIT or GAT where it is one of these, else the entry's first.
    pub(super) fn image_byte(&self, reading: &Reading, slot: Option<u8>) -> usize {
        match (self, slot) {
            (Detail::Length { .. } | Detail::PastEnd { .. }, _) => reading.at(1, Reading::LENGTH),
            (Detail::DirectoryFree { granule }, _) => reading.gat_at(*granule).0,
            (_, Some(slot)) => reading.entry_at(slot),
            (_, None) => reading.at(0, 0),
        }
    }

    /// The bytes of the image that break the rule or contradict each other, rising; `slot` is the entry's.
    pub(super) fn bytes(&self, reading: &Reading, slot: Option<u8>) -> Vec<usize> {
        let slot = slot.unwrap_or_default();
        let in_entry = |slot: u8, from: usize, to: usize| -> Vec<usize> {
            (reading.entry_at(slot) + from..=reading.entry_at(slot) + to).collect()
        };
        let own = |from: usize, to: usize| in_entry(slot, from, to);
        // Pairs are numbered from 1.
        let pair = |slot: u8, number: usize| in_entry(slot, 0x14 + 2 * number, 0x15 + 2 * number);
        // The pairs of an entry that name one of these granules.
        let naming = |slot: u8, granules: &[usize]| -> Vec<usize> {
            let runs = reading.entry(slot).runs(reading.g);
            let these = runs.filter(|run| granules.iter().any(|granule| run.granules().contains(granule)));
            these.flat_map(|run| pair(slot, run.number)).collect()
        };
        let mut bytes = match self {
            Detail::Length { .. } | Detail::PastEnd { .. } => vec![reading.at(1, Reading::LENGTH)],
            Detail::HitZero | Detail::HitOfUnused { .. } | Detail::HitNotHash { .. } => vec![reading.hit_at(slot)],
            Detail::NameByte { place, .. } => own(0x05 + place, 0x05 + place),
            Detail::BitFive { .. } | Detail::InNoChain | Detail::ExtensionFlags { .. } => own(0x00, 0x00),
            Detail::SameName { lower } => [own(0x05, 0x0f), in_entry(*lower, 0x05, 0x0f)].concat(),
            Detail::PairBehindEnd { pair: number } => pair(slot, *number),
            Detail::Marker { .. } | Detail::TooFewRuns { .. } => own(0x1e, 0x1e),
            Detail::LinkToNoSlot { .. } | Detail::LinkToUnused { .. } | Detail::LinkToNoExtension { .. } => {
                own(0x1f, 0x1f)
            }
            Detail::MetTwice { first, second } => {
                [in_entry(*first, 0x1f, 0x1f), in_entry(*second, 0x1f, 0x1f)].concat()
            }
            Detail::BackLink { .. } => own(0x01, 0x01),
            Detail::NoRun => pair(slot, 1),
            Detail::UnitTooHigh { run, .. } | Detail::RunPastEnd { run, .. } | Detail::OnDirectory { run, .. } => {
                pair(slot, *run)
            }
            Detail::Free { granules, .. } => granules.iter().map(|&granule| reading.gat_at(granule).0).collect(),
            Detail::TwiceHere { first, second, .. } => [pair(slot, *first), pair(slot, *second)].concat(),
            Detail::AlsoIn { granules, lower } => [naming(slot, granules), naming(*lower, granules)].concat(),
            Detail::NoSectors { .. } | Detail::TooLarge { .. } => [own(0x03, 0x03), own(0x14, 0x15)].concat(),
            Detail::DirectoryFree { granule } => vec![reading.gat_at(*granule).0],
        };
        bytes.sort_unstable();
        bytes.dedup();
        bytes
    }

    /// The granules that it names and the disk has, rising; `slot` is the entry's.
    pub(super) fn granules(&self, reading: &Reading, slot: Option<u8>) -> Vec<usize> {
        let of_run = |number: usize| -> Vec<usize> {
            let runs = reading.entry(slot.unwrap_or_default()).runs(reading.g);
            runs.filter(|run| run.number == number).flat_map(|run| run.granules()).collect()
        };
        let mut granules = match self {
            Detail::Free { granules, .. } | Detail::AlsoIn { granules, .. } | Detail::OnDirectory { granules, .. } => {
                granules.clone()
            }
            Detail::TwiceHere { granule, .. } | Detail::DirectoryFree { granule } => vec![*granule],
            Detail::UnitTooHigh { run, .. } | Detail::RunPastEnd { run, .. } => of_run(*run),
            _ => Vec::new(),
        };
        granules.retain(|&granule| granule < reading.granules());
        granules.sort_unstable();
        granules.dedup();
        granules
    }

    /// In words; `slot` is the entry's.
    pub(super) fn words(&self, reading: &Reading, slot: Option<u8>) -> String {
        let hit_at = slot.map_or(0, |slot| reading.hit_at(slot));
        let gat = |granule: usize| {
            let (at, bit) = reading.gat_at(granule);
            format!("byte {}, bit {bit}; image byte {at}", granule / reading.g.units)
        };
        match *self {
            Detail::Length { above } => format!(
                "HIT byte 1FH (directory sectors above 10; image byte {}) is {above}, not 0, 5, 10, 15 or 20",
                reading.at(1, Reading::LENGTH)
            ),
            Detail::PastEnd { sectors, room } => format!(
                "by HIT byte 1FH the directory has {sectors} sectors, but the disk ends {room} sectors behind its start"
            ),
            Detail::HitZero => format!("the entry is in use, but its HIT byte (image byte {hit_at}) is 0"),
            Detail::HitOfUnused { hit } => {
                format!("the entry is not in use, but its HIT byte (image byte {hit_at}) is {hit:02X}H")
            }
            Detail::HitNotHash { hit, hash, file } => {
                let whose = match slot == Some(file) {
                    true => "its name".to_string(),
                    false => format!("its file's name (slot {file:02X}H)"),
                };
                format!("the HIT byte (image byte {hit_at}) is {hit:02X}H, the hash of {whose} {hash:02X}H")
            }
            Detail::NameByte { place: 0, byte: b' ' } => "the name begins with a blank".to_string(),
            Detail::NameByte { place, byte } if crate::Name::allows(byte) => {
                format!("in the name a blank stands before byte {:02X}H ({byte:02X}H)", 0x05 + place)
            }
            Detail::NameByte { place, byte } => {
                format!("byte {:02X}H of the name is {byte:02X}H, which no name can have", 0x05 + place)
            }
            Detail::BitFive { flags } => format!("bit 5 of byte 00 ({flags:02X}H) is set"),
            Detail::SameName { lower } => format!("slot {lower:02X}H has the same name"),
            Detail::PairBehindEnd { pair } => {
                format!("pair {pair} stands behind a block FFH, which ends the list of pairs")
            }
            Detail::Marker { marker } => format!("the marker (byte 1EH) is {marker:02X}H, neither FEH nor FFH"),
            Detail::TooFewRuns { runs } => {
                format!("an extension follows (marker FEH), but only {} stand here", counted(runs, "run"))
            }
            Detail::LinkToNoSlot { link } => {
                format!("the link (byte 1FH) leads to {link:02X}H, no slot of this directory")
            }
            Detail::LinkToUnused { link } => {
                format!("the link (byte 1FH) leads to slot {link:02X}H, which is not in use")
            }
            Detail::LinkToNoExtension { link } => {
                format!("the link (byte 1FH) leads to slot {link:02X}H, which is no extension")
            }
            Detail::InNoChain => "the extension is in no file's chain".to_string(),
            Detail::MetTwice { first, second } => {
                format!("two links lead to the extension, from slots {first:02X}H and {second:02X}H")
            }
            Detail::ExtensionFlags { flags } => {
                format!("byte 00 of the extension is {flags:02X}H, not {:02X}H", RawEntry::EXTENSION_FLAGS)
            }
            Detail::BackLink { back, before } => {
                format!("the extension points back (byte 01) to {back:02X}H, but the link is slot {before:02X}H's")
            }
            Detail::NoRun => "the extension has no run".to_string(),
            Detail::UnitTooHigh { run, unit, block } => {
                let units = match reading.g.units {
                    1 => "one unit, 0".to_string(),
                    units => format!("units 0 to {}", units - 1),
                };
                format!("run {run} begins at unit {unit} of block {block}, but a block has {units}")
            }
            Detail::RunPastEnd { run, first, last } => {
                let end = reading.granules() - 1;
                format!("run {run} has granules {first} to {last}, but the disk's last is {end}")
            }
            Detail::Free { ref granules, run } => {
                let place = granules.first().map(|&granule| gat(granule)).unwrap_or_default();
                let from = if granules.len() == 1 { "" } else { "from " };
                format!("{} of run {run} {} free in the GAT ({from}{place})", listed(granules), is(granules))
            }
            Detail::TwiceHere { granule, first, second } => {
                format!("granule {granule} is in run {first} and in run {second} of this entry")
            }
            Detail::AlsoIn { ref granules, lower } => {
                let whose = reading.name_of(lower).map(|name| format!(" ({name})")).unwrap_or_default();
                format!("{} {} also in slot {lower:02X}H{whose}", listed(granules), is(granules))
            }
            Detail::NoSectors { end } => format!("the sector count is 0, but the end byte {end}"),
            Detail::TooLarge { size, granules } => {
                let needed = counted(reading.g.granules_for(size), "granule");
                format!("a size of {size} bytes needs {needed}, the runs have {granules}")
            }
            Detail::OnDirectory { ref granules, run } => {
                let these = listed(granules);
                format!("{these} of run {run} {} the directory's, but the file has no system flag", is(granules))
            }
            Detail::DirectoryFree { granule } => {
                format!("granule {granule} is the directory's, but free in the GAT ({})", gat(granule))
            }
        }
    }
}

fn counted(number: usize, thing: &str) -> String {
    format!("{number} {thing}{}", if number == 1 { "" } else { "s" })
}

fn is(granules: &[usize]) -> &'static str {
    match granules {
        [_] => "is",
        _ => "are",
    }
}

/// `granule 3`, `granules 3 to 5 and 9`.
pub(super) fn listed(granules: &[usize]) -> String {
    let mut stretches: Vec<(usize, usize)> = Vec::new();
    for &granule in granules {
        match stretches.last_mut() {
            Some((_, last)) if *last + 1 == granule => *last = granule,
            _ => stretches.push((granule, granule)),
        }
    }
    let parts: Vec<String> = stretches
        .iter()
        .map(|&(first, last)| if first == last { first.to_string() } else { format!("{first} to {last}") })
        .collect();
    let joined = match parts.as_slice() {
        [] => "none".to_string(),
        [one] => one.clone(),
        [rest @ .., last] => format!("{} and {last}", rest.join(", ")),
    };
    format!("granule{} {joined}", if granules.len() == 1 { "" } else { "s" })
}

#[cfg(test)]
mod tests {
    use super::listed;

    #[test]
    fn granules_in_words() {
        assert_eq!(listed(&[3]), "granule 3");
        assert_eq!(listed(&[3, 4]), "granules 3 to 4");
        assert_eq!(listed(&[9, 3, 4, 5, 12]), "granules 9, 3 to 5 and 12");
    }
}
