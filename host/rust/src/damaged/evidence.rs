use super::detail::Detail;
use super::entry::RawEntry;
use super::faults::{at, found};
use super::walks::bad_entry;
use super::Reading;
use crate::{FaultKind, Name};
use alloc::collections::BTreeSet;
use alloc::vec::Vec;

/// How much speaks against each file of the damaged image, before anything was changed.
pub(super) struct Evidence {
    /// By slot; of an extension in no chain by its own.
    strikes: [usize; 256],
}

impl Evidence {
    /// One for each kind of fault at one of its entries, one for each other file that has a granule of it too, and one if it
    /// owns more granules or fewer than its size needs.
    pub(super) fn of(original: &Reading) -> Evidence {
        let whose = |slot: u8| original.file_of(slot).unwrap_or(slot);
        let mut kinds: BTreeSet<(u8, FaultKind)> = BTreeSet::new();
        let mut sharing: BTreeSet<(u8, u8)> = BTreeSet::new();
        for found in found(original) {
            let slot = match found.told.fault.slot {
                Some(slot) => slot,
                None => continue,
            };
            match found.detail {
                Detail::AlsoIn { lower, .. } => {
                    sharing.extend([(whose(slot), whose(lower)), (whose(lower), whose(slot))]);
                }
                Detail::SameName { .. } | Detail::TwiceHere { .. } => {}
                _ => {
                    kinds.insert((whose(slot), found.told.fault.kind));
                }
            }
        }
        let mut strikes = [0; 256];
        for slot in kinds.into_iter().map(|(slot, _)| slot).chain(sharing.into_iter().map(|(slot, _)| slot)) {
            strikes[usize::from(slot)] += 1;
        }
        for file in original.files().filter(|&file| !fits_exactly(original, file)) {
            strikes[usize::from(file)] += 1;
        }
        Evidence { strikes }
    }

    pub(super) fn strikes(&self, slot: u8) -> usize {
        self.strikes[usize::from(slot)]
    }
}

/// Whether a file owns exactly the granules that its size needs.
fn fits_exactly(reading: &Reading, file: u8) -> bool {
    let named = |slot: u8| reading.entry(slot).granules_named(reading.g);
    let owned = named(file) + reading.walks.of_file(file).map(|meeting| named(meeting.slot)).sum::<usize>();
    reading.entry(file).size().map(|size| reading.g.granules_for(size)) == Some(owned)
}

/// The entries that are a file's own: the primary one, and of its chain those that point back to where the link stands, or that
/// no other link leads to.
pub(super) fn own_entries(reading: &Reading, file: u8) -> Vec<u8> {
    let own = reading.walks.of_file(file).filter(|meeting| {
        reading.entry(meeting.slot).back() == meeting.before || reading.walks.meetings(meeting.slot).count() == 1
    });
    let mut slots: Vec<u8> = core::iter::once(file).chain(own.map(|meeting| meeting.slot)).collect();
    // A chain that runs into itself comes by a slot again.
    let mut seen = BTreeSet::new();
    slots.retain(|&slot| seen.insert(slot));
    slots
}

/// Of the links that lead to an extension one that is wrong, since the extension points back to another of them.
pub(super) fn wrong_link(reading: &Reading, extension: u8) -> Option<u8> {
    let back = reading.entry(extension).back();
    let from: Vec<u8> = reading.walks.meetings(extension).map(|meeting| meeting.before).collect();
    let wrong = from.iter().copied().find(|&before| before != back);
    wrong.filter(|_| from.contains(&back))
}

/// The one byte, as its place in the name and its value, with which the name of a file that is none becomes a name whose hash is
/// the file's HIT byte. None where no byte does it, or more than one, or where another file has that name.
pub(super) fn name_by_hit(reading: &Reading, file: u8) -> Option<(usize, u8)> {
    let (entry, hit) = (reading.entry(file), reading.hit(file));
    if !entry.is_file() || entry.name().is_well_formed() || hit == 0 {
        return None;
    }
    let with = |place: usize, byte: u8| {
        let mut bytes = *entry.name().as_bytes();
        bytes[place] = byte;
        Name::from_bytes(bytes)
    };
    // The byte at a place goes into the hash turned by as many bits as bytes stand from there on, so it can be told from the others
    // and the hash. A hash of 1 may have been 0.
    let sums = [Some(hit), (hit == 1).then_some(0)].into_iter().flatten();
    let all = sums.flat_map(|sum| (0..Name::LEN).map(move |place| (sum, place)));
    let all = all.map(|(sum, place)| {
        let others = with(place, 0).as_bytes().iter().fold(0u8, |sum, byte| (sum ^ byte).rotate_left(1));
        (place, (sum ^ others).rotate_right((Name::LEN - place) as u32))
    });
    let mut fitting = all.filter(|&(place, byte)| {
        let name = with(place, byte);
        name.is_well_formed() && name.hash() == hit
    });
    let (place, byte) = fitting.next()?;
    let taken = reading.files().any(|other| reading.entry(other).name() == with(place, byte));
    (fitting.next().is_none() && !taken).then_some((place, byte))
}

/// Why an entry in use cannot stay: a fault for which its kind allows no smaller change, with the slot that it is told of.
pub(super) fn why_not(reading: &Reading, slot: u8) -> Option<(u8, Detail)> {
    let doom = at(reading, slot).into_iter().find(|detail| match detail {
        Detail::MetTwice { .. } => wrong_link(reading, slot).is_none(),
        Detail::HitZero | Detail::HitOfUnused { .. } | Detail::HitNotHash { .. } => false,
        Detail::NameByte { .. } => name_by_hit(reading, slot).is_none(),
        Detail::BitFive { .. } | Detail::SameName { .. } => false,
        Detail::Free { .. } | Detail::AlsoIn { .. } | Detail::DirectoryFree { .. } => false,
        _ => true,
    });
    // Its link may lead to an extension that is another's.
    let link = reading.entry(slot).link();
    let wrong = || {
        let next = reading.walks.meetings(link).any(|meeting| meeting.before == slot);
        let others = next && wrong_link(reading, link).is_some() && reading.entry(link).back() != slot;
        let twice = |detail: &Detail| matches!(detail, Detail::MetTwice { .. });
        others.then(|| at(reading, link).into_iter().find(twice)).flatten()
    };
    doom.map(|detail| (slot, detail)).or_else(|| wrong().map(|detail| (link, detail)))
}

/// Why a file cannot stay: one of its entries cannot.
pub(super) fn why_not_file(reading: &Reading, file: u8) -> Option<(u8, Detail)> {
    own_entries(reading, file).into_iter().find_map(|slot| why_not(reading, slot))
}

/// Whether an entry's HIT byte says that it is a file, though byte 00 says that it is not in use, or an extension (then one that
/// is in no chain).
pub(super) fn lost_by_flags(reading: &Reading, slot: u8) -> bool {
    let (entry, hit) = (reading.entry(slot), reading.hit(slot));
    let no_file = !entry.in_use() || entry.is_extension() && reading.walks.meetings(slot).next().is_none();
    no_file && hit != 0 && entry.name().is_well_formed() && hit == entry.name().hash()
}

/// The chain of such a file, if everything but byte 00 is as a file's: no other has its name, its chain is whole, its granules
/// are on the disk, taken, nobody else's and not the directory's, and the size fits.
pub(super) fn put_back(reading: &Reading, slot: u8) -> Option<Vec<u8>> {
    let name = reading.entry(slot).name();
    if !lost_by_flags(reading, slot) || reading.files().any(|file| reading.entry(file).name() == name) {
        return None;
    }
    let mut chain = vec![slot];
    let mut last = slot;
    while bad_entry(reading, last).is_none() {
        if reading.entry(last).marker() == RawEntry::LAST {
            return granules_are_its_own(reading, &chain).then_some(chain);
        }
        let next = reading.entry(last).link();
        let entry = reading.entry(next);
        let well_formed = entry.flags() == RawEntry::EXTENSION_FLAGS
            && entry.back() == last
            && entry.runs_counted() > 0
            && reading.walks.meetings(next).next().is_none();
        if !well_formed || chain.contains(&next) {
            return None;
        }
        chain.push(next);
        last = next;
    }
    None
}

fn granules_are_its_own(reading: &Reading, chain: &[u8]) -> bool {
    let mut seen = BTreeSet::new();
    for run in chain.iter().flat_map(|&slot| reading.entry(slot).runs(reading.g)) {
        if run.unit >= reading.g.units || run.last >= reading.granules() {
            return false;
        }
        for granule in run.granules() {
            let others = reading.claims(granule).iter().any(|slot| !chain.contains(slot));
            let directory = reading.directory_granules().contains(&granule);
            if others || directory || !reading.taken(granule) || !seen.insert(granule) {
                return false;
            }
        }
    }
    let size = chain.first().and_then(|&slot| reading.entry(slot).size());
    size.map_or(false, |size| size <= seen.len() * reading.g.granule_bytes())
}
