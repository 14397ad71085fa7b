use super::detail::Detail;
use super::entry::RawEntry;
use super::Reading;
use alloc::vec::Vec;

/// An extension met by the walk along a file's chain.
#[derive(Clone, Copy, Debug, PartialEq, Eq)]
pub(crate) struct Meeting {
    /// The file whose chain is walked.
    pub(crate) file: u8,
    /// The extension.
    pub(crate) slot: u8,
    /// The entry whose link leads there.
    pub(crate) before: u8,
}

/// The walks along the chains of all files, by rising slot: "A walk passes badly formed extensions and stops at an entry with a
/// bad marker, pairs or link, and at a second meeting."
pub(crate) struct Walks {
    steps: Vec<Meeting>,
    /// Files whose walk did not come to an end.
    broken: Vec<u8>,
}

impl Walks {
    pub(crate) fn none() -> Walks {
        Walks { steps: Vec::new(), broken: Vec::new() }
    }

    pub(crate) fn along(reading: &Reading) -> Walks {
        let mut walks = Walks::none();
        let mut met = [false; 256];
        for file in reading.files() {
            let mut before = file;
            // Each turn but the last marks another slot as met.
            loop {
                if bad_entry(reading, before).is_some() {
                    walks.broken.push(file);
                    break;
                }
                let entry = reading.entry(before);
                if entry.marker() != RawEntry::LINKED {
                    break;
                }
                let slot = entry.link();
                walks.steps.push(Meeting { file, slot, before });
                if core::mem::replace(&mut met[usize::from(slot)], true) {
                    walks.broken.push(file);
                    break;
                }
                before = slot;
            }
        }
        walks
    }

    /// The meetings with an extension, in the order of the walks.
    pub(crate) fn meetings(&self, slot: u8) -> impl Iterator<Item = Meeting> + '_ {
        self.steps.iter().copied().filter(move |meeting| meeting.slot == slot)
    }

    /// What the walk along a file's chain meets, in its order.
    pub(crate) fn of_file(&self, file: u8) -> impl Iterator<Item = Meeting> + '_ {
        self.steps.iter().copied().filter(move |meeting| meeting.file == file)
    }

    /// Whether a file's walk came to an end.
    pub(crate) fn ends(&self, file: u8) -> bool {
        !self.broken.contains(&file)
    }
}

/// What is wrong with an entry's marker, pairs or link.
pub(crate) fn bad_entry(reading: &Reading, slot: u8) -> Option<Detail> {
    let entry = reading.entry(slot);
    if let Some(pair) = entry.late_pair() {
        return Some(Detail::PairBehindEnd { pair });
    }
    match (entry.marker(), entry.runs_counted(), entry.link()) {
        (RawEntry::LAST, ..) => None,
        (RawEntry::LINKED, RawEntry::PAIRS, link) if !reading.has_slot(link) => Some(Detail::LinkToNoSlot { link }),
        (RawEntry::LINKED, RawEntry::PAIRS, link) if !reading.entry(link).in_use() => {
            Some(Detail::LinkToUnused { link })
        }
        (RawEntry::LINKED, RawEntry::PAIRS, link) if !reading.entry(link).is_extension() => {
            Some(Detail::LinkToNoExtension { link })
        }
        (RawEntry::LINKED, RawEntry::PAIRS, _) => None,
        (RawEntry::LINKED, runs, _) => Some(Detail::TooFewRuns { runs }),
        (marker, ..) => Some(Detail::Marker { marker }),
    }
}

/// What is wrong with an extension in use, apart from its marker, pairs and link.
pub(crate) fn bad_extension(reading: &Reading, slot: u8) -> Vec<Detail> {
    let entry = reading.entry(slot);
    let from: Vec<u8> = reading.walks.meetings(slot).map(|meeting| meeting.before).collect();
    let mut found = Vec::new();
    match from.as_slice() {
        [] => found.push(Detail::InNoChain),
        [first, second, ..] => found.push(Detail::MetTwice { first: *first, second: *second }),
        [_] => {}
    }
    if !from.is_empty() && entry.flags() != RawEntry::EXTENSION_FLAGS {
        found.push(Detail::ExtensionFlags { flags: entry.flags() });
    }
    if let [before] = from.as_slice() {
        if entry.back() != *before {
            found.push(Detail::BackLink { back: entry.back(), before: *before });
        }
    }
    if !from.is_empty() && entry.runs_counted() == 0 {
        found.push(Detail::NoRun);
    }
    found
}
