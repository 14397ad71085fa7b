//! "Say what is inconsistent, and where" (02 §2): the one fault that is told of a disk, from 02's words.
//! Every slot is judged by itself for each kind, after one walk along every file's chain; the lowest
//! slot at fault is told, and at that slot the first kind.

use crate::directory::{
    directory_granules, directory_sectors, entry, files, has_slot, hit, slots, taken, Entry, EXTENSION_FLAGS,
    MARKER_LAST, MARKER_LINK, PAIRS,
};
use crate::geometry::Geometry;
use crate::names::{hash, well_formed};

/// "Refusals: 21 to 30 in this order, in 2's place."
#[derive(Clone, Copy, Debug, PartialEq, Eq, Hash, PartialOrd, Ord)]
pub enum Kind {
    DirectoryLength = 21,
    HitAgainstEntry,
    Name,
    DuplicateName,
    Chain,
    RunOffDisk,
    GatBitMissing,
    GranuleShared,
    Size,
    DirectoryGranule,
}

/// The numbers of the kinds.
pub fn numbers() -> std::ops::RangeInclusive<u8> {
    Kind::DirectoryLength as u8..=Kind::DirectoryGranule as u8
}

/// The kinds that a slot can be at fault by, in their order.
const AT_A_SLOT: [Kind; 9] = [
    Kind::HitAgainstEntry,
    Kind::Name,
    Kind::DuplicateName,
    Kind::Chain,
    Kind::RunOffDisk,
    Kind::GatBitMissing,
    Kind::GranuleShared,
    Kind::Size,
    Kind::DirectoryGranule,
];

/// A fault, with its slot where it has one.
#[derive(Clone, Copy, Debug, PartialEq, Eq)]
pub struct Fault {
    pub kind: Kind,
    pub slot: Option<u8>,
}

/// The fault of an image of fitting geometry; none where the disk is consistent.
pub fn fault(image: &[u8], g: &Geometry) -> Option<Fault> {
    // "Directory length comes before all slots, ... without a slot."
    let d = match directory_sectors(image, g) {
        Some(d) if g.start + d <= g.sectors() => d,
        _ => return Some(Fault { kind: Kind::DirectoryLength, slot: None }),
    };
    let seen = Seen::of(image, g, d);
    // "Report the lowest slot at fault ..., and at that slot the first kind in this order."
    for slot in slots(d) {
        if let Some(&kind) = AT_A_SLOT.iter().find(|&&kind| seen.at_fault(kind, slot)) {
            return Some(Fault { kind, slot: Some(slot) });
        }
    }
    // "a clear directory granule after them, ... without a slot."
    let clear = directory_granules(g, d).any(|granule| !taken(image, g, granule));
    clear.then_some(Fault { kind: Kind::DirectoryGranule, slot: None })
}

/// What the walks along all files' chains met.
struct Seen<'a> {
    image: &'a [u8],
    g: &'a Geometry,
    d: usize,
    files: Vec<u8>,
    /// How often a walk came to the slot.
    meetings: [usize; 256],
    /// The file whose walk came first, and the slot that it came from.
    first: [Option<(u8, u8)>; 256],
    /// The entries of each file's walk, those of a second meeting too; whether it came to an end.
    walks: Vec<(Vec<u8>, bool)>,
}

impl<'a> Seen<'a> {
    fn of(image: &'a [u8], g: &'a Geometry, d: usize) -> Self {
        let files = files(image, g, d);
        let mut seen = Seen { image, g, d, files, meetings: [0; 256], first: [None; 256], walks: Vec::new() };
        for file in seen.files.clone() {
            let walk = seen.walk(file);
            seen.walks.push(walk);
        }
        seen
    }

    fn entry(&self, slot: u8) -> Entry {
        entry(self.image, self.g, slot)
    }

    /// "A walk passes badly formed extensions and stops at an entry with a bad marker, pairs or link,
    /// and at a second meeting."
    fn walk(&mut self, file: u8) -> (Vec<u8>, bool) {
        let mut walked = vec![file];
        let mut at = file;
        loop {
            if self.bad_entry(at) {
                return (walked, false);
            }
            if self.entry(at).marker() == MARKER_LAST {
                return (walked, true);
            }
            let next = self.entry(at).link();
            walked.push(next);
            self.meetings[next as usize] += 1;
            if self.meetings[next as usize] > 1 {
                return (walked, false);
            }
            self.first[next as usize] = Some((file, at));
            at = next;
        }
    }

    /// "an in-use extension"
    fn extension_in_use(&self, slot: u8) -> bool {
        has_slot(self.d, slot) && self.entry(slot).in_use() && self.entry(slot).is_extension()
    }

    /// "the bad marker, pairs or link (not to an in-use extension)": pairs out of order, or fewer than
    /// four runs before a further entry.
    fn bad_entry(&self, slot: u8) -> bool {
        let this = self.entry(slot);
        let out_of_order = (1..PAIRS).any(|i| this.pair(i).is_some() && this.pair(i - 1).is_none());
        out_of_order
            || match this.marker() {
                MARKER_LAST => false,
                MARKER_LINK => this.pairs().len() < PAIRS || !self.extension_in_use(this.link()),
                _ => true,
            }
    }

    /// "the extension met in no file's chain, met twice, or badly formed"
    fn bad_extension(&self, slot: u8) -> bool {
        let this = self.entry(slot);
        let Some((_, before)) = self.first[slot as usize] else { return true };
        self.meetings[slot as usize] > 1
            || this.0[0] != EXTENSION_FLAGS
            || this.slot_before() != before
            || this.pairs().is_empty()
    }

    fn chain_fault(&self, slot: u8) -> bool {
        let this = self.entry(slot);
        this.in_use() && (self.bad_entry(slot) || this.is_extension() && self.bad_extension(slot))
    }

    /// The file that an entry in use belongs to, where that can be told.
    fn file_of(&self, slot: u8) -> Option<u8> {
        if self.entry(slot).is_extension() {
            self.first[slot as usize].map(|(file, _)| file)
        } else {
            Some(slot)
        }
    }

    /// The granules of an entry's runs, as its pairs name them.
    fn granules(&self, slot: u8) -> Vec<usize> {
        self.entry(slot).pairs().iter().flat_map(|pair| pair.run(self.g)).collect()
    }

    fn at_fault(&self, kind: Kind, slot: u8) -> bool {
        let this = self.entry(slot);
        if kind == Kind::HitAgainstEntry {
            return self.hit_fault(slot);
        }
        if !this.in_use() {
            return false;
        }
        let is_file = !this.is_extension();
        let mut runs = this.pairs().into_iter();
        match kind {
            // "Bit 5 counts under name"
            Kind::Name => is_file && (!well_formed(&this.name()) || this.bit_five()),
            // "for a pair of slots the higher one"
            Kind::DuplicateName => {
                is_file && self.files.iter().any(|&lower| lower < slot && self.entry(lower).name() == this.name())
            }
            Kind::Chain => self.chain_fault(slot),
            // "a first unit too high under run off the disk"
            Kind::RunOffDisk => {
                runs.any(|pair| pair.unit as usize >= self.g.units || pair.run(self.g).end > self.g.granules())
            }
            Kind::GatBitMissing => self
                .granules(slot)
                .iter()
                .any(|&granule| granule < self.g.granules() && !taken(self.image, self.g, granule)),
            Kind::GranuleShared => self.shares(slot),
            Kind::Size => is_file && self.size_fault(slot),
            // "in no run of a file without the system flag"; "a run's fault to the entry that holds it"
            Kind::DirectoryGranule => {
                let owner_is_system = self.file_of(slot).is_some_and(|file| self.entry(file).is_system());
                !owner_is_system
                    && self
                        .granules(slot)
                        .iter()
                        .any(|granule| directory_granules(self.g, self.d).contains(granule))
            }
            Kind::DirectoryLength | Kind::HitAgainstEntry => unreachable!("not asked of an entry in use"),
        }
    }

    /// A HIT byte nonzero though the entry is not in use, or the other way; or another hash than its
    /// file's. The hash of an extension at fault by its chain "isn't tested".
    fn hit_fault(&self, slot: u8) -> bool {
        let this = self.entry(slot);
        let byte = hit(self.image, self.g, slot);
        if !this.in_use() || byte == 0 {
            return this.in_use() || byte != 0;
        }
        if this.is_extension() && self.bad_extension(slot) {
            return false;
        }
        self.file_of(slot).is_some_and(|file| byte != hash(&self.entry(file).name()))
    }

    /// A granule in a run of a lower slot, or twice in this one's.
    fn shares(&self, slot: u8) -> bool {
        let own = self.granules(slot);
        let twice = own.iter().enumerate().any(|(i, granule)| own[..i].contains(granule));
        twice
            || slots(self.d)
                .filter(|&lower| lower < slot && self.entry(lower).in_use())
                .any(|lower| self.granules(lower).iter().any(|granule| own.contains(granule)))
    }

    /// "size to the primary entry, granules counted as the pairs name them, and only where its chain
    /// is whole"
    fn size_fault(&self, file: u8) -> bool {
        let at = self.files.iter().position(|&other| other == file).expect("a file");
        let (walked, ended) = &self.walks[at];
        if !ended || walked.iter().any(|&slot| self.chain_fault(slot)) {
            return false;
        }
        let granules: usize = walked.iter().map(|&slot| self.granules(slot).len()).sum();
        self.entry(file).size().is_none_or(|size| size > granules * self.g.granule_bytes())
    }
}
