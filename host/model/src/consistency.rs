//! "A consistent disk": each sentence of the paragraph is one test here, and each test is made on
//! every disk, whatever the others found. A disk is consistent if no test finds a fault.

use crate::directory::{
    chain, directory_granules, directory_sectors, entry, files, has_slot, hit, owned, slots, taken,
    EXTENSION_FLAGS, MARKER_LAST, MARKER_LINK, PAIRS,
};
use crate::geometry::Geometry;
use crate::names::{hash, well_formed};

/// What a sentence of the paragraph forbids.
#[derive(Clone, Copy, Debug, PartialEq, Eq, Hash, PartialOrd, Ord)]
pub enum Clause {
    /// "The 1FH byte is allowed"
    LengthByte,
    /// "and the directory fits the image."
    DirectoryFits,
    /// "A slot's HIT byte is nonzero exactly if its entry is in use."
    HitAgainstEntry,
    /// "Names of in-use primary entries are well formed"
    NameForm,
    /// "and differ;"
    NamesDiffer,
    /// "bit 5 is zero;"
    BitFive,
    /// "HIT bytes equal the hashes.", for primary entries
    FileHash,
    /// "An extension's HIT byte is its file's hash."
    ExtensionHash,
    /// "Each in-use extension belongs to exactly one file's chain,"
    OneChain,
    /// "has byte 00 equal to 90H"
    ExtensionFlags,
    /// "points back correctly"
    PointsBack,
    /// "and has at least one run."
    ExtensionRun,
    /// "Each FEH link leads to such an extension."
    LinkLeads,
    /// "Each entry before the last of a chain has four runs;"
    FourRuns,
    /// "markers are FEH or FFH."
    Marker,
    /// "After an FFH block every later pair of that entry starts with FFH."
    PairOrder,
    /// "Runs lie on the disk,"
    RunOnDisk,
    /// "their first unit is below units per block,"
    FirstUnit,
    /// "their GAT bits are set,"
    RunTaken,
    /// "and no granule is in two runs."
    RunsDisjoint,
    /// "n = 0 only with e = 0;"
    SizeForm,
    /// "the size fits the granules owned."
    SizeFits,
    /// "Directory granules are set in the GAT"
    DirectoryTaken,
    /// "and in no run of a file without the system flag."
    DirectoryOwner,
}

pub const CLAUSES: [Clause; 24] = [
    Clause::LengthByte,
    Clause::DirectoryFits,
    Clause::HitAgainstEntry,
    Clause::NameForm,
    Clause::NamesDiffer,
    Clause::BitFive,
    Clause::FileHash,
    Clause::ExtensionHash,
    Clause::OneChain,
    Clause::ExtensionFlags,
    Clause::PointsBack,
    Clause::ExtensionRun,
    Clause::LinkLeads,
    Clause::FourRuns,
    Clause::Marker,
    Clause::PairOrder,
    Clause::RunOnDisk,
    Clause::FirstUnit,
    Clause::RunTaken,
    Clause::RunsDisjoint,
    Clause::SizeForm,
    Clause::SizeFits,
    Clause::DirectoryTaken,
    Clause::DirectoryOwner,
];

pub fn consistent(image: &[u8], g: &Geometry) -> bool {
    faults(image, g).is_empty()
}

/// All clauses that an image of fitting geometry breaks.
pub fn faults(image: &[u8], g: &Geometry) -> Vec<Clause> {
    let Some(d) = directory_sectors(image, g) else {
        return vec![Clause::LengthByte];
    };
    if g.start + d > g.sectors() {
        return vec![Clause::DirectoryFits];
    }
    let mut found = Vec::new();
    let mut hold = |clause: Clause, holds: bool| {
        if !holds && !found.contains(&clause) {
            found.push(clause);
        }
    };

    // Every slot by itself.
    for slot in slots(d) {
        let this = entry(image, g, slot);
        hold(Clause::HitAgainstEntry, (hit(image, g, slot) != 0) == this.in_use());
        if !this.in_use() {
            continue;
        }
        if this.is_extension() {
            hold(Clause::ExtensionFlags, this.0[0] == EXTENSION_FLAGS);
            hold(Clause::ExtensionRun, this.pair(0).is_some());
        } else {
            hold(Clause::NameForm, well_formed(&this.name()));
            hold(Clause::BitFive, !this.bit_five());
            hold(Clause::FileHash, hit(image, g, slot) == hash(&this.name()));
            hold(Clause::SizeForm, this.size().is_some());
        }
        hold(Clause::Marker, [MARKER_LAST, MARKER_LINK].contains(&this.marker()));
        if this.marker() == MARKER_LINK {
            let link = this.link();
            let leads = has_slot(d, link) && {
                let after = entry(image, g, link);
                after.in_use() && after.is_extension()
            };
            hold(Clause::LinkLeads, leads);
            // An entry with an extension behind it is not the last of its chain.
            hold(Clause::FourRuns, (0..PAIRS).all(|i| this.pair(i).is_some()));
            if leads {
                hold(Clause::PointsBack, entry(image, g, link).slot_before() == slot);
            }
        }
        for i in 1..PAIRS {
            hold(Clause::PairOrder, this.pair(i).is_none() || this.pair(i - 1).is_some());
        }
    }

    // Names against one another.
    let all_files = files(image, g, d);
    for (i, &first) in all_files.iter().enumerate() {
        for &second in &all_files[i + 1..] {
            hold(Clause::NamesDiffer, entry(image, g, first).name() != entry(image, g, second).name());
        }
    }

    // Extensions against the chains.
    let mut meetings = vec![0usize; 256];
    for &file in &all_files {
        for &slot in &chain(image, g, d, file)[1..] {
            meetings[slot as usize] += 1;
            hold(Clause::ExtensionHash, hit(image, g, slot) == hash(&entry(image, g, file).name()));
        }
    }
    for slot in slots(d) {
        let this = entry(image, g, slot);
        if this.in_use() && this.is_extension() {
            hold(Clause::OneChain, meetings[slot as usize] == 1);
        }
    }

    // Runs against the disk, the GAT and one another: all pairs of all entries in use.
    let mut runs_with = vec![0usize; g.granules()];
    for slot in slots(d) {
        let this = entry(image, g, slot);
        if !this.in_use() {
            continue;
        }
        for pair in (0..PAIRS).filter_map(|i| this.pair(i)) {
            let unit_good = (pair.unit as usize) < g.units;
            let on_disk = (pair.block as usize) < g.blocks && pair.run(g).end <= g.granules();
            hold(Clause::FirstUnit, unit_good);
            hold(Clause::RunOnDisk, on_disk);
            if on_disk && unit_good {
                for granule in pair.run(g) {
                    hold(Clause::RunTaken, taken(image, g, granule));
                    runs_with[granule] += 1;
                    hold(Clause::RunsDisjoint, runs_with[granule] == 1);
                }
            }
        }
    }

    // Files against their granules and the directory's.
    for &file in &all_files {
        let granules = owned(image, g, d, file);
        if let Some(size) = entry(image, g, file).size() {
            hold(Clause::SizeFits, size <= granules.len() * g.granule_bytes());
        }
        if !entry(image, g, file).is_system() {
            let of_directory = granules.iter().any(|granule| directory_granules(g, d).contains(granule));
            hold(Clause::DirectoryOwner, !of_directory);
        }
    }
    for granule in directory_granules(g, d) {
        hold(Clause::DirectoryTaken, taken(image, g, granule));
    }
    found
}
