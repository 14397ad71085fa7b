use super::detail::Detail;
use super::evidence::{name_by_hit, own_entries, put_back, why_not, why_not_file, wrong_link, Evidence};
use super::faults::at;
use super::remedy::Remedy;
use super::Reading;
use crate::{Fault, FaultKind};
use alloc::vec::Vec;

/// What a choice goes by, besides the copy as it stands.
pub(super) struct Grounds {
    /// What spoke against each file before anything was changed.
    pub(super) evidence: Evidence,
    /// A file that is to stay where there is a choice.
    pub(super) preferred: Option<u8>,
    /// Slots whose HIT byte was put to a hash already. It is not done twice, so that mending ends.
    pub(super) hits_put: Vec<u8>,
}

/// Why the file of a slot in use cannot stay, if it cannot.
pub(super) fn why_out(now: &Reading, slot: u8) -> Option<(u8, Detail)> {
    why_not(now, slot).or_else(|| now.file_of(slot).and_then(|file| why_not_file(now, file)))
}

/// The smallest change that takes away a fault which the library told of a copy with an allowed directory length.
pub(super) fn choose(now: &Reading, grounds: &Grounds, fault: Fault) -> Remedy {
    let slot = match fault.slot {
        Some(slot) => slot,
        None => {
            let clear = now.directory_granules().filter(|&granule| !now.taken(granule));
            return Remedy::GatBitsSet { granules: clear.collect() };
        }
    };
    if !now.entry(slot).in_use() {
        return match put_back(now, slot) {
            Some(_) => Remedy::PutBack { slot },
            None => Remedy::HitCleared { slot },
        };
    }
    let detail = at(now, slot).into_iter().find(|detail| detail.kind() == fault.kind);
    if detail == Some(Detail::InNoChain) {
        if let Some(lost) = now.slots().find(|&lost| put_back(now, lost).map_or(false, |chain| chain.contains(&slot))) {
            return Remedy::PutBack { slot: lost };
        }
    }
    if let (Some(Detail::MetTwice { .. }), Some(wrong)) = (&detail, wrong_link(now, slot)) {
        return take_out(now, wrong);
    }
    let file = now.file_of(slot);
    if why_out(now, slot).is_some() {
        return take_out(now, slot);
    }
    // Its HIT byte, and its extensions', may be right and the name wrong.
    if let Some((file, (place, byte))) = file.and_then(|file| Some((file, name_by_hit(now, file)?))) {
        return Remedy::NamePut { slot: file, place, byte };
    }
    match (fault.kind, detail) {
        (FaultKind::HitAgainstEntry, Some(_)) if !grounds.hits_put.contains(&slot) => match file {
            Some(file) => Remedy::HitPut { slot, hash: now.entry(file).name().hash() },
            None => take_out(now, slot),
        },
        (_, Some(Detail::BitFive { .. })) => Remedy::BitFiveCleared { slot },
        (_, Some(Detail::Free { .. })) => {
            Remedy::GatBitsSet { granules: now.on_disk(slot).filter(|&granule| !now.taken(granule)).collect() }
        }
        (_, Some(Detail::SameName { lower } | Detail::AlsoIn { lower, .. })) => {
            take_out(now, goes(now, grounds, slot, lower))
        }
        _ => take_out(now, slot),
    }
}

/// Which of two slots goes that cannot both stay: the one whose file cannot stay anyway; else not the preferred one; else the one
/// against whose file more speaks; else the higher one, which is the one that the library names.
fn goes(now: &Reading, grounds: &Grounds, slot: u8, lower: u8) -> u8 {
    let against = |slot: u8| {
        let file = now.file_of(slot).unwrap_or(slot);
        let lost = now.file_of(slot).map_or(true, |file| why_not_file(now, file).is_some());
        (lost, grounds.preferred != Some(file), grounds.evidence.strikes(file), slot)
    };
    core::cmp::max_by_key(slot, lower, |&slot| against(slot))
}

/// A slot taken out, and with it the file that it belongs to, which could not stay without it.
fn take_out(now: &Reading, slot: u8) -> Remedy {
    let mut slots = now.file_of(slot).map(|file| own_entries(now, file)).unwrap_or_default();
    if !slots.contains(&slot) {
        slots.insert(0, slot);
    }
    Remedy::TakenOut { slots }
}
