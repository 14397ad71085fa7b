//! Bring back a killed series: document 02, §11. "Given a slot, rebuild the file if bit 5 is zero, its name
//! is well formed and not in use, its chain (extensions' byte 00 now 80H, back links right) is whole by
//! 01's rules, its runs lie on the disk with every granule free and none twice, and the size fits."

use crate::calls::{number, tested, Number, LEVEL, RANGE};
use crate::directory::{
    entry, files, has_slot, hit_place, put_entry, set_taken, slots, taken, MARKER_LAST, MARKER_LINK, PAIRS,
};
use crate::geometry::Geometry;
use crate::names::{hash, well_formed};

/// "17 slot in use"
pub const SLOT_IN_USE: Number = 17;
/// "18 nothing whole to bring back (an extension's slot too)"
pub const NOTHING_WHOLE: Number = 18;
/// "19 name in use"
pub const NAME_IN_USE: Number = 19;
/// "20 a granule is taken"
pub const GRANULE_TAKEN: Number = 20;

/// "extensions' byte 00 now 80H"
const KILLED_EXTENSION: u8 = 0x80;
const IN_USE: u8 = 1 << 4;

/// A killed file: its slots, in the order of its chain, and its granules, in the order of its bytes.
struct Killed {
    slots: Vec<u8>,
    granules: Vec<usize>,
}

/// The slots of a killed file's chain; None unless it is whole by 01's rules: "Each FEH link leads to such an
/// extension. Each entry before the last of a chain has four runs; markers are FEH or FFH. After an FFH block
/// every later pair of that entry starts with FFH", and an extension "points back correctly and has at least
/// one run".
fn whole_chain(image: &[u8], g: &Geometry, d: usize, first: u8) -> Option<Vec<u8>> {
    let mut walked = vec![first];
    loop {
        let last = *walked.last().expect("the first slot");
        let this = entry(image, g, last);
        let pairs: Vec<bool> = (0..PAIRS).map(|i| this.pair(i).is_some()).collect();
        if pairs.windows(2).any(|two| !two[0] && two[1]) {
            return None;
        }
        match this.marker() {
            MARKER_LAST => return Some(walked),
            MARKER_LINK if pairs[PAIRS - 1] => {}
            _ => return None,
        }
        let next = this.link();
        if !has_slot(d, next) {
            return None;
        }
        let after = entry(image, g, next);
        if after.0[0x00] != KILLED_EXTENSION || after.slot_before() != last || after.pair(0).is_none() {
            return None;
        }
        // "no chain is longer than the number of slots"
        if walked.len() == slots(d).count() {
            return None;
        }
        walked.push(next);
    }
}

/// The killed file at a slot; None where there is nothing whole.
fn killed(image: &[u8], g: &Geometry, d: usize, slot: u8) -> Option<Killed> {
    let this = entry(image, g, slot);
    if this.is_extension() || this.bit_five() || !well_formed(&this.name()) {
        return None;
    }
    let walked = whole_chain(image, g, d, slot)?;
    let mut granules = Vec::new();
    for &slot in &walked {
        for pair in entry(image, g, slot).pairs() {
            if pair.unit as usize >= g.units || pair.run(g).end > g.granules() {
                return None;
            }
            granules.extend(pair.run(g));
        }
    }
    let mut once = granules.clone();
    once.sort_unstable();
    once.dedup();
    let fits = this.size().is_some_and(|size| size <= granules.len() * g.granule_bytes());
    (once.len() == granules.len() && fits).then_some(Killed { slots: walked, granules })
}

/// "Only bit 4 and the HIT bytes of its slots and its granules' GAT bits change; the answer is how many slots
/// and granules." "Refusals, after 2 and 12 (a slot the directory lacks): 17 slot in use, 6 bit 6 set, 18
/// nothing whole to bring back (an extension's slot too), 19 name in use, 20 a granule is taken."
pub fn bring_back(image: &mut [u8], g: &Geometry, slot: usize, slots: &mut usize, granules: &mut usize) -> Number {
    (*slots, *granules) = (0, 0);
    number((|| {
        let d = tested(image, g)?;
        let slot = u8::try_from(slot).ok().filter(|&slot| has_slot(d, slot)).ok_or(RANGE)?;
        let this = entry(image, g, slot);
        if this.in_use() {
            return Err(SLOT_IN_USE);
        }
        if this.is_system() {
            return Err(LEVEL);
        }
        let file = killed(image, g, d, slot).ok_or(NOTHING_WHOLE)?;
        if files(image, g, d).iter().any(|&other| entry(image, g, other).name() == this.name()) {
            return Err(NAME_IN_USE);
        }
        if file.granules.iter().any(|&granule| taken(image, g, granule)) {
            return Err(GRANULE_TAKEN);
        }
        for &slot in &file.slots {
            let mut back = entry(image, g, slot);
            back.0[0x00] |= IN_USE;
            put_entry(image, g, slot, &back);
            image[hit_place(g, slot)] = hash(&this.name());
        }
        for &granule in &file.granules {
            set_taken(image, g, granule, true);
        }
        (*slots, *granules) = (file.slots.len(), file.granules.len());
        Ok(())
    })())
}
