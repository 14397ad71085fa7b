//! Free granules and slots; granules taken and given back, one at a time.

use crate::directory::{
    chain, entry, hit, hit_place, owned, put_entry, row, s, set_taken, slots, taken, Entry, Pair, ENTRY_BYTES,
    EXTENSION_FLAGS, MARKER_LAST, MARKER_LINK, PAIRS,
};
use crate::geometry::Geometry;
use crate::names::hash;
use std::ops::Range;

/// "A run is 1 to 32 granules".
pub const LONGEST_RUN: usize = 32;

/// "Rows 0 to 3 with s 0 to 7 are kept for system files and never permitted." 02 §4: "On a data disk
/// only slots 00H and 01H are kept."
pub fn permitted(g: &Geometry, slot: u8) -> bool {
    match g.system_disk {
        true => !(row(slot) <= 3 && s(slot) <= 7),
        false => slot != 0x00 && slot != 0x01,
    }
}

/// "the first permitted slot is taken, by rising slot number, of those with HIT byte 0."
pub fn first_permitted_slot(image: &[u8], g: &Geometry, d: usize) -> Option<u8> {
    slots(d).find(|&slot| permitted(g, slot) && hit(image, g, slot) == 0)
}

/// The clear GAT bits in range, by rising granule number.
pub fn free_granules<'a>(image: &'a [u8], g: &'a Geometry) -> impl Iterator<Item = usize> + 'a {
    (0..g.granules()).filter(|&granule| !taken(image, g, granule))
}

/// The free stretches, rising: the granules between one that is taken and the next.
pub fn free_stretches(image: &[u8], g: &Geometry) -> Vec<Range<usize>> {
    let mut stretches = Vec::new();
    let mut first = 0;
    for granule in 0..=g.granules() {
        if granule == g.granules() || taken(image, g, granule) {
            stretches.push(first..granule);
            first = granule + 1;
        }
    }
    stretches
}

/// 02 §5: "the longest free stretch".
pub fn longest_stretch(image: &[u8], g: &Geometry) -> usize {
    free_stretches(image, g).iter().map(|stretch| stretch.len()).max().unwrap_or(0)
}

/// "A set granule in no run is reserved."
pub fn reserved_granules(image: &[u8], g: &Geometry, d: usize) -> Vec<usize> {
    let mut in_run = vec![false; g.granules()];
    for file in crate::directory::files(image, g, d) {
        for granule in owned(image, g, d, file) {
            in_run[granule] = true;
        }
    }
    (0..g.granules()).filter(|&granule| taken(image, g, granule) && !in_run[granule]).collect()
}

/// Why a granule could not be taken.
#[derive(Clone, Copy, Debug, PartialEq, Eq)]
pub enum Short {
    Granule,
    Slot,
}

/// "Granules are taken one at a time: the one just after the last run, if it exists, is free and the
/// run has fewer than 32; else the lowest free one, as a new run. A run beyond the fourth starts an
/// extension in the first permitted slot."
pub fn take_one(image: &mut [u8], g: &Geometry, d: usize, file: u8) -> Result<(), Short> {
    let last_slot = *chain(image, g, d, file).last().expect("the file's own slot");
    let mut last = entry(image, g, last_slot);
    let pairs = last.pairs();

    if let Some(&pair) = pairs.last() {
        let after = pair.run(g).end;
        if pair.run(g).len() < LONGEST_RUN && after < g.granules() && !taken(image, g, after) {
            last.set_pair(pairs.len() - 1, Pair { further: pair.further + 1, ..pair });
            put_entry(image, g, last_slot, &last);
            set_taken(image, g, after, true);
            return Ok(());
        }
    }

    let lowest = free_granules(image, g).next().ok_or(Short::Granule)?;
    start_run(image, g, d, file, lowest..lowest + 1)
}

/// Free granules with consecutive numbers as a new run of the file. "A run beyond the fourth starts an extension in the first
/// permitted slot."
fn start_run(image: &mut [u8], g: &Geometry, d: usize, file: u8, granules: Range<usize>) -> Result<(), Short> {
    let last_slot = *chain(image, g, d, file).last().expect("the file's own slot");
    let mut last = entry(image, g, last_slot);
    let pairs = last.pairs().len();
    let run = Pair { further: (granules.len() - 1) as u8, ..Pair::of_granule(g, granules.start) };
    if pairs < PAIRS {
        last.set_pair(pairs, run);
        put_entry(image, g, last_slot, &last);
    } else {
        let slot = first_permitted_slot(image, g, d).ok_or(Short::Slot)?;
        last.set_link(MARKER_LINK, slot);
        put_entry(image, g, last_slot, &last);
        put_entry(image, g, slot, &extension(last_slot, run));
        image[hit_place(g, slot)] = hash(&entry(image, g, file).name());
    }
    granules.for_each(|granule| set_taken(image, g, granule, true));
    Ok(())
}

/// "Extension: byte 00 is 90H, byte 01 the slot before it in the chain, 02 to 15 zero, 16 to 1F as
/// above; a new one's unused pairs, marker and link are FFH."
fn extension(before: u8, run: Pair) -> Entry {
    let mut new = Entry([0; ENTRY_BYTES]);
    new.0[0x00] = EXTENSION_FLAGS;
    new.0[0x01] = before;
    new.0[0x16..].fill(0xFF);
    new.set_pair(0, run);
    new
}

/// What trim does for each granule too many: the file's last granule is given back. "Emptied pairs
/// become FFH FFH. An emptied extension loses bit 4, its HIT byte becomes 0, its marker and link and
/// those of the entry before it FFH."
pub fn drop_one(image: &mut [u8], g: &Geometry, d: usize, file: u8) {
    let walked = chain(image, g, d, file);
    let last_slot = walked[walked.len() - 1];
    let mut last = entry(image, g, last_slot);
    let pairs = last.pairs();
    let pair = *pairs.last().expect("a file that owns a granule ends in a run");
    set_taken(image, g, pair.run(g).end - 1, false);
    if pair.further > 0 {
        last.set_pair(pairs.len() - 1, Pair { further: pair.further - 1, ..pair });
    } else {
        last.empty_pair(pairs.len() - 1);
        if pairs.len() == 1 && last.is_extension() {
            last.0[0x00] &= !(1 << 4);
            last.set_link(MARKER_LAST, 0xFF);
            image[hit_place(g, last_slot)] = 0;
            let before_slot = walked[walked.len() - 2];
            let mut before = entry(image, g, before_slot);
            before.set_link(MARKER_LAST, 0xFF);
            put_entry(image, g, before_slot, &before);
        }
    }
    put_entry(image, g, last_slot, &last);
}

/// 02 §13, where 01's choice does not fit: "lengthen the last run as far as free granules and the 32 allow, then take the longest
/// remaining stretch, at most 32 at a time from its low end, the lower on a tie." By whole runs, as the sentence goes.
fn take_longest(image: &mut [u8], g: &Geometry, d: usize, file: u8, further: usize) -> Result<(), Short> {
    let mut wanted = further;
    let last_slot = *chain(image, g, d, file).last().expect("the file's own slot");
    let mut last = entry(image, g, last_slot);
    let pairs = last.pairs();
    if let Some(&pair) = pairs.last() {
        let run = pair.run(g);
        let behind = (run.end..g.granules()).take_while(|&granule| !taken(image, g, granule)).count();
        let longer = behind.min(LONGEST_RUN - run.len()).min(wanted);
        last.set_pair(pairs.len() - 1, Pair { further: pair.further + longer as u8, ..pair });
        put_entry(image, g, last_slot, &last);
        (run.end..run.end + longer).for_each(|granule| set_taken(image, g, granule, true));
        wanted -= longer;
    }
    while wanted > 0 {
        let longest = longest_stretch(image, g);
        let stretch = free_stretches(image, g).into_iter().find(|stretch| stretch.len() == longest);
        let first = stretch.filter(|stretch| !stretch.is_empty()).ok_or(Short::Granule)?.start;
        let many = longest.min(LONGEST_RUN).min(wanted);
        start_run(image, g, d, file, first..first + many)?;
        wanted -= many;
    }
    Ok(())
}

/// A growth by so many granules: "Growth is whole or refused." None changed if it is refused. "Keep 01's choice where it fits"; where
/// it does not, the growth starts again from the disk as it stood.
pub fn grow(image: &mut [u8], g: &Geometry, d: usize, file: u8, further: usize) -> Result<(), Short> {
    if further == 0 {
        return Ok(());
    }
    let mut trial = image.to_vec();
    if (0..further).all(|_| take_one(&mut trial, g, d, file).is_ok()) {
        image.copy_from_slice(&trial);
        return Ok(());
    }
    let mut trial = image.to_vec();
    take_longest(&mut trial, g, d, file, further)?;
    image.copy_from_slice(&trial);
    Ok(())
}
