//! Request 02, §1: "Compare two images." Written from the request's words and the settled points, slowly: all
//! differences are worked out and put in order, and the one with the number asked for is told.

use crate::calls::{check, with_slot, Number, ACCEPTED, RANGE};
use crate::geometry::Geometry;
use crate::names::{Name, FULL_NAME_BYTES};
use crate::plain::{files_of, Attributes, File};
use std::collections::BTreeSet;

/// "files only in the first, only in the second, and in both but unlike"; "past the last the answer is "no more""
pub const NO_MORE: usize = 0;
pub const ONLY_IN_FIRST: usize = 1;
pub const ONLY_IN_SECOND: usize = 2;
pub const UNLIKE: usize = 3;

/// "which of size, date (byte 02, low five bits of 01) and other attributes differ"; and whether the contents do.
pub const SIZE: usize = 1;
pub const DATE: usize = 2;
pub const OTHER: usize = 4;
pub const CONTENTS: usize = 8;

/// "Refusals: 1 and 2, each naming the image"
pub const NO_IMAGE: usize = 0;
pub const FIRST: usize = 1;
pub const SECOND: usize = 2;

#[derive(Clone, Debug, PartialEq, Eq)]
pub struct Difference {
    pub name: Name,
    pub kind: usize,
    pub position: usize,
    pub flags: usize,
}

/// A file's attributes are its entry bytes 00, 01, 02, 04 and 10 to 13, in this order.
const FLAGS: usize = 0;
const DAY: usize = 1;
const MONTH: usize = 2;
const SYSTEM: u8 = 0x40;
const LOW_FIVE: u8 = 0x1F;

/// "date (byte 02, low five bits of 01)"
fn date(attributes: &Attributes) -> (u8, u8) {
    (attributes[MONTH], attributes[DAY] & LOW_FIVE)
}

/// All else that is an attribute: the date is blotted out.
fn other(attributes: &Attributes) -> Attributes {
    let mut rest = *attributes;
    rest[MONTH] = 0;
    rest[DAY] &= !LOW_FIVE;
    rest
}

/// "the first byte position where contents part, or the smaller size if one is a beginning of the other"
pub fn parting(one: &[u8], two: &[u8]) -> usize {
    let smaller = one.len().min(two.len());
    (0..smaller).find(|&at| one[at] != two[at]).unwrap_or(smaller)
}

/// Two files of one name, neither a system file: what differs, if anything does. How many granules they own is placement.
fn unlike(name: Name, one: &File, two: &File) -> Option<Difference> {
    let mut flags = 0;
    for (differs, flag) in [
        (one.bytes.len() != two.bytes.len(), SIZE),
        (date(&one.attributes) != date(&two.attributes), DATE),
        (other(&one.attributes) != other(&two.attributes), OTHER),
        (one.bytes != two.bytes, CONTENTS),
    ] {
        flags += if differs { flag } else { 0 };
    }
    (flags != 0).then(|| Difference { name, kind: UNLIKE, position: parting(&one.bytes, &two.bytes), flags })
}

/// The differences of two consistent disks. "Order: by name and type bytes, rising".
pub fn differences(first: &[u8], g: &Geometry, second: &[u8], h: &Geometry) -> Vec<Difference> {
    let (ours, theirs) = (files_of(first, g), files_of(second, h));
    let names: BTreeSet<Name> = ours.keys().chain(theirs.keys()).copied().collect();
    let is_system = |file: &File| file.attributes[FLAGS] & SYSTEM != 0;
    let by_name = |name: Name, kind: usize| Some(Difference { name, kind, position: 0, flags: 0 });
    names
        .into_iter()
        .filter_map(|name| match (ours.get(&name), theirs.get(&name)) {
            (Some(_), None) => by_name(name, ONLY_IN_FIRST),
            (None, Some(_)) => by_name(name, ONLY_IN_SECOND),
            // "A file that is a system file on either is compared by name only."
            (Some(one), Some(two)) if is_system(one) || is_system(two) => None,
            (Some(one), Some(two)) => unlike(name, one, two),
            (None, None) => None,
        })
        .collect()
}

/// "one difference is told a call, by its running number from 0, and past the last the answer is "no more"". "Refusals: 1
/// and 2, each naming the image, the first's before the second's."
#[allow(clippy::too_many_arguments)]
pub fn compare(
    first: &[u8],
    g: &Geometry,
    second: &[u8],
    h: &Geometry,
    number: usize,
    name: &mut [u8],
    image: &mut usize,
    kind: &mut usize,
    position: &mut usize,
    flags: &mut usize,
    fault_slot: &mut usize,
) -> Number {
    (*image, *kind, *position, *flags) = (NO_IMAGE, NO_MORE, 0, 0);
    for (which, bytes, geometry) in [(FIRST, first, g), (SECOND, second, h)] {
        let refusal = with_slot(check(bytes, geometry), bytes, geometry, fault_slot);
        if refusal != ACCEPTED {
            *image = which;
            return refusal;
        }
    }
    if name.len() < FULL_NAME_BYTES {
        return RANGE;
    }
    if let Some(told) = differences(first, g, second, h).get(number) {
        name[..FULL_NAME_BYTES].copy_from_slice(&told.name);
        (*kind, *position, *flags) = (told.kind, told.position, told.flags);
    }
    ACCEPTED
}
