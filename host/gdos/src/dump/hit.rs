//! The HIT: of which slot and name each byte is the hash.

use super::field::{Field, Section};
use super::Seen;
use crate::places::{directory_at, entry, has_slot, hit_at};
use crate::text;
use genie_dos::{Geometry, Name};

/// The place of the directory's length.
const LENGTH: usize = 0x1f;

/// A line for each slot that is in use or whose byte is not 0; free ones that follow each other, and places of no slot, share
/// one.
pub fn hit(seen: Seen) -> Vec<Section> {
    let at = directory_at(seen.geometry(), 1, 0);
    let title = format!("HIT: directory sector 1, image bytes {at} to {}", at + Geometry::SECTOR_BYTES - 1);
    let mut fields: Vec<Field> = Vec::new();
    for place in 0..Geometry::SECTOR_BYTES {
        let field = match (place, has_slot(seen.map.directory_sectors, place)) {
            (LENGTH, _) => length(seen),
            (_, true) => hit_field(seen, place),
            (_, false) => {
                let (name, meaning) = ("no slot", "neither read nor changed".to_string());
                Field { at: at + place, place: String::new(), bytes: vec![seen.byte(at + place)], name, meaning }
            }
        };
        match fields.last_mut().filter(|last| alike(seen, last, &field)) {
            Some(last) => last.bytes.extend(field.bytes),
            None => fields.push(field),
        }
    }
    for field in &mut fields {
        if field.bytes.len() > 1 {
            let first = field.at - at;
            field.place = format!("{} to {}", text::slot(first), text::slot(first + field.bytes.len() - 1));
        } else {
            field.place = text::slot(field.at - at);
        }
    }
    vec![Section { title, fields }]
}

/// Whether two neighbours are told in one line: free slots, and places of no slot, if no fault marks them.
fn alike(seen: Seen, last: &Field, next: &Field) -> bool {
    let marked = |at: usize| seen.map.faults.iter().any(|fault| fault.bytes.contains(&at));
    let quiet = |name: &str| [FREE, "no slot"].contains(&name);
    quiet(last.name) && last.name == next.name && last.bytes[0] == next.bytes[0] && !marked(last.at) && !marked(next.at)
}

const FREE: &str = "free";

fn length(seen: Seen) -> Field {
    let at = hit_at(seen.geometry(), LENGTH);
    let byte = seen.byte(at);
    let words = match byte {
        0 | 5 | 10 | 15 | 20 => format!("{byte}, so {} in all", 10 + byte),
        _ => format!("{byte}, which is not 0, 5, 10, 15 or 20"),
    };
    Field { at, place: text::slot(LENGTH), bytes: vec![byte], name: "directory sectors above 10", meaning: words }
}

/// The HIT byte of a slot.
pub fn hit_field(seen: Seen, slot: usize) -> Field {
    let at = hit_at(seen.geometry(), slot);
    let byte = seen.byte(at);
    let bytes = entry(seen.image, seen.geometry(), slot).unwrap_or_default();
    let in_use = bytes[0x00] & 0x10 != 0;
    let file = u8::try_from(slot).ok().and_then(|slot| seen.map.file_with(slot)).map(|file| (file.slot, file.name));
    let (name, meaning) = match (in_use, byte, file) {
        (false, 0, _) => (FREE, String::new()),
        (false, ..) => ("hash", "the entry is not in use".to_string()),
        (true, _, Some((file, name))) => {
            let whose = match usize::from(file) == slot {
                true => name.shown(),
                false => format!("{} (slot {}), whose extension it is", name.shown(), text::slot(file.into())),
            };
            ("hash", hash_words(byte, &name, &whose))
        }
        (true, _, None) => ("hash", "the entry is in use, an extension in no file's chain".to_string()),
    };
    Field { at, place: text::slot(slot), bytes: vec![byte], name, meaning }
}

fn hash_words(byte: u8, name: &Name, whose: &str) -> String {
    match name.hash() {
        hash if hash == byte => format!("that of {whose}"),
        hash => format!("not that of {whose}, which is {hash:02X}H"),
    }
}
