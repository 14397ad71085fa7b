//! What removed files left in the directory, and where two of them name the same granule: then one's contents may be the
//! other's. What is in no entry any more cannot be seen.

use crate::json::Json;
use crate::places::{entry, has_slot};
use crate::text::{self, counted};
use genie_dos::{Disk, Entry, Name};

/// A removed file's entry that names granules of another's.
#[derive(Clone, Debug, PartialEq, Eq)]
pub struct Also {
    slot: usize,
    /// The name in it; an extension that is in no removed file's chain has none.
    name: Option<String>,
    granules: Vec<usize>,
}

/// An entry's bytes.
type Bytes = [u8; Entry::LEN];

/// The other removed entries that name granules of the removed file in a slot.
pub fn also_in(disk: &Disk, slot: usize) -> Vec<Also> {
    let sectors = match disk.directory_sectors() {
        Ok(sectors) => sectors,
        Err(_) => return Vec::new(),
    };
    let slots = || (0..256).filter(|&slot| has_slot(sectors, slot));
    let dead = |slot: usize| {
        entry(disk.image(), disk.geometry(), slot).filter(|bytes| bytes[0] & 0x10 == 0 && !is_blank(bytes))
    };
    let is_primary = |bytes: &Bytes| bytes[0] & 0x80 == 0;
    let own = chain(slot, dead);
    let granules = granules(disk, &own, dead);
    let mut met = own;
    let mut found = Vec::new();
    // Files first, so that an extension in one's chain is told under its name.
    let (files, extensions): (Vec<usize>, Vec<usize>) =
        slots().filter(|&other| dead(other).is_some()).partition(|&other| dead(other).filter(is_primary).is_some());
    for other in files.into_iter().chain(extensions) {
        if met.contains(&other) {
            continue;
        }
        let theirs = chain(other, dead);
        let shared: Vec<usize> =
            self::granules(disk, &theirs, dead).into_iter().filter(|g| granules.contains(g)).collect();
        met.extend(theirs);
        if !shared.is_empty() {
            let name = dead(other).filter(is_primary).map(|bytes| name_text(&bytes));
            found.push(Also { slot: other, name, granules: shared });
        }
    }
    found.sort_by_key(|also| also.slot);
    found
}

fn is_blank(bytes: &Bytes) -> bool {
    bytes.iter().all(|&byte| byte == bytes[0])
}

/// The slots of a removed file's chain, as far as it stands. No chain is longer than the number of slots.
fn chain(slot: usize, dead: impl Fn(usize) -> Option<Bytes>) -> Vec<usize> {
    let mut slots = vec![slot];
    while let Some(bytes) = slots.last().and_then(|&last| dead(last)) {
        let next = usize::from(bytes[0x1f]);
        let extends = bytes[0x1e] == 0xfe && dead(next).map_or(false, |next| next[0] & 0x80 != 0);
        if !extends || slots.contains(&next) {
            break;
        }
        slots.push(next);
    }
    slots
}

/// The granules that the entries in these slots name, as far as the disk has them, rising.
fn granules(disk: &Disk, slots: &[usize], dead: impl Fn(usize) -> Option<Bytes>) -> Vec<usize> {
    let (units, all) = (disk.geometry().units, disk.geometry().granules().unwrap_or(0));
    let mut granules = Vec::new();
    for bytes in slots.iter().filter_map(|&slot| dead(slot)) {
        for pair in bytes[0x16..0x1e].chunks_exact(2).take_while(|pair| pair[0] != 0xff) {
            let first = usize::from(pair[0]) * units + usize::from(pair[1] >> 5);
            granules.extend((first..=first + usize::from(pair[1] & 0x1f)).filter(|&granule| granule < all));
        }
    }
    granules.sort_unstable();
    granules.dedup();
    granules
}

/// The name in a removed entry. The bytes may be anything: what is no character of a name is shown as a question mark.
pub fn name_text(bytes: &Bytes) -> String {
    let mut name = [0; Name::LEN];
    name.copy_from_slice(&bytes[0x05..0x10]);
    let text = Name::from_bytes(name).to_string();
    text.chars().map(|c| if c.is_ascii_graphic() { c } else { '?' }).collect()
}

/// `granule 2 is also in slot 80H (B/DAT)`.
pub fn told(also: &[Also]) -> String {
    let one = |also: &Also| {
        let granules = match also.granules.as_slice() {
            [only] => format!("granule {only} is"),
            [first, .., last] if last - first + 1 == also.granules.len() => format!("granules {first} to {last} are"),
            several => format!("{} are", counted(several.len(), "granule")),
        };
        let name = also.name.as_ref().map_or(" (an extension)".to_string(), |name| format!(" ({name})"));
        format!("{granules} also in slot {}{name}", text::slot(also.slot))
    };
    also.iter().map(one).collect::<Vec<_>>().join(", ")
}

/// For `--json`.
pub fn json(also: &[Also]) -> Json {
    Json::list(also.iter().map(|also| {
        Json::object([
            ("slot", also.slot.into()),
            ("name", also.name.clone().into()),
            ("granules", Json::list(also.granules.iter().map(|&granule| granule.into()))),
        ])
    }))
}

#[cfg(test)]
mod tests {
    use super::*;
    use genie_dos::{Date, Geometry, Kind, NewFile, Password};

    const GEOMETRY: Geometry = Geometry::new(16, 2, 80, 0);

    fn put(disk: &mut Disk, name: &str, sectors: usize) {
        let new = NewFile::open(GEOMETRY, Date::new(1983, 10, 9));
        let mut handle = disk.create(&name.parse().unwrap(), &new).unwrap().handle;
        for _ in 0..sectors {
            disk.write_record(&mut handle, Kind::Sequential, &[7; 256]).unwrap();
        }
    }

    fn kill(disk: &mut Disk, name: &str) {
        let handle = disk.open(&name.parse().unwrap(), 256, Password::Unchecked).unwrap();
        disk.kill(&handle).unwrap();
    }

    #[test]
    fn granules_in_two_removed_files() {
        let mut disk = Disk::blank(GEOMETRY, 10, &[0]).unwrap();
        put(&mut disk, "A", 5);
        put(&mut disk, "C", 5);
        kill(&mut disk, "A");
        kill(&mut disk, "C");
        assert!(also_in(&disk, 0x80).is_empty() && also_in(&disk, 0x81).is_empty());
        // B takes A's slot and the granules of both.
        put(&mut disk, "B", 10);
        kill(&mut disk, "B");
        assert_eq!(told(&also_in(&disk, 0x81)), "granule 2 is also in slot 80H (B)");
        assert_eq!(told(&also_in(&disk, 0x80)), "granule 2 is also in slot 81H (C)");
        assert_eq!(json(&also_in(&disk, 0x81)).to_string(), r#"[{"slot":128,"name":"B","granules":[2]}]"#);
    }

    #[test]
    fn extensions_count_too() {
        let mut disk = Disk::blank(GEOMETRY, 10, &[0]).unwrap();
        // Two files by turns, so that one of them has five runs and an extension: granules 1, 3, 5, 7, 9.
        for granule in 0..5 {
            for name in ["A", "B"] {
                let new = NewFile::open(GEOMETRY, Date::new(1983, 10, 9));
                let handle = disk.create(&name.parse().unwrap(), &new).unwrap().handle;
                if name == "A" || granule < 4 {
                    disk.allot(&handle, 5 * granule).unwrap();
                }
            }
        }
        kill(&mut disk, "A");
        kill(&mut disk, "B");
        assert!(also_in(&disk, 0x80).is_empty());
        // In A's slot, granules 1 to 9: A's first entry is gone, its extension in slot 82H still names granule 9.
        put(&mut disk, "C", 45);
        kill(&mut disk, "C");
        let also = also_in(&disk, 0x80);
        assert_eq!(told(&also), "4 granules are also in slot 81H (B), granule 9 is also in slot 82H (an extension)");
    }
}
