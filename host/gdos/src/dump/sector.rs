//! Any sector of the image: what it is, and its bytes.

use super::field::{rows, Section};
use super::{entry, gat, hit, Seen};
use crate::text;
use genie_dos::{Geometry, Holds};

/// A sector of the directory by its fields, any other in lines of 16 bytes.
pub fn sector(seen: Seen, number: usize) -> Vec<Section> {
    let from = number * Geometry::SECTOR_BYTES;
    let in_directory = number.checked_sub(seen.geometry().start).filter(|&n| n < seen.map.directory_sectors);
    match in_directory {
        Some(0) => gat(seen),
        Some(1) => hit(seen),
        // A column of slots: s, s + 32 and so on.
        Some(n) => (0..8).map(|row| entry::section(seen, 32 * row + n - 2)).collect(),
        None => {
            let bytes = seen.image.get(from..from + Geometry::SECTOR_BYTES).unwrap_or_default();
            let title = format!(
                "sector {number}: image bytes {from} to {}; {}",
                from + Geometry::SECTOR_BYTES - 1,
                whose(seen, number)
            );
            vec![Section { title, fields: rows(from, bytes, |offset| format!("{offset:02X}")) }]
        }
    }
}

/// What a sector holds: of a file its own number there.
fn whose(seen: Seen, number: usize) -> String {
    let in_granule = seen.geometry().granule_sectors;
    let cell = match seen.map.cells.get(number / in_granule) {
        Some(cell) => cell,
        None => return String::new(),
    };
    let nth = number % in_granule;
    let mut words = seen.map.words(cell);
    if cell.holds == Holds::Directory {
        // A larger granule of the directory reaches further than it does.
        words += "; past the directory's last sector";
    }
    let of_file = cell.parts.iter().filter(|_| cell.holds != Holds::Directory).filter_map(|part| {
        let file = seen.map.file(part.file?)?;
        let before: usize = file.runs[..part.run - 1].iter().map(|run| run.granules).sum();
        let own = (before + part.index) * in_granule + nth;
        Some(format!("; sector {own} of {} (slot {})", file.name.shown(), text::slot(file.slot.into())))
    });
    words + &of_file.collect::<String>()
}
