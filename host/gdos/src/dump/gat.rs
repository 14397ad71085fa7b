//! The GAT: the byte of each block with its bits.

use super::field::{rows, Field, Section};
use super::Seen;
use crate::places::directory_at;
use genie_dos::Geometry;

/// A line for each block; what stands behind the last one no call reads.
pub fn gat(seen: Seen) -> Vec<Section> {
    let Geometry { blocks, .. } = seen.geometry();
    let at = directory_at(seen.geometry(), 0, 0);
    let end = at + Geometry::SECTOR_BYTES;
    let title = format!("GAT: directory sector 0, image bytes {at} to {}; a set bit means taken", end - 1);
    let mut sections = vec![Section { title, fields: (0..blocks).map(|block| of_block(seen, block)).collect() }];
    let behind = seen.image.get(at + blocks..end).unwrap_or_default();
    if !behind.is_empty() {
        let title = "bytes past the last block, neither read nor changed".to_string();
        let fields = rows(at + blocks, behind, |offset| format!("{:02X}", blocks + offset));
        sections.push(Section { title, fields });
    }
    sections
}

fn of_block(seen: Seen, block: usize) -> Field {
    let Geometry { units, .. } = seen.geometry();
    let at = directory_at(seen.geometry(), 0, block);
    let byte = seen.byte(at);
    // Bit 7 first, as bytes are written; a bit of no unit is a dot.
    let bits: String = (0..8)
        .rev()
        .map(|bit| match (bit < units, byte >> bit & 1) {
            (false, _) => '.',
            (true, 0) => '0',
            (true, _) => '1',
        })
        .collect();
    let cells = seen.map.cells.iter().filter(|cell| cell.block == block);
    let mut stretches: Vec<(usize, usize, bool)> = Vec::new();
    for cell in cells {
        match stretches.last_mut() {
            Some((_, last, taken)) if *taken == cell.taken => *last = cell.granule,
            _ => stretches.push((cell.granule, cell.granule, cell.taken)),
        }
    }
    let words = |&(first, last, taken): &(usize, usize, bool)| {
        let which = if first == last { first.to_string() } else { format!("{first} to {last}") };
        format!("{which} {}", if taken { "taken" } else { "free" })
    };
    let stretches: Vec<String> = stretches.iter().map(words).collect();
    Field {
        at,
        place: format!("{block:02X}"),
        bytes: vec![byte],
        name: "",
        meaning: format!("{bits}  block {block}: granules {}", stretches.join(", ")),
    }
}
