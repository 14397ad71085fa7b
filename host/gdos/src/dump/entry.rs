//! The 32 bytes of an entry, field by field.

use super::field::{printable, Field, Section};
use super::hit::hit_field;
use super::Seen;
use crate::places::{entry, entry_at, entry_place};
use crate::text;
use genie_dos::{Entry, Geometry, Run};

/// The HIT byte of a slot, and its entry.
pub fn with_hit(seen: Seen, slot: usize) -> Vec<Section> {
    let title = format!("HIT byte of slot {}", text::slot(slot));
    vec![Section { title, fields: vec![hit_field(seen, slot)] }, section(seen, slot)]
}

/// The entry of a slot.
pub fn section(seen: Seen, slot: usize) -> Section {
    let (sector, byte) = entry_place(slot);
    let at = entry_at(seen.geometry(), slot);
    let bytes = entry(seen.image, seen.geometry(), slot).unwrap_or_default();
    let title = format!(
        "entry of slot {}: directory sector {sector}, byte {byte}; image bytes {at} to {}",
        text::slot(slot),
        at + Entry::LEN - 1
    );
    if is_blank(seen, at, &bytes) {
        let meaning = format!("not in use, every byte is {:02X}H", bytes[0]);
        let field = Field { at, place: "00".to_string(), bytes: bytes.to_vec(), name: "blank", meaning };
        return Section { title, fields: vec![field] };
    }
    // Slots are below 256.
    let read = Entry::from_bytes(slot as u8, bytes, seen.geometry());
    let mut fields = match bytes[0x00] & 0x80 {
        0 => primary(&read, seen.geometry()),
        _ => extension(&read),
    };
    fields.extend(pairs_and_link(seen, &bytes));
    let fields = fields.into_iter().map(|Part { from, to, name, meaning }| Field {
        at: at + from,
        place: format!("{from:02X}"),
        bytes: bytes[from..to].to_vec(),
        name,
        meaning,
    });
    Section { title, fields: fields.collect() }
}

/// Whether nothing was ever entered: not in use, all bytes alike, and none of them marked.
fn is_blank(seen: Seen, at: usize, bytes: &[u8; Entry::LEN]) -> bool {
    let marked = |byte: &usize| (at..at + Entry::LEN).contains(byte);
    let alike = bytes.iter().all(|&byte| byte == bytes[0]);
    alike && bytes[0] & 0x10 == 0 && !seen.map.faults.iter().any(|fault| fault.bytes.iter().any(marked))
}

/// A field of an entry: bytes from and to, the end not included.
struct Part {
    from: usize,
    to: usize,
    name: &'static str,
    meaning: String,
}

fn part(from: usize, to: usize, name: &'static str, meaning: impl Into<String>) -> Part {
    Part { from, to, name, meaning: meaning.into() }
}

/// The words whose bits are set.
fn set(byte: u8, words: &[(u8, &'static str)]) -> Vec<String> {
    words.iter().filter(|(bit, _)| byte & bit != 0).map(|(_, word)| word.to_string()).collect()
}

fn flags(byte: u8) -> Part {
    let mut words = vec![if byte & 0x10 != 0 { "in use" } else { "not in use" }.to_string()];
    words.push(if byte & 0x80 != 0 { "extension" } else { "primary" }.to_string());
    words.extend(set(byte, &[(0x40, "system"), (0x20, "bit 5 set"), (0x08, "invisible")]));
    words.push(format!("access level {}", byte & 0x07));
    part(0x00, 0x01, "flags", words.join(", "))
}

fn primary(entry: &Entry, geometry: Geometry) -> Vec<Part> {
    let bytes = entry.as_bytes();
    let mut worked = set(bytes[0x01], &[(0x80, "F (keep space)"), (0x40, "E (no growth)"), (0x20, "B (worked on)")]);
    let date = entry.date();
    worked.push(format!("day {}", date.day));
    let code = |code: u16| match code == geometry.open_code {
        true => format!("{code:04X}H, the open code"),
        false => format!("{code:04X}H"),
    };
    let (sectors, end) = (u16::from_le_bytes([bytes[0x14], bytes[0x15]]), bytes[0x03]);
    let size = match (sectors, end) {
        (0, 1..) => "0; an end byte without a sector is no size".to_string(),
        _ => format!("{sectors}; with the end byte a size of {}", text::counted(entry.size(), "byte")),
    };
    vec![
        flags(bytes[0x00]),
        part(0x01, 0x02, "F, E, B and day", worked.join(", ")),
        part(0x02, 0x03, "year and month", format!("{}, month {}", date.year, date.month)),
        part(0x03, 0x04, "end byte", end.to_string()),
        part(0x04, 0x05, "record length", entry.record_length().to_string()),
        part(0x05, 0x0d, "name", printable(&bytes[0x05..0x0d])),
        part(0x0d, 0x10, "type", printable(&bytes[0x0d..0x10])),
        part(0x10, 0x12, "main code", code(entry.main_code())),
        part(0x12, 0x14, "worker code", code(entry.worker_code())),
        part(0x14, 0x16, "sector count", size),
    ]
}

fn extension(entry: &Entry) -> Vec<Part> {
    let bytes = entry.as_bytes();
    let untested = |from: usize, to: usize| part(from, to, "zero", "not tested");
    vec![
        flags(bytes[0x00]),
        part(0x01, 0x02, "slot before it", text::slot(bytes[0x01].into())),
        untested(0x02, 0x0a),
        untested(0x0a, 0x12),
        untested(0x12, 0x16),
    ]
}

/// Pairs, marker and link, which both kinds of entry have.
fn pairs_and_link(seen: Seen, bytes: &[u8; Entry::LEN]) -> Vec<Part> {
    const NAMES: [&str; 4] = ["pair 1", "pair 2", "pair 3", "pair 4"];
    let mut parts = Vec::new();
    let mut ended = false;
    for (number, name) in NAMES.into_iter().enumerate() {
        let from = 0x16 + 2 * number;
        let (block, second) = (bytes[from], bytes[from + 1]);
        let behind = if ended { "behind the end of the list: " } else { "" };
        let meaning = match (block, ended) {
            (0xff, false) => "block FFH ends the list".to_string(),
            (0xff, true) => "none".to_string(),
            _ => format!("{behind}{}", pair_words(seen, block, second)),
        };
        ended |= block == 0xff;
        parts.push(part(from, from + 2, name, meaning));
    }
    let (marker, link) = (bytes[0x1e], bytes[0x1f]);
    let words = match marker {
        0xff => "no extension".to_string(),
        0xfe => "an extension follows, in the link's slot".to_string(),
        _ => "neither FEH nor FFH".to_string(),
    };
    parts.push(part(0x1e, 0x1f, "marker", words));
    let words = if marker == 0xfe { format!("slot {}", text::slot(link.into())) } else { "not used".to_string() };
    parts.push(part(0x1f, 0x20, "link", words));
    parts
}

/// `block 17, first unit 2, 2 further: granules 53 to 55, sectors 265 to 279`.
fn pair_words(seen: Seen, block: u8, second: u8) -> String {
    let (unit, further) = (usize::from(second >> 5), usize::from(second & 0x1f));
    let units = seen.geometry().units;
    let run = Run { first: usize::from(block) * units + unit, granules: further + 1 };
    let words = format!("block {block}, first unit {unit}, {further} further: {}", run_words(&run, seen.geometry()));
    let last = seen.map.cells.len() - 1;
    match (unit >= units, run.first + run.granules > last + 1) {
        (true, _) => format!("{words}; but a block has units 0 to {}", units - 1),
        (false, true) => format!("{words}; but the disk's last granule is {last}"),
        (false, false) => words,
    }
}

/// `granules 53 to 55, sectors 265 to 279`.
pub fn run_words(run: &Run, geometry: Geometry) -> String {
    let first = run.first * geometry.granule_sectors;
    let last = first + run.granules * geometry.granule_sectors - 1;
    let granules = match run.granules {
        1 => format!("granule {}", run.first),
        granules => format!("granules {} to {}", run.first, run.first + granules - 1),
    };
    format!("{granules}, sectors {first} to {last}")
}
