use super::cell::{Cell, Holds, Map, MappedFile, Part};
use crate::Geometry;
use alloc::string::{String, ToString};
use alloc::vec::Vec;

impl Map {
    /// The file in a slot.
    pub fn file(&self, slot: u8) -> Option<&MappedFile> {
        self.files.iter().find(|file| file.slot == slot)
    }

    /// The file that an entry belongs to.
    pub fn file_with(&self, slot: u8) -> Option<&MappedFile> {
        self.files.iter().find(|file| file.slots.contains(&slot))
    }

    /// What stands in a cell, at most nine characters: `.`, `#`, `DIR`, `A1`, `A*B`, `?1`. That a fault marks it is not in it.
    pub fn label(&self, cell: &Cell) -> String {
        let tag = |part: &Part| part.file.and_then(|slot| self.file(slot)).map_or("?", |file| file.tag.as_str());
        match (cell.holds, cell.parts.as_slice()) {
            (Holds::Free, _) => ".".to_string(),
            (Holds::Reserved, _) => "#".to_string(),
            (Holds::Directory, _) => "DIR".to_string(),
            (_, [part]) => format!("{}{}", tag(part), part.run),
            (_, [first, second]) => format!("{}*{}", tag(first), tag(second)),
            (_, parts) => format!("{}*{}", parts.first().map_or("?", tag), parts.len()),
        }
    }

    /// A cell in a sentence: where it is, what it holds, and the faults that mark it.
    pub fn words(&self, cell: &Cell) -> String {
        let Cell { granule, block, unit, .. } = *cell;
        let sectors = self.geometry.granule_sectors;
        let (first, last) = (granule * sectors, (granule + 1) * sectors - 1);
        let parts: Vec<String> = cell.parts.iter().map(|part| self.part_words(part)).collect();
        let parts = parts.join(", and ");
        let holds = match (cell.holds, cell.parts.is_empty()) {
            (Holds::Free, _) => "free".to_string(),
            (Holds::Reserved, _) => "reserved".to_string(),
            (Holds::Directory, true) => "the directory".to_string(),
            (Holds::Directory, false) => format!("the directory; also {parts}"),
            (Holds::Shared, _) => format!("shared: {parts}"),
            (Holds::File | Holds::Nobody, _) => parts,
        };
        let free = if cell.taken || cell.holds == Holds::Free { "" } else { "; free in the GAT" };
        let mut words =
            format!("granule {granule} (block {block}, unit {unit}; sectors {first} to {last}): {holds}{free}");
        for fault in cell.faults.iter().filter_map(|&place| self.faults.get(place)) {
            words += &format!("; fault {} ({}): {}", fault.told.fault.kind.number(), fault.told.fault.kind, fault.told);
        }
        words
    }

    fn part_words(&self, part: &Part) -> String {
        let whose = match part.file.and_then(|slot| self.file(slot)) {
            Some(file) => format!("{} (slot {:02X}H)", file.name.shown(), file.slot),
            None => format!("nobody's extension in slot {:02X}H", part.slot),
        };
        format!("{whose}, run {}, granule {} of {}", part.run, part.index + 1, part.of)
    }

    /// How many cells hold something.
    pub fn counted(&self, holds: Holds) -> usize {
        self.cells.iter().filter(|cell| cell.holds == holds).count()
    }

    /// The whole in a few sentences, for who cannot see the picture.
    pub fn summary(&self) -> String {
        let Geometry { blocks, units, .. } = self.geometry;
        let counted = |holds: Holds| self.counted(holds);
        let mut text = format!(
            "{} granules in {blocks} blocks of {units}: {} free, {} of files, {} of the directory, {} reserved",
            self.cells.len(),
            counted(Holds::Free),
            counted(Holds::File),
            counted(Holds::Directory),
            counted(Holds::Reserved),
        );
        for (holds, words) in [(Holds::Shared, "shared"), (Holds::Nobody, "taken by nobody")] {
            match counted(holds) {
                0 => {}
                number => text += &format!(", {number} {words}"),
            }
        }
        let marked = self.cells.iter().filter(|cell| !cell.faults.is_empty()).count();
        text + &match self.faults.len() {
            0 => "; no faults".to_string(),
            1 => format!("; 1 fault marks {marked} of them"),
            faults => format!("; {faults} faults mark {marked} of them"),
        }
    }
}
