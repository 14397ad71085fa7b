//! A file's sectors, with where in the image each stands.

use super::field::{rows, Section};
use super::Seen;
use crate::places::entry;
use crate::text::{self, counted};
use genie_dos::{Entry, Geometry, MappedFile};

/// Every sector of the file as far as its size reaches; of the last one the bytes before its end.
pub fn file(seen: Seen, file: &MappedFile) -> Vec<Section> {
    let bytes = entry(seen.image, seen.geometry(), file.slot.into()).unwrap_or_default();
    let read = Entry::from_bytes(file.slot, bytes, seen.geometry());
    let (size, sectors) = (read.size(), (read.size() + Geometry::SECTOR_BYTES - 1) / Geometry::SECTOR_BYTES);
    let granules: Vec<(usize, usize)> = (1..)
        .zip(&file.runs)
        .flat_map(|(number, run)| (run.first..run.first + run.granules).map(move |granule| (number, granule)))
        .collect();
    let slots: Vec<String> = file.slots.iter().map(|&slot| text::slot(slot.into())).collect();
    let title = format!(
        "{} (slot{} {}): {}, {}, {} in {}",
        file.name.shown(),
        if slots.len() == 1 { "" } else { "s" },
        slots.join(", "),
        counted(size, "byte"),
        counted(sectors, "sector"),
        counted(granules.len(), "granule"),
        counted(file.runs.len(), "run"),
    );
    let mut sections = vec![Section { title, fields: Vec::new() }];
    let in_granule = seen.geometry().granule_sectors;
    for k in 0..sectors {
        let (run, granule) = match granules.get(k / in_granule) {
            Some(&place) => place,
            None => {
                let which =
                    if k + 1 == sectors { format!("sector {k}") } else { format!("sectors {k} to {}", sectors - 1) };
                let title = format!("{which} of the file: in no run");
                sections.push(Section { title, fields: Vec::new() });
                break;
            }
        };
        let sector = granule * in_granule + k % in_granule;
        let from = sector * Geometry::SECTOR_BYTES;
        let own = (size - k * Geometry::SECTOR_BYTES).min(Geometry::SECTOR_BYTES);
        let place = format!("sector {k} of the file: sector {sector}, granule {granule} of run {run}");
        let (title, fields) = match seen.image.get(from..from + own) {
            Some(bytes) => {
                let fields = rows(from, bytes, |offset| (k * Geometry::SECTOR_BYTES + offset).to_string());
                (format!("{place}; image bytes {from} to {}", from + own - 1), fields)
            }
            None => (format!("{place}, which the disk has not"), Vec::new()),
        };
        sections.push(Section { title, fields });
    }
    sections
}
