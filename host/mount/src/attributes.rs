//! What a directory knows of a file and a host does not, as extended attributes; by the names of `gdos ls --json`.

use genie_dos::{Entry, Geometry};

/// What their names begin with.
pub const PREFIX: &str = "user.genie.";

fn yes(is: bool) -> String {
    if is { "yes" } else { "no" }.to_string()
}

/// Those of a file. The date is left out where the entry has none.
pub fn of_file(entry: &Entry, geometry: Geometry) -> Vec<(&'static str, String)> {
    let date = entry.date();
    let mut told = vec![
        ("slot", format!("{:02X}H", entry.slot())),
        ("granules", entry.granules().to_string()),
        ("record_length", entry.record_length().to_string()),
        ("level", entry.level().to_string()),
        ("system", yes(entry.is_system())),
        ("invisible", yes(entry.is_invisible())),
        ("keeps_space", yes(entry.keeps_space())),
        ("may_not_grow", yes(entry.may_not_grow())),
        ("worked_on", yes(entry.was_worked_on())),
        ("password", yes(entry.main_code() != geometry.open_code)),
        ("main_code", format!("{:04X}H", entry.main_code())),
        ("worker_code", format!("{:04X}H", entry.worker_code())),
    ];
    if (date.month, date.day) != (0, 0) {
        told.push(("date", date.to_string()));
    }
    told
}

/// Those of the disk, at the root: its geometry.
pub fn of_disk(geometry: Geometry) -> Vec<(&'static str, String)> {
    vec![
        ("blocks", geometry.blocks.to_string()),
        ("units", geometry.units.to_string()),
        ("start", geometry.start.to_string()),
        ("open_code", format!("{:04X}H", geometry.open_code)),
        ("system_disk", yes(geometry.system_disk)),
        ("granule_sectors", geometry.granule_sectors.to_string()),
    ]
}
