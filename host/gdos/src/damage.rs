//! What is wrong with a damaged disk and what was done to a copy of it, for people and for `--json`.

use crate::fault;
use crate::json::Json;
use crate::text;
use genie_dos::{ByteChange, Doubt, Explained, FaultFound, FaultKind, Faults, FileFound, Name, Step};

/// A fault as a line: `27 (GAT bit missing): slot 80H, ...: granule 1 of run 1 is free in the GAT`.
pub fn line(told: &Explained) -> String {
    format!("{} ({}): {told}", told.fault.kind.number(), told.fault.kind)
}

/// A file with its slot: `PULS01/DAT (slot 80H)`.
pub fn named(name: &Name, slot: u8) -> String {
    format!("{} (slot {})", name.shown(), text::slot(slot.into()))
}

/// The doubts about a file, one behind the other.
pub fn doubts(doubts: &[Doubt]) -> String {
    doubts.iter().map(Doubt::to_string).collect::<Vec<_>>().join("; ")
}

/// Every fault, and which files are touched: the text below the image's line.
pub fn faults_text(faults: &Faults) -> String {
    let files = |touched: bool| -> Vec<String> {
        let these = faults.files.iter().filter(|file| file.touched == touched);
        these.map(|file| named(&file.name, file.slot)).collect()
    };
    let mut text: String =
        faults.found.iter().map(|found| format!("  {}\n", found_line(found, &faults.files))).collect();
    if faults.found.first().map_or(false, |found| found.told.fault.kind == FaultKind::DirectoryLength) {
        text += &format!(
            "  all but the first as of a directory of {} sectors, for which most speaks\n",
            faults.directory_sectors
        );
    }
    for (title, files) in [("touched", files(true)), ("not touched", files(false))] {
        text += &match files.as_slice() {
            [] => format!("  {title}: no file\n"),
            files => format!("  {title}: {}\n", files.join(", ")),
        };
    }
    text
}

/// A fault as a line, with the other files that it touches.
pub fn found_line(found: &FaultFound, files: &[FileFound]) -> String {
    let others =
        files.iter().filter(|file| found.touches.contains(&file.slot) && Some(file.slot) != found.told.fault.slot);
    let others: Vec<String> = others.map(|file| named(&file.name, file.slot)).collect();
    let slotless = found.told.fault.slot.is_none();
    match others.as_slice() {
        [] => line(&found.told),
        // Without a slot it is every file's.
        _ if slotless => line(&found.told),
        others => format!("{}; touches {} too", line(&found.told), others.join(", ")),
    }
}

/// A fault and the slots of the files that it touches, for `--json`.
pub fn fault_json(found: &FaultFound) -> Json {
    let slots = found.touches.iter().map(|&slot| slot.into());
    match fault::json(&found.told) {
        Json::Object(mut members) => {
            members.push(("touches", Json::list(slots)));
            Json::Object(members)
        }
        other => other,
    }
}

/// Every fault and the files, for `--json`.
pub fn faults_json(faults: &Faults) -> Vec<(&'static str, Json)> {
    let files = |touched: bool| {
        let these = faults.files.iter().filter(move |file| file.touched == touched);
        Json::list(these.map(|file| Json::object([("name", file.name.shown().into()), ("slot", file.slot.into())])))
    };
    vec![
        ("directory_sectors", faults.directory_sectors.into()),
        ("faults", Json::list(faults.found.iter().map(fault_json))),
        ("touched", files(true)),
        ("not_touched", files(false)),
    ]
}

/// A step of mending for people: the fault, what was done, the bytes.
pub fn step_text(step: &Step) -> String {
    let changes = step.changes.iter().map(|change| format!("    {change}\n"));
    let because = step.because.as_ref().map(|because| format!("  {}\n", line(because))).unwrap_or_default();
    format!("{}\n{because}  {}\n{}", line(&step.told), step.remedy, changes.collect::<String>())
}

/// The same for `--json`.
pub fn step_json(step: &Step) -> Json {
    let change = |change: &ByteChange| {
        Json::object([
            ("image_byte", change.image_byte.into()),
            ("before", change.before.into()),
            ("after", change.after.into()),
        ])
    };
    Json::object([
        ("fault", fault::json(&step.told)),
        ("because", step.because.as_ref().map(fault::json).into()),
        ("done", step.remedy.to_string().into()),
        ("changes", Json::list(step.changes.iter().map(change))),
    ])
}

/// A file that could not be had, for `--json`.
pub fn dropped_json(name: &Name, slot: u8, told: &Explained) -> Json {
    Json::object([("name", name.shown().into()), ("slot", slot.into()), ("fault", fault::json(told))])
}

/// The doubts about a file, for `--json`.
pub fn doubts_json(doubts: &[Doubt]) -> Json {
    Json::list(doubts.iter().map(|doubt| doubt.to_string().into()))
}
