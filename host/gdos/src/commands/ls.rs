//! `gdos ls`.

use super::choose::{chosen, image_and_rest, refused};
use super::opened::Opened;
use super::{failures_json, Command, Output, DONE, JSON};
use crate::args::{Args, Spec};
use crate::failure::Failure;
use crate::json::Json;
use crate::names::Typed;
use crate::shape;
use crate::text::counted;
use genie_dos::{Date, Entry, Geometry};
use std::ffi::OsString;

const LISTING: Spec = Spec {
    long: "listing",
    short: None,
    value: None,
    help: "the system's listing and nothing else: FILES, name size granules, FREE",
};
const ALL: Spec = Spec { help: "system files too", ..super::ALL };

pub const COMMAND: Command = Command {
    name: "ls",
    summary: "list the files of a disk",
    usage: "[OPTIONS] IMAGE [NAME...]",
    about: "\
Lists all files, or those named, in the directory's order: name, size in bytes, granules owned, date, attributes.
The attributes are letters, or a dash where one does not apply, then the level of the worker code:
  S  system file: not listed without --all, and never changed
  I  invisible
  F  keeps its space: trim gives nothing back
  E  may not grow
  B  was worked on (written to)
  P  has a password: its main code is not the open code
",
    groups: &[("Options", &[ALL, LISTING, JSON]), (shape::TITLE, shape::OPTIONS)],
    examples: &[
        "gdos ls disk.img",
        "gdos ls disk.img 'PULS*'",
        "gdos ls --listing disk.img",
        "gdos ls --json disk.img",
    ],
    status: DONE,
    run,
};

fn run(args: &Args) -> Result<Output, Failure> {
    let (image, words) = image_and_rest(args)?;
    if args.has("listing") && (args.has("json") || args.has("all") || !words.is_empty()) {
        return Err(Failure::Wrong("--listing goes with neither names, --all nor --json".to_string()));
    }
    let opened = Opened::look(args, image)?;
    let (disk, geometry) = (&opened.disk, opened.geometry());
    if args.has("listing") {
        let text = disk.listing().map_err(Failure::image(&opened.path))?.into_bytes();
        return Ok(Output { text, ..opened.output() });
    }
    let mut failures = Vec::new();
    let files = files(&opened, words, args.has("all"), &mut failures)?;
    let free = disk.count().map_err(Failure::image(&opened.path))?.free;
    let mut json = opened.head();
    json.extend([
        ("files", Json::list(files.iter().map(|file| file_json(file, geometry)))),
        ("free", free.into()),
        ("failures", failures_json(&failures)),
    ]);
    Ok(Output {
        text: table(&files, geometry, free).into_bytes(),
        json: Json::Object(json),
        failures,
        ..opened.output()
    })
}

/// The entries to show, in the directory's order.
fn files(opened: &Opened, words: &[OsString], all: bool, failures: &mut Vec<Failure>) -> Result<Vec<Entry>, Failure> {
    let entries = opened.disk.entries().map_err(Failure::image(&opened.path))?;
    if words.is_empty() {
        return Ok(entries.into_iter().filter(|entry| all || !entry.is_system()).collect());
    }
    let mut slots = Vec::new();
    for choice in chosen(opened, words, all)? {
        match choice.and_then(|typed| slot(opened, &typed)) {
            Ok(slot) => slots.push(slot),
            Err(failure) => failures.push(failure),
        }
    }
    Ok(entries.into_iter().filter(|entry| slots.contains(&entry.slot())).collect())
}

fn slot(opened: &Opened, typed: &Typed) -> Result<u8, Failure> {
    opened.disk.look_up(&typed.name).slot.map_err(refused(&opened.path, typed))
}

fn table(files: &[Entry], geometry: Geometry, free: usize) -> String {
    let mut text = String::new();
    if !files.is_empty() {
        text += "NAME/TYPE        SIZE  GRANULES  DATE        ATTRIBUTES\n";
    }
    for file in files {
        let (name, size, granules) = (file.name(), file.size(), file.granules());
        let (date, attributes) = (date(file), attributes(file, geometry));
        text += &format!("{name:<12}  {size:>7}  {granules:>8}  {date:<10}  {attributes}\n");
    }
    text + &format!("{}, {} free\n", counted(files.len(), "file"), counted(free, "granule"))
}

/// The date as people read it; a dash where the entry has none.
pub(super) fn date(file: &Entry) -> String {
    let date = file.date();
    match (date.day, date.month) {
        (0, 0) => "-".to_string(),
        _ => date.to_string(),
    }
}

/// The letters of the help, then the level.
pub(super) fn attributes(file: &Entry, geometry: Geometry) -> String {
    let letters = [
        (file.is_system(), 'S'),
        (file.is_invisible(), 'I'),
        (file.keeps_space(), 'F'),
        (file.may_not_grow(), 'E'),
        (file.was_worked_on(), 'B'),
        (file.main_code() != geometry.open_code, 'P'),
    ];
    let letters: String = letters.iter().map(|&(set, letter)| if set { letter } else { '-' }).collect();
    format!("{letters} {}", file.level())
}

/// A file for `--json`. The date is null where the entry has none.
pub(super) fn file_json(file: &Entry, geometry: Geometry) -> Json {
    let Date { day, month, .. } = file.date();
    Json::object([
        ("name", file.name().to_string().into()),
        ("size", file.size().into()),
        ("granules", file.granules().into()),
        ("date", ((day, month) != (0, 0)).then(|| file.date().to_string()).into()),
        ("record_length", file.record_length().into()),
        ("level", file.level().into()),
        ("system", file.is_system().into()),
        ("invisible", file.is_invisible().into()),
        ("keeps_space", file.keeps_space().into()),
        ("may_not_grow", file.may_not_grow().into()),
        ("worked_on", file.was_worked_on().into()),
        ("password", (file.main_code() != geometry.open_code).into()),
        ("main_code", file.main_code().into()),
        ("worker_code", file.worker_code().into()),
        ("slot", file.slot().into()),
    ])
}
