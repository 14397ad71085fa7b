//! `gdos check`.

use super::opened::Opened;
use super::{failures_json, Command, Output, DONE, JSON};
use crate::args::{Args, Spec};
use crate::damage;
use crate::failure::Failure;
use crate::json::Json;
use crate::shape::{self, Wanted};
use crate::text::counted;
use std::ffi::OsStr;

const EVERY: Spec = Spec {
    long: "all",
    short: Some(b'a'),
    value: None,
    help: "tell every fault, and which files are touched by one and which are not",
};

pub const COMMAND: Command = Command {
    name: "check",
    summary: "test whether images are consistent disks",
    usage: "[OPTIONS] IMAGE...",
    about: "\
Tests the directory, every file's chain and runs, and that no granule belongs to two files. An image that passes
may be worked on; one that does not is refused with 1 (length or geometry), or with 21 to 30 (not consistent) and what
is wrong and where:
  slot 25H, directory sector 7, byte 32, image byte 24864 (PULS01/DAT): granule 53 is also in slot 04H (EICH01/DAT)
Directory sectors are counted from 0, the GAT; bytes within the sector, and from the image's start. Of several faults
the one in the lowest slot is told; --all tells every one, and gdos mend makes a copy without them. The status is
that of the worst image.
",
    groups: &[("Options", &[EVERY, JSON]), (shape::TITLE, shape::OPTIONS)],
    examples: &[
        "gdos check disk.img",
        "gdos check --preset dd80ds week1.img week2.img",
        "gdos check --all --preset dd40 damaged.img",
    ],
    status: DONE,
    run,
};

fn run(args: &Args) -> Result<Output, Failure> {
    if args.words.is_empty() {
        return Err(Failure::Wrong("which image? Its name is missing".to_string()));
    }
    let mut output = Output::default();
    let mut images = Vec::new();
    for image in &args.words {
        let told = match args.has(EVERY.long) {
            true => check_all(args, image),
            false => Opened::look(args, image).and_then(|opened| consistent(&opened)),
        };
        match told {
            Ok(told) => {
                output.text.extend(told.text.into_bytes());
                output.notes.extend(told.notes);
                output.status = output.status.max(told.status);
                images.push(told.json);
            }
            Err(failure) => output.failures.push(failure),
        }
    }
    output.json = Json::object([("images", Json::List(images)), ("failures", failures_json(&output.failures))]);
    Ok(output)
}

/// What is told of an image.
struct Told {
    text: String,
    json: Json,
    notes: Vec<String>,
    status: u8,
}

/// What is told of a consistent disk.
fn consistent(opened: &Opened) -> Result<Told, Failure> {
    let path = &opened.path;
    let (geometry, counts) = (opened.geometry(), opened.disk.count().map_err(Failure::image(path))?);
    let text = format!(
        "{path}: consistent: {} of {}{}, directory at sector {}, {}, {} free\n",
        counted(geometry.blocks, "block"),
        counted(geometry.units, "unit"),
        shape::sized(geometry),
        geometry.start,
        counted(counts.files, "file"),
        counted(counts.free, "granule"),
    );
    let mut json = opened.head();
    json.extend([("consistent", true.into()), ("files", counts.files.into()), ("free", counts.free.into())]);
    Ok(Told { text, json: Json::Object(json), notes: opened.notes(), status: 0 })
}

/// Every fault of a disk whose geometry is stated; of a consistent one what is told without `--all`.
fn check_all(args: &Args, image: &OsStr) -> Result<Told, Failure> {
    let opened = Opened::unchecked(&Wanted::from_args(args)?, image)?;
    if opened.disk.check().is_ok() {
        return consistent(&opened);
    }
    let path = &opened.path;
    let faults = opened.disk.faults().map_err(|refusal| opened.refused(refusal))?;
    let by = opened.source.told().map(|told| format!(" (the geometry is from {told})")).unwrap_or_default();
    let text = format!("{path}: not consistent: {}{by}\n", counted(faults.found.len(), "fault"));
    let mut json = opened.head();
    json.push(("consistent", false.into()));
    json.extend(damage::faults_json(&faults));
    Ok(Told { text: text + &damage::faults_text(&faults), json: Json::Object(json), notes: opened.notes(), status: 1 })
}
