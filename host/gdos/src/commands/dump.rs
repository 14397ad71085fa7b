//! `gdos dump`.

use super::choose::only_image;
use super::seeing::Shown;
use super::{Command, Output, DONE, JSON};
use crate::args::{Args, Spec};
use crate::damage;
use crate::dump::{self, Section, Seen};
use crate::failure::Failure;
use crate::json::Json;
use crate::places::has_slot;
use crate::shape;
use crate::text;
use genie_dos::{FaultFound, Geometry};

const SLOT: Spec =
    Spec { long: "slot", short: None, value: Some("N"), help: "the entry of a slot, as 37 or 25H, and its HIT byte" };
const SECTOR: Spec =
    Spec { long: "sector", short: None, value: Some("N"), help: "a sector of the disk, counted from 0" };
const GAT: Spec = Spec { long: "gat", short: None, value: None, help: "the GAT: the byte of each block with its bits" };
const HIT: Spec =
    Spec { long: "hit", short: None, value: None, help: "the HIT: of which slot and name each byte is the hash" };
const FILE: Spec = Spec {
    long: "file",
    short: None,
    value: Some("NAME"),
    help: "a file's sectors, with where in the image each stands",
};

pub const COMMAND: Command = Command {
    name: "dump",
    summary: "show bytes of a disk in hex, with their fields named",
    usage: "[OPTIONS] IMAGE --slot N | --sector N | --gat | --hit | --file NAME",
    about: "\
Shows one thing of the disk byte by byte: where in the image, its place there, the bytes in hex, and what they are
called and say. A byte that a fault marks has a ! behind it, and the faults are told below, as gdos check tells them.
The place is the byte of an entry or of the GAT, the slot in the HIT, the byte of the file in a file; elsewhere the
byte of the sector. No password is asked for: it is the image's bytes that are shown.
A disk that is not consistent is shown too, if its geometry is stated. Nothing of it is guessed: a file has the
sectors that its entries name, and where they name none, that is told.
",
    groups: &[("Options", &[SLOT, SECTOR, GAT, HIT, FILE, JSON]), (shape::TITLE, shape::OPTIONS)],
    examples: &[
        "gdos dump disk.img --slot 25H",
        "gdos dump disk.img --gat",
        "gdos dump --preset dd40 damaged.img --file PULS01/DAT | less",
    ],
    status: DONE,
    run,
};

fn run(args: &Args) -> Result<Output, Failure> {
    let image = only_image(args)?;
    let asked = [SLOT, SECTOR, GAT, HIT, FILE].iter().filter(|spec| args.has(spec.long)).count();
    if asked != 1 {
        let what = "one of --slot N, --sector N, --gat, --hit and --file NAME says what is shown";
        return Err(Failure::Wrong(what.to_string()));
    }
    let shown = Shown::open(args, image)?;
    let (what, sections) = sections(args, &shown)?;
    let here = faults_of(&shown, args.number(SLOT.long)?, &sections);
    let mut text: String = sections.iter().map(|section| section.text(&shown.map)).collect();
    for fault in &here {
        text += &format!("fault {}\n", damage::line(&fault.told));
    }
    let mut json = shown.opened.head();
    json.extend([
        ("what", what.into()),
        ("sections", Json::list(sections.iter().map(|section| section.json(&shown.map)))),
        ("consistent", shown.map.faults.is_empty().into()),
        ("faults", Json::list(here.into_iter().map(damage::fault_json))),
    ]);
    Ok(Output { text: text.into_bytes(), json: Json::Object(json), notes: shown.notes(), ..Output::default() })
}

/// What is asked for, in a word and in full.
fn sections(args: &Args, shown: &Shown) -> Result<(&'static str, Vec<Section>), Failure> {
    let seen = Seen { image: shown.opened.disk.image(), map: &shown.map };
    if let Some(slot) = args.number(SLOT.long)? {
        let sectors = shown.map.directory_sectors;
        if slot > 255 || !has_slot(sectors, slot) {
            let last = text::slot(sectors - 3);
            let why =
                format!("a directory of {sectors} sectors has slots 00H to {last} and the same in the rows below");
            return Err(Failure::Wrong(format!("there is no slot {}: {why}", text::slot(slot))));
        }
        return Ok((SLOT.long, dump::slot(seen, slot)));
    }
    if let Some(sector) = args.number(SECTOR.long)? {
        let sectors = seen.image.len() / Geometry::SECTOR_BYTES;
        if sector >= sectors {
            return Err(Failure::Wrong(format!("the disk has sectors 0 to {}, not {sector}", sectors - 1)));
        }
        return Ok((SECTOR.long, dump::sector(seen, sector)));
    }
    if let Some(name) = args.value(FILE.long) {
        let files = shown.files(name)?;
        return Ok((FILE.long, files.into_iter().flat_map(|file| dump::file(seen, file)).collect()));
    }
    match args.has(GAT.long) {
        true => Ok((GAT.long, dump::gat(seen))),
        false => Ok((HIT.long, dump::hit(seen))),
    }
}

/// The faults that mark a byte that is shown, or are the shown slot's.
fn faults_of<'a>(shown: &'a Shown, slot: Option<usize>, sections: &[Section]) -> Vec<&'a FaultFound> {
    let here = |fault: &&FaultFound| {
        let own = slot.is_some() && fault.told.fault.slot.map(usize::from) == slot;
        own || fault.bytes.iter().any(|&byte| sections.iter().any(|section| section.shows(byte)))
    };
    shown.map.faults.iter().filter(here).collect()
}
