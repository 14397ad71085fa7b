//! `gdos info`.

use super::choose::{chosen, image_and_rest, refused};
use super::ls::{attributes, file_json};
use super::opened::Opened;
use super::room::More;
use super::{failures_json, Command, Output, ALL, DONE, JSON};
use crate::args::Args;
use crate::failure::Failure;
use crate::json::Json;
use crate::shape;
use crate::text::counted;
use genie_dos::{Entry, Geometry, Run};

pub const COMMAND: Command = Command {
    name: "info",
    summary: "tell about a disk, or about files and where they lie",
    usage: "[OPTIONS] IMAGE [NAME...]",
    about: "\
Without names: the disk's geometry, its directory, and how its granules are used. Reserved granules are taken and
belong to no file. With names or patterns: each file's entry and the granules and sectors it lies in, in its order.
",
    groups: &[("Options", &[ALL, JSON]), (shape::TITLE, shape::OPTIONS)],
    examples: &["gdos info disk.img", "gdos info disk.img PULS01/DAT"],
    status: DONE,
    run,
};

fn run(args: &Args) -> Result<Output, Failure> {
    let (image, words) = image_and_rest(args)?;
    let opened = Opened::look(args, image)?;
    let (disk, path) = (&opened.disk, &opened.path);
    if words.is_empty() {
        return about_disk(&opened);
    }
    let entries = disk.entries().map_err(Failure::image(path))?;
    let mut output = opened.output();
    let mut told = Vec::new();
    for choice in chosen(&opened, words, args.has("all"))? {
        let slot = choice.and_then(|typed| disk.look_up(&typed.name).slot.map_err(refused(path, &typed)));
        match slot {
            Ok(slot) => {
                for entry in entries.iter().filter(|entry| entry.slot() == slot) {
                    output.text.extend(about_file(entry, disk.geometry()).into_bytes());
                    told.push(json_of(entry, disk.geometry()));
                }
            }
            Err(failure) => output.failures.push(failure),
        }
    }
    let mut json = opened.head();
    json.extend([("files", Json::List(told)), ("failures", failures_json(&output.failures))]);
    output.json = Json::Object(json);
    Ok(output)
}

fn about_disk(opened: &Opened) -> Result<Output, Failure> {
    let (disk, path, geometry) = (&opened.disk, &opened.path, opened.geometry());
    let entries = disk.entries().map_err(Failure::image(path))?;
    let counts = disk.count().map_err(Failure::image(path))?;
    let sectors = disk.directory_sectors().map_err(Failure::image(path))?;
    let total = disk.image().len() / geometry.granule_bytes();
    let owned: usize = entries.iter().map(Entry::granules).sum();
    let reserved = total - counts.free - owned;
    let slots = 8 * (sectors - 2);
    // An entry has room for four runs; each further four have an extension.
    let used: usize = entries.iter().map(|entry| entry.runs().len().saturating_sub(1) / 4 + 1).sum();
    let system = entries.len() - counts.files;
    let more = More::of(disk).map_err(Failure::image(path))?;
    let text = format!(
        "image      {path}, {} bytes\n\
         geometry   {} of {}, {} in all, {} disk, preset {}\n\
         directory  sectors {} to {}, {slots} slots, {used} in use\n\
         files      {}, and {}; {}\n\
         granules   {owned} owned, {} free, {reserved} reserved\n\
         open code  {:04X}H\n",
        disk.image().len(),
        counted(geometry.blocks, "block"),
        counted(geometry.units, "unit"),
        shape::granules(geometry, total),
        if geometry.system_disk { "system" } else { "data" },
        shape::preset_of(geometry).unwrap_or("none"),
        geometry.start,
        geometry.start + sectors - 1,
        counted(counts.files, "file"),
        counted(system, "system file"),
        more.told(geometry),
        counts.free,
        geometry.open_code,
    );
    let mut json = opened.head();
    json.extend([
        ("bytes", disk.image().len().into()),
        ("granules", total.into()),
        ("owned", owned.into()),
        ("free", counts.free.into()),
        ("reserved", reserved.into()),
        ("directory_sectors", sectors.into()),
        ("slots", slots.into()),
        ("slots_used", used.into()),
        ("files", counts.files.into()),
        ("system_files", system.into()),
        ("files_more_system_disk", more.system.into()),
        ("files_more_data_disk", more.data.into()),
    ]);
    Ok(Output { text: text.into_bytes(), json: Json::Object(json), ..opened.output() })
}

fn about_file(entry: &Entry, geometry: Geometry) -> String {
    let code = |code: u16| match code == geometry.open_code {
        true => format!("{code:04X}H, the open code"),
        false => format!("{code:04X}H"),
    };
    let mut text = format!(
        "{}\n  size           {}, {}\n  date           {}\n  record length  {}\n  attributes     {}\n  \
         main code      {}\n  worker code    {}\n  slot           {:02X}H\n",
        entry.name(),
        counted(entry.size(), "byte"),
        counted(entry.granules(), "granule"),
        entry.date(),
        entry.record_length(),
        attributes(entry, geometry),
        code(entry.main_code()),
        code(entry.worker_code()),
        entry.slot(),
    );
    for run in entry.runs() {
        let (first, last) = sectors(run, geometry);
        text += &format!(
            "  run            {} from {}, sectors {first} to {last}\n",
            counted(run.granules, "granule"),
            run.first
        );
    }
    text
}

/// First and last sector of a run.
fn sectors(run: &Run, geometry: Geometry) -> (usize, usize) {
    let first = run.first * geometry.granule_sectors;
    (first, first + run.granules * geometry.granule_sectors - 1)
}

fn json_of(entry: &Entry, geometry: Geometry) -> Json {
    let runs = entry.runs().iter().map(|run| {
        let (first, last) = sectors(run, geometry);
        Json::object([
            ("first", run.first.into()),
            ("granules", run.granules.into()),
            ("first_sector", first.into()),
            ("last_sector", last.into()),
        ])
    });
    let runs = Json::list(runs);
    match file_json(entry, geometry) {
        Json::Object(mut members) => {
            members.push(("runs", runs));
            Json::Object(members)
        }
        other => other,
    }
}
