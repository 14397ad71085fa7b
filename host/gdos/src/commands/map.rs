//! `gdos map`.

use super::choose::only_image;
use super::seeing::Shown;
use super::{Command, Output, DONE, FORCE, JSON};
use crate::args::{Args, Spec};
use crate::colour::{self, painted, Look};
use crate::damage;
use crate::dump::run_words;
use crate::failure::Failure;
use crate::json::Json;
use crate::shape;
use crate::text::{self, counted};
use genie_dos::{Cell, Drawing, Geometry, Holds, Map, MappedFile, Part, Run};
use std::ffi::OsStr;

const SVG: Spec = Spec { long: "svg", short: None, value: Some("FILE"), help: "draw it into an SVG file instead" };
const FILE: Spec =
    Spec { long: "file", short: None, value: Some("NAME"), help: "one file's way across the disk, run by run" };

pub const COMMAND: Command = Command {
    name: "map",
    summary: "show the granules of a disk as a picture",
    usage: "[OPTIONS] IMAGE",
    about: "\
One cell a granule, block by block; before each line stands its first block, and bars part the blocks. In a cell:
  .    free
  #    reserved: taken, and in no run
  DIR  the directory
  A1   run 1 of file A; the letters are told below, with name and slot
  A*B  shared: in runs of A and of B
  ?1   taken by nobody: run 1 of an extension in no file's chain
Behind a cell that a fault marks stands a !: one that the fault names, or the directory's with the bytes at fault. The
faults are told below.
A disk that is not consistent is shown too, if its geometry is stated. Other files' cells are - with --file.
",
    groups: &[
        ("Options", &[SVG, FILE, colour::COLOR, Spec { help: "replace an SVG file that is there", ..FORCE }, JSON]),
        (shape::TITLE, shape::OPTIONS),
    ],
    examples: &[
        "gdos map disk.img",
        "gdos map disk.img --file PULS01/DAT",
        "gdos map --preset dd40 damaged.img --svg damaged.svg",
    ],
    status: DONE,
    run,
};

fn run(args: &Args) -> Result<Output, Failure> {
    let image = only_image(args)?;
    let colours = colour::wanted(args)?;
    if args.has(FORCE.long) && !args.has(SVG.long) {
        return Err(Failure::Wrong("--force has no use without --svg".to_string()));
    }
    let shown = Shown::open(args, image)?;
    let file = match args.value(FILE.long) {
        Some(name) => Some(one(&shown, name)?),
        None => None,
    };
    let mut output = Output { notes: shown.notes(), json: json(&shown, file), ..Output::default() };
    match args.value(SVG.long) {
        Some(to) => {
            let title = title(&shown, file);
            let drawing = Drawing::new(&title).with_way(file.map(|file| file.slot));
            shown.write(image, to, shown.map.svg(&drawing).as_bytes(), args.has(FORCE.long))?;
            output.changed = true;
            output.text = format!("{title} to {}\n", to.to_string_lossy()).into_bytes();
        }
        None => output.text = picture(&shown, file, colours).into_bytes(),
    }
    Ok(output)
}

/// The one file of a name.
fn one<'a>(shown: &'a Shown, name: &OsStr) -> Result<&'a MappedFile, Failure> {
    match shown.files(name)?.as_slice() {
        [file] => Ok(file),
        files => {
            let slots: Vec<String> = files.iter().map(|file| text::slot(file.slot.into())).collect();
            let (name, slots) = (name.to_string_lossy(), slots.join(", "));
            Err(Failure::Wrong(format!(
                "several files have the name {name}, in slots {slots}; the whole map shows each"
            )))
        }
    }
}

fn title(shown: &Shown, file: Option<&MappedFile>) -> String {
    let path = &shown.opened.path;
    file.map_or_else(|| path.clone(), |file| format!("{} on {path}", file.name.shown()))
}

/// Columns of the terminal that a line may have.
const COLUMNS: usize = 80;

/// The picture for the terminal.
fn picture(shown: &Shown, file: Option<&MappedFile>, colours: bool) -> String {
    let map = &shown.map;
    let mut text = format!("{}\n{}\n", title(shown, file), map.summary());
    if let Some(file) = file {
        text += &way(map, file);
    }
    let label = |cell: &Cell| match file {
        Some(file) if cell.holds == Holds::File && cell.parts.iter().all(|part| part.file != Some(file.slot)) => {
            "-".to_string()
        }
        _ => map.label(cell),
    };
    // One place more for the mark.
    let width = map.cells.iter().map(|cell| label(cell).len()).max().unwrap_or_default() + 1;
    let across = blocks_across(map.geometry, width);
    let blocks: Vec<&[Cell]> = map.cells.chunks(map.geometry.units).collect();
    text += "\nblock";
    for (row, blocks) in blocks.chunks(across).enumerate() {
        text += &format!("\n{:>4} |", row * across);
        for block in blocks {
            for cell in *block {
                let mark = if cell.faults.is_empty() { "" } else { "!" };
                let shown = format!("{}{mark}", label(cell));
                text +=
                    &format!(" {}{}", painted_cell(map, file, cell, &shown, colours), " ".repeat(width - shown.len()));
            }
            text += "|";
        }
    }
    text + "\n\n" + &legend(map, file, colours)
}

/// Blocks side by side: of those that fit a number by which the blocks are divided without a rest, or else one that is easily
/// counted on from.
fn blocks_across(geometry: Geometry, width: usize) -> usize {
    let fitting = ((COLUMNS - 6) / (geometry.units * (width + 1) + 1)).max(1);
    let whole = ((fitting + 1) / 2..=fitting).rev().find(|&across| geometry.blocks % across == 0);
    let even = [1, 2, 4, 5, 8, 10, 12, 16, 20].into_iter().rev().find(|&across| across <= fitting);
    whole.or(even).unwrap_or(1)
}

fn painted_cell(map: &Map, file: Option<&MappedFile>, cell: &Cell, shown: &str, colours: bool) -> String {
    let number = |part: &Part| map.files.iter().position(|file| Some(file.slot) == part.file);
    let own = |part: &&Part| file.map_or(true, |file| part.file == Some(file.slot));
    let look = match cell.holds {
        _ if !cell.faults.is_empty() => Look::Fault,
        Holds::Directory => Look::Directory,
        Holds::File => cell.parts.first().filter(own).and_then(number).map_or(Look::Faint, Look::File),
        Holds::Shared | Holds::Nobody => Look::Fault,
        _ => Look::Faint,
    };
    painted(shown, look, colours)
}

/// A file's runs in their order.
fn way(map: &Map, file: &MappedFile) -> String {
    let line = |(number, run): (usize, &Run)| format!("  run {number}: {}\n", run_words(run, map.geometry));
    let slots: Vec<String> = file.slots.iter().map(|&slot| text::slot(slot.into())).collect();
    let entries = if slots.len() == 1 { "entry in slot" } else { "entries in slots" };
    format!("  {entries} {}\n", slots.join(", ")) + &(1..).zip(&file.runs).map(line).collect::<String>()
}

fn legend(map: &Map, file: Option<&MappedFile>, colours: bool) -> String {
    let mut text = String::new();
    let mut line = |label: &str, look: Look, words: &str| {
        text += &format!("  {}{} {words}\n", painted(label, look, colours), " ".repeat(4 - label.len().min(4)));
    };
    line(".", Look::Faint, "free");
    line("#", Look::Faint, "reserved: taken, and in no run");
    line("DIR", Look::Directory, "directory");
    if map.counted(Holds::Shared) > 0 {
        line("A*B", Look::Fault, "shared: in runs of A and of B");
    }
    if map.counted(Holds::Nobody) > 0 {
        line("?1", Look::Fault, "taken by nobody: run 1 of an extension in no file's chain");
    }
    if !map.faults.is_empty() {
        line("!", Look::Fault, "marked by a fault");
    }
    if file.is_some() {
        line("-", Look::Faint, "another file's");
    }
    for (number, mapped) in map.files.iter().enumerate().filter(|(_, mapped)| file.map_or(true, |file| file == *mapped))
    {
        let granules: usize = mapped.runs.iter().map(|run| run.granules).sum();
        let touched = if mapped.touched { "; touched by a fault" } else { "" };
        let words = format!(
            "{}: {} in {}{touched}",
            damage::named(&mapped.name, mapped.slot),
            counted(granules, "granule"),
            counted(mapped.runs.len(), "run")
        );
        line(&mapped.tag, Look::File(number), &words);
    }
    for fault in &map.faults {
        text += &format!("fault {}\n", damage::line(&fault.told));
    }
    text
}

fn json(shown: &Shown, file: Option<&MappedFile>) -> Json {
    let map = &shown.map;
    let cell = |cell: &Cell| {
        let part = |part: &Part| {
            Json::object([
                ("file", part.file.into()),
                ("slot", part.slot.into()),
                ("run", part.run.into()),
                ("index", part.index.into()),
                ("of", part.of.into()),
            ])
        };
        Json::object([
            ("granule", cell.granule.into()),
            ("block", cell.block.into()),
            ("unit", cell.unit.into()),
            ("holds", cell.holds.word().into()),
            ("taken", cell.taken.into()),
            ("parts", Json::list(cell.parts.iter().map(part))),
            ("faults", Json::list(cell.faults.iter().map(|&place| place.into()))),
        ])
    };
    let mapped = |mapped: &MappedFile| {
        let run = |run: &Run| Json::object([("first", run.first.into()), ("granules", run.granules.into())]);
        Json::object([
            ("name", mapped.name.shown().into()),
            ("slot", mapped.slot.into()),
            ("tag", mapped.tag.as_str().into()),
            ("slots", Json::list(mapped.slots.iter().map(|&slot| slot.into()))),
            ("runs", Json::list(mapped.runs.iter().map(run))),
            ("touched", mapped.touched.into()),
        ])
    };
    let files = map.files.iter().filter(|mapped| file.map_or(true, |file| file == *mapped));
    let mut json = shown.opened.head();
    json.extend([
        ("directory_sectors", map.directory_sectors.into()),
        ("consistent", map.faults.is_empty().into()),
        ("cells", Json::list(map.cells.iter().map(cell))),
        ("files", Json::list(files.map(mapped))),
        ("faults", Json::list(map.faults.iter().map(damage::fault_json))),
    ]);
    Json::Object(json)
}
