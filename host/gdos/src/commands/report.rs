//! `gdos report`.

use super::choose::only_image;
use super::ls::{attributes, date};
use super::mend::mended;
use super::opened::shown as shown_path;
use super::rescue::{had_and_missing, Had};
use super::seeing::{presumed_length, Shown};
use super::undelete::removed_files;
use super::{Command, Output, DONE, FORCE, JSON};
use crate::args::{Args, Spec};
use crate::damage;
use crate::failure::Failure;
use crate::help;
use crate::json::Json;
use crate::page::{Column, Page};
use crate::shape;
use crate::text::{self, counted};
use genie_dos::{Drawing, Entry, FreeSpace, Geometry};

const OUTPUT: Spec = Spec { long: "output", short: Some(b'o'), value: Some("FILE"), help: "the HTML file to write" };

pub const COMMAND: Command = Command {
    name: "report",
    summary: "write a page about a disk, to be mailed or printed",
    usage: "[OPTIONS] IMAGE -o FILE.html",
    about: "\
Writes one page of HTML that needs nothing else: no script, no picture from elsewhere. It has the geometry and where
that is from, the files, the free space, every fault in words, what can be brought back, and the map of the granules
(gdos map). What can be brought back are, on a consistent disk, removed files (gdos undelete); on one that is not,
the files that can be had of a mended copy (gdos rescue), and it is told why not the others. The image is never
written.
A disk that is not consistent is reported too, if its geometry is stated.
",
    groups: &[
        ("Options", &[OUTPUT, Spec { help: "replace a page that is there", ..FORCE }, JSON]),
        (shape::TITLE, shape::OPTIONS),
    ],
    examples: &["gdos report disk.img -o disk.html", "gdos report --preset dd40 damaged.img -o damaged.html"],
    status: DONE,
    run,
};

fn run(args: &Args) -> Result<Output, Failure> {
    let image = only_image(args)?;
    let to = args.value(OUTPUT.long).ok_or_else(|| Failure::Wrong("which file? -o FILE names it".to_string()))?;
    let shown = Shown::open(args, image)?;
    let page = page(&shown)?;
    shown.write(image, to, page.as_bytes(), args.has(FORCE.long))?;
    let mut json = shown.opened.head();
    json.extend([
        ("report", shown_path(to).into()),
        ("consistent", shown.map.faults.is_empty().into()),
        ("faults", shown.map.faults.len().into()),
    ]);
    let text = format!("{}: report to {}\n", shown.opened.path, shown_path(to));
    Ok(Output {
        text: text.into_bytes(),
        json: Json::Object(json),
        notes: shown.notes(),
        changed: true,
        ..Output::default()
    })
}

fn page(shown: &Shown) -> Result<String, Failure> {
    let path = &shown.opened.path;
    let mut page = Page::new(&format!("Report on {path}"));
    match shown.map.faults.len() {
        0 => page.verdict(true, "The disk is consistent."),
        faults => page.verdict(false, &format!("The disk is not consistent: {}.", counted(faults, "fault"))),
    }
    about_disk(&mut page, shown)?;
    match shown.map.faults.is_empty() {
        true => consistent(&mut page, shown)?,
        false => damaged(&mut page, shown)?,
    }
    page.heading("Map of the granules");
    page.picture(&shown.map.svg(&Drawing::new(path).within_page("map")));
    Ok(page.finished(&format!("Report on {path}"), &format!("Written by {}", help::version().trim_end())))
}

fn about_disk(page: &mut Page, shown: &Shown) -> Result<(), Failure> {
    let (opened, map) = (&shown.opened, &shown.map);
    let geometry = opened.geometry();
    let FreeSpace { free, longest, .. } = opened.disk.free_space().map_err(Failure::image(&opened.path))?;
    let sized = shape::sized(geometry);
    let preset = shape::preset_of(geometry).map(|name| format!(" (preset {name})")).unwrap_or_default();
    let granules = counted(map.cells.len(), "granule");
    let free_words = format!(
        "{free} of {granules}, {} bytes; the longest stretch {}, {} bytes",
        free * geometry.granule_bytes(),
        counted(longest, "granule"),
        longest * geometry.granule_bytes()
    );
    let free_words = match map.faults.is_empty() {
        true => free_words,
        false => format!("{free_words}. This is what the GAT marks as free, not what may be taken"),
    };
    page.heading("The disk");
    page.terms(&[
        ("Image", format!("{}, {} bytes", opened.path, opened.disk.image().len())),
        (
            "Geometry",
            format!("{} of {}{sized}{preset}", counted(geometry.blocks, "block"), counted(geometry.units, "unit")),
        ),
        ("Geometry from", opened.source.words()),
        ("Directory", format!("sectors {} to {}", geometry.start, geometry.start + map.directory_sectors - 1)),
        ("Open code", format!("{:04X}H, which stands for no password", geometry.open_code)),
        ("Free", free_words),
    ]);
    let remarks = opened.notes().into_iter().chain(presumed_length(map));
    remarks.for_each(|remark| page.paragraph(&format!("Note: {remark}.")));
    Ok(())
}

const COLUMNS: [(&str, Column); 6] = [
    ("Name", Column::Code),
    ("Slot", Column::Code),
    ("Size", Column::Number),
    ("Granules", Column::Number),
    ("Date", Column::Code),
    ("Attributes", Column::Code),
];

/// What the letters of the attributes mean.
const LETTERS: &str = "Attributes: S system file, I invisible, F keeps its space, E may not grow, B was worked on, \
     P has a password; then the level of the worker code.";

fn row(entry: &Entry, geometry: Geometry) -> Vec<String> {
    vec![
        entry.name().shown(),
        text::slot(entry.slot().into()),
        entry.size().to_string(),
        entry.granules().to_string(),
        date(entry),
        attributes(entry, geometry),
    ]
}

/// Files, no faults, and removed files.
fn consistent(page: &mut Page, shown: &Shown) -> Result<(), Failure> {
    let opened = &shown.opened;
    let entries = opened.disk.entries().map_err(Failure::image(&opened.path))?;
    page.heading("Files");
    if entries.is_empty() {
        page.paragraph("The disk has no files.");
    } else {
        let rows: Vec<Vec<String>> = entries.iter().map(|entry| row(entry, opened.geometry())).collect();
        page.table(&COLUMNS, &rows);
        page.paragraph(LETTERS);
    }
    page.heading("Faults");
    page.paragraph("None: every rule of a consistent disk holds.");
    page.heading("What can be brought back");
    let removed = removed_files(opened)?;
    if removed.is_empty() {
        page.paragraph("No removed file left an entry in the directory.");
        return Ok(());
    }
    let rows: Vec<Vec<String>> = removed
        .iter()
        .map(|removed| {
            let entry = &removed.entry;
            vec![removed.name(), text::slot(entry.slot().into()), entry.size().to_string(), removed.answer_words()]
        })
        .collect();
    page.table(
        &[
            ("Removed file", Column::Code),
            ("Slot", Column::Code),
            ("Size", Column::Number),
            ("Can be brought back", Column::Text),
        ],
        &rows,
    );
    page.paragraph(
        "A file that is brought back has the bytes that its granules hold now; another file may have written them.",
    );
    Ok(())
}

/// Faults, and what can be had of a mended copy.
fn damaged(page: &mut Page, shown: &Shown) -> Result<(), Failure> {
    let opened = &shown.opened;
    let faults = opened.disk.faults().map_err(|refusal| opened.refused(refusal))?;
    page.heading("Faults");
    let lines: Vec<String> = faults.found.iter().map(|found| damage::found_line(found, &faults.files)).collect();
    page.list(&lines);
    page.heading("Files, and what can be brought back");
    let mended = match mended(opened) {
        Ok(mended) => mended,
        Err(failure) => {
            page.paragraph(&format!("No copy could be mended: {failure}."));
            return Ok(());
        }
    };
    let (had, missing) = had_and_missing(opened, &mended)?;
    let doubtful = had.iter().filter(|had| !had.file.doubts.is_empty()).count();
    page.paragraph(&format!(
        "Of a mended copy {} can be had without doubt, {doubtful} with doubt, and {} cannot be had. The disk itself stays as it is.",
        counted(had.len() - doubtful, "file"),
        missing.len()
    ));
    let mut rows: Vec<Vec<String>> = had
        .iter()
        .map(|Had { file, .. }| {
            let state = match file.doubts.as_slice() {
                [] => "yes".to_string(),
                doubts => format!("doubtful: {}", damage::doubts(doubts)),
            };
            let mut row = row(&file.entry, opened.geometry());
            row.push(state);
            row
        })
        .collect();
    for dropped in missing {
        let why = mended.steps.get(dropped.step).map(|step| damage::line(step.decisive())).unwrap_or_default();
        let mut row = vec![String::new(); COLUMNS.len()];
        row[0] = dropped.name.shown();
        row[1] = text::slot(dropped.slot.into());
        row.push(format!("no: {why}"));
        rows.push(row);
    }
    if !rows.is_empty() {
        let columns: Vec<(&str, Column)> = COLUMNS.into_iter().chain([("Can be had", Column::Text)]).collect();
        page.table(&columns, &rows);
        page.paragraph(LETTERS);
    }
    page.paragraph("Which removed files can be brought back is told of a consistent disk.");
    Ok(())
}
