//! `gdos cp`.

use super::choose::{chosen, open, password};
use super::ls::attributes;
use super::opened::Opened;
use super::put::{put_one, Source};
use super::{Command, Output, ALL, CODE, DONE, FORCE, JSON, UNLOCK};
use crate::args::{Args, Spec};
use crate::failure::Failure;
use crate::json::Json;
use crate::names::{is_pattern, Typed};
use crate::shape::{self, Wanted};
use crate::text::counted;
use genie_dos::{Entry, Geometry, NewFile, Refusal};
use std::ffi::{OsStr, OsString};

pub const COMMAND: Command = Command {
    name: "cp",
    summary: "copy files from one disk to another",
    usage: "[OPTIONS] FROM.img:NAME... TO.img:[NAME]",
    about: "\
Copies each named file, and each that a pattern fits, to the disk behind the last word, under the same name or under
the one that is given there. A line tells of each. All files are copied or none: if one is refused, the image stays as
it is.

Bytes, date, record length and both codes are kept; a code that stands for \"no password\" on the first disk becomes
the one that does on the second. No call of the system sets the other attributes (invisible, level, the flags E and
F), so a copy is born without them, and a write sets B: where a copy's attributes are not those of the file, a note
says so. A file that is on the second disk already is an error unless --force is given; then its content is replaced,
and all else of it stays. Each disk has its own geometry. What the options say holds for both, except where one that
ends in 2 says otherwise of the second.
",
    groups: &[
        (
            "Options",
            &[
                Spec { help: "overwrite files that are on the second disk", ..FORCE },
                ALL,
                Spec { help: "the password code to open files by, on both disks (the open code)", ..CODE },
                UNLOCK,
                shape::SEARCH,
                JSON,
            ],
        ),
        (shape::TITLE, shape::OPTIONS_OF_TWO),
    ],
    examples: &[
        "gdos cp bench1.img:PULS01/DAT bench2.img:",
        "gdos cp bench1.img:'PULS*/DAT' archive.img:",
        "gdos cp bench1.img:EICH01/DAT bench1.img:EICH01/OLD",
    ],
    status: DONE,
    run,
};

/// A word of the form IMAGE:NAME. No name has a colon.
fn parted(word: &OsStr) -> Result<(OsString, OsString), Failure> {
    let text = word.to_string_lossy();
    let (image, name) = text.rsplit_once(':').ok_or_else(|| {
        Failure::Wrong(format!("{text}: which file of which image? Write IMAGE:NAME, or IMAGE: for the target"))
    })?;
    match image.is_empty() {
        true => Err(Failure::Wrong(format!("{text}: which image? Its name is missing before the colon"))),
        false => Ok((image.into(), name.into())),
    }
}

/// A file that is to be copied, with its entry and the geometry of the disk that has it.
struct Copied {
    source: Source,
    entry: Entry,
    geometry: Geometry,
}

fn run(args: &Args) -> Result<Output, Failure> {
    let (from, to) = match args.words.split_last() {
        None => return Err(Failure::Wrong("which files, and to which image?".to_string())),
        Some((_, [])) => {
            return Err(Failure::Wrong("to which image? The last word, as TO.img:, is missing".to_string()))
        }
        Some((to, from)) => (from, to),
    };
    let (target, as_name) = parted(to)?;
    let mut files = Vec::new();
    for (opened, words) in &looked_at(args, from)? {
        files.extend(read(args, opened, words)?);
    }
    if !as_name.is_empty() {
        let typed = Typed::new(&as_name.to_string_lossy());
        match files.as_mut_slice() {
            [one] if !is_pattern(&as_name.to_string_lossy()) => one.source.typed = typed,
            _ => return Err(Failure::Wrong(format!("{} names one file, but several are to be copied", typed.text))),
        }
    }

    for (at, file) in files.iter().enumerate() {
        let (typed, host) = (&file.source.typed, &file.source.host);
        if let Some(twin) = files[..at].iter().find(|twin| twin.source.typed.name == typed.name) {
            return Err(Failure::Wrong(format!("{} and {host} would both become {}", twin.source.host, typed.text)));
        }
    }

    let (mut opened, locked) = Opened::change_as(&Wanted::second_from_args(args)?, args.has("search"), &target)?;
    let mut output = opened.output();
    let by = password(args, opened.geometry())?;
    let mut old = Vec::new();
    for file in &files {
        let new = new_file(args, &opened, file)?;
        old.push(put_one(&mut opened, &file.source, &new, by, args.has("force"))?);
    }
    let entries = opened.disk.entries().map_err(Failure::image(&opened.path))?;
    let mut rows = Vec::new();
    for (file, old) in files.iter().zip(old) {
        let host = &file.source.host;
        let copy = entries.iter().find(|copy| copy.name() == file.source.typed.name);
        let copy = copy.ok_or_else(|| Failure::file(&opened.path, &file.source.typed.text)(Refusal::NotFound))?;
        let (size, granules) = (counted(copy.size(), "byte"), counted(copy.granules(), "granule"));
        let over = if old { ", overwritten" } else { "" };
        let line = format!("{host} to {}:{}, {size}, {granules}{over}\n", opened.path, copy.name());
        output.text.extend(line.into_bytes());
        output.notes.extend(not_kept(file, copy, opened.geometry(), old));
        rows.push(Json::object([
            ("from", host.as_str().into()),
            ("name", copy.name().to_string().into()),
            ("size", copy.size().into()),
            ("granules", copy.granules().into()),
            ("overwritten", old.into()),
        ]));
    }
    output.notes.extend(opened.keep(locked)?);
    output.changed = true;
    let mut json = opened.head();
    json.push(("files", Json::List(rows)));
    output.json = Json::Object(json);
    Ok(output)
}

/// The images that the words name, each with the names or patterns of its files; each image is read once.
fn looked_at(args: &Args, words: &[OsString]) -> Result<Vec<(Opened, Vec<OsString>)>, Failure> {
    let wanted = Wanted::from_args(args)?;
    let mut all: Vec<(OsString, Vec<OsString>)> = Vec::new();
    for word in words {
        let (image, name) = parted(word)?;
        if name.is_empty() {
            return Err(Failure::Wrong(format!(
                "{}: which file? Its name is missing behind the colon",
                word.to_string_lossy()
            )));
        }
        match all.iter_mut().find(|(there, _)| *there == image) {
            Some((_, names)) => names.push(name),
            None => all.push((image, vec![name])),
        }
    }
    all.into_iter().map(|(image, names)| Ok((Opened::look_as(&wanted, &image)?, names))).collect()
}

/// Reads the files of one image: all of them, or the first failure.
fn read(args: &Args, opened: &Opened, words: &[OsString]) -> Result<Vec<Copied>, Failure> {
    let by = password(args, opened.geometry())?;
    let entries = opened.disk.entries().map_err(Failure::image(&opened.path))?;
    let mut files = Vec::new();
    for choice in chosen(opened, words, args.has("all"))? {
        let typed = choice?;
        let handle = open(opened, &typed, by)?;
        let bytes = opened.disk.contents(&handle).map_err(Failure::file(&opened.path, &typed.text))?;
        let entry = entries.iter().find(|entry| entry.slot() == handle.slot()).cloned();
        let entry = entry.ok_or_else(|| Failure::file(&opened.path, &typed.text)(Refusal::NotFound))?;
        let host = format!("{}:{}", opened.path, typed.text);
        let source = Source { host, typed, bytes, date: entry.date() };
        files.push(Copied { source, entry, geometry: opened.geometry() });
    }
    Ok(files)
}

/// What a copy is born with: the file's date, record length and codes. Where a file is overwritten, the code counts that was
/// given to open it by.
fn new_file(args: &Args, opened: &Opened, file: &Copied) -> Result<NewFile, Failure> {
    let (ours, theirs) = (opened.geometry().open_code, file.geometry.open_code);
    let kept = |code: u16| if code == theirs { ours } else { code };
    let (main, worker) = match opened.disk.look_up(&file.source.typed.name).slot {
        Ok(_) => {
            let given = args.code("code")?.unwrap_or(ours);
            (given, given)
        }
        Err(_) => (kept(file.entry.main_code()), kept(file.entry.worker_code())),
    };
    let length = file.entry.record_length().into();
    let new = NewFile::open(opened.geometry(), file.entry.date()).with_record_length(length);
    Ok(new.with_codes(main, worker).with_checking(!args.has("unlock")))
}

/// What a copy has not of the file.
fn not_kept(file: &Copied, copy: &Entry, geometry: Geometry, old: bool) -> Option<String> {
    if old {
        let name = copy.name();
        return Some(format!("{name}: date, codes, record length and attributes are those of the file that was there"));
    }
    let (was, is) = (attributes(&file.entry, file.geometry), attributes(copy, geometry));
    (was != is).then(|| format!("{}: attributes {was} became {is}: no call sets them otherwise", file.source.host))
}
