//! `gdos put`.

use super::choose::{image_and_rest, password, refused};
use super::opened::Opened;
use super::room::{slots_left, Runs};
use super::{failures_json, Command, Output, CODE, DONE, FORCE, JSON, UNLOCK};
use crate::args::{Args, Spec};
use crate::date;
use crate::failure::Failure;
use crate::host;
use crate::json::Json;
use crate::names::Typed;
use crate::shape;
use crate::text::counted;
use genie_dos::{Date, Disk, Geometry, Handle, Kind, NewFile, Password, Refusal};
use std::ffi::{OsStr, OsString};
use std::fmt;
use std::path::Path;

const AS: Spec =
    Spec { long: "as", short: None, value: Some("NAME"), help: "the file's name on the disk (one file only)" };
pub const DATE: Spec = Spec {
    long: "date",
    short: None,
    value: Some("DATE"),
    help: "the date of new files, as 1983-10-09, or none (today's)",
};
const RECORD_LENGTH: Spec = Spec {
    long: "record-length",
    short: None,
    value: Some("N"),
    help: "the record length of new files, 1 to 256 (256)",
};
const WORKER_CODE: Spec = Spec {
    long: "worker-code",
    short: None,
    value: Some("CODE"),
    help: "the worker code of new files (the same as --code)",
};

pub const COMMAND: Command = Command {
    name: "put",
    summary: "copy files of the host to a disk",
    usage: "[OPTIONS] IMAGE FILE...",
    about: "\
Copies whole files: puls01.dat becomes PULS01/DAT, or what --as says; - is standard input and needs --as. A line
tells of each. All files are put or none: if one is refused, the image stays as it is. Every name that is none or is
there already is told.

A file that is on the disk already is an error unless --force is given. Then its content is replaced and space that
it no longer needs is given back; its date, codes, record length and flags stay, for no call of the system changes
them. (To have new ones: gdos rm, then gdos put.)

New files get today's date (UTC). The disk's years end with 1995: later days are written as that year's, and a note
says so. With --date none the directory states no day. Both codes are the open code, that is no password, unless
--code says otherwise.
",
    groups: &[
        (
            "Options",
            &[
                AS,
                Spec { help: "overwrite files that are on the disk", ..FORCE },
                DATE,
                RECORD_LENGTH,
                Spec { help: "main code of new files, and the code to open old ones by (the open code)", ..CODE },
                WORKER_CODE,
                Spec { help: "overwrite old files without checking their passwords", ..UNLOCK },
                shape::SEARCH,
                JSON,
            ],
        ),
        (shape::TITLE, shape::OPTIONS),
    ],
    examples: &[
        "gdos put disk.img eich01.dat eich02.dat",
        "gdos put disk.img calibration.bin --as EICH01/DAT --force",
        "gdos put disk.img puls01.dat --date 1983-10-09 --record-length 128",
        "gdos put disk.img leer.dat --date none",
    ],
    status: DONE,
    run,
};

/// A file of the host, read, with its name and its date on the disk.
pub(super) struct Source {
    pub typed: Typed,
    /// Where it is from, for messages.
    pub host: String,
    pub bytes: Vec<u8>,
    pub date: Date,
}

fn run(args: &Args) -> Result<Output, Failure> {
    let (image, words) = image_and_rest(args)?;
    let (date, note) = date(args)?;
    let sources = sources(args, words, date)?;
    put_all(args, image, &sources, note)
}

/// Puts all files on an image, or none. The note is of the dates of new files.
pub(super) fn put_all(args: &Args, image: &OsStr, sources: &[Source], note: Option<String>) -> Result<Output, Failure> {
    let record_length = args.number("record-length")?.unwrap_or(256);
    let (main_code, worker_code) = (args.code("code")?, args.code("worker-code")?);
    let (mut opened, locked) = Opened::change(args, image)?;
    let (geometry, output) = (opened.geometry(), opened.output());
    let main_code = main_code.unwrap_or(geometry.open_code);
    // The date is each file's own.
    let new = NewFile::open(geometry, date::NONE)
        .with_record_length(record_length)
        .with_codes(main_code, worker_code.unwrap_or(main_code))
        .with_checking(!args.has("unlock"));
    // Old files and the parts of new ones are opened as create opens: by the main code.
    let password = match args.has("unlock") {
        true => Password::Unchecked,
        false => password(args, geometry)?,
    };
    let mut failures = cannot_be(&mut opened, sources, &new, args.has("force"));
    match failures.len() {
        0 => {}
        1 => return Err(failures.remove(0)),
        _ => {
            let json = Json::object([("failures", failures_json(&failures))]);
            return Ok(Output { json, failures, ..output });
        }
    }
    let mut put = Vec::new();
    for source in sources {
        put.push((source, put_one(&mut opened, source, &new, password, args.has("force"))?));
    }
    let mut output = Output { changed: true, ..output };
    // Old files keep their date.
    output.notes.extend(note.filter(|_| put.iter().any(|(_, old)| !old)));
    let mut told = Vec::new();
    for (source, old) in put {
        let (line, json) = report(&opened, source, old)?;
        output.text.extend(line.into_bytes());
        told.push(json);
    }
    output.notes.extend(opened.keep(locked)?);
    let mut json = opened.head();
    json.push(("files", Json::List(told)));
    output.json = Json::Object(json);
    Ok(output)
}

/// Every name under which no file can be put: it is none, or a file has it that may not be overwritten. Create changes
/// nothing under such a name.
fn cannot_be(opened: &mut Opened, sources: &[Source], new: &NewFile, force: bool) -> Vec<Failure> {
    let mut failures = Vec::new();
    for source in sources {
        let name = &source.typed.name;
        if source.typed.wrong.is_some() || opened.disk.look_up(name).slot.is_ok() {
            failures.extend(create(opened, source, new, force).err());
        }
    }
    failures
}

/// The date given, if one is.
pub(super) fn stated_date(args: &Args) -> Result<Option<Date>, Failure> {
    let given = match args.value("date") {
        Some(given) if given == "none" => return Ok(Some(date::NONE)),
        Some(given) => given,
        None => return Ok(None),
    };
    let wrong = || Failure::Wrong(format!("--date wants a date from 1980 on, as 1983-10-09, or none, not {given:?}"));
    let date = given.to_str().and_then(date::parse).ok_or_else(wrong)?;
    match date::is_no_day(date) {
        true => Err(Failure::Wrong(format!("--date: the calendar has no {date}"))),
        false => Ok(Some(date)),
    }
}

/// The date given; or today's as far as the disk can hold it, and a note if it cannot.
pub fn date(args: &Args) -> Result<(Date, Option<String>), Failure> {
    Ok(match stated_date(args)? {
        Some(date) => (date, None),
        None => today(),
    })
}

fn today() -> (Date, Option<String>) {
    let today = date::today();
    let clamped = date::clamped(today);
    let note = format!("the disk's dates go from 1980 to 1995: today, {today}, is written as {clamped}");
    (clamped, (clamped != today).then_some(note))
}

/// That no two files go to one name.
pub(super) fn no_twins(sources: &[Source]) -> Result<(), Failure> {
    for (number, source) in sources.iter().enumerate().filter(|(_, source)| source.typed.wrong.is_none()) {
        if let Some(twin) = sources[..number].iter().find(|twin| twin.typed.name == source.typed.name) {
            let (one, other, name) = (&twin.host, &source.host, &source.typed.text);
            return Err(Failure::Wrong(format!("{one} and {other} would both become {name}")));
        }
    }
    Ok(())
}

/// Reads all files of the host before the image is touched.
fn sources(args: &Args, words: &[OsString], date: Date) -> Result<Vec<Source>, Failure> {
    let named = args.value("as").map(OsStr::to_string_lossy);
    if words.is_empty() {
        return Err(Failure::Wrong("which files of the host? Name some".to_string()));
    }
    if named.is_some() && words.len() > 1 {
        return Err(Failure::Wrong("--as names one file, but several are to be put".to_string()));
    }
    let mut sources: Vec<Source> = Vec::new();
    for word in words {
        let standard_input = word == "-";
        let host = match standard_input {
            true => "standard input".to_string(),
            false => word.to_string_lossy().into_owned(),
        };
        let typed = match &named {
            Some(name) => Typed::new(name),
            None if standard_input => {
                return Err(Failure::Wrong("standard input has no name: say --as NAME".to_string()))
            }
            None => Typed::for_host(Path::new(word)),
        };
        let bytes = match standard_input {
            true => host::read_standard_input()?,
            false => host::read(Path::new(word))?,
        };
        sources.push(Source { typed, host, bytes, date });
    }
    no_twins(&sources)?;
    Ok(sources)
}

/// Creates a file, or opens the old one if it may be overwritten; answers whether it was there before.
fn create(opened: &mut Opened, source: &Source, new: &NewFile, force: bool) -> Result<bool, Failure> {
    let Source { typed, .. } = source;
    let (path, disk) = (&opened.path, &mut opened.disk);
    let new = &new.with_date(source.date);
    let created = disk.create(&typed.name, new).map_err(|refusal| {
        let failure = refused(path, typed)(refusal);
        match refusal {
            Refusal::Range => failure.because(format!(
                "dates go from 1980 to 1995, record lengths from 1 to 256; given are {} and {}",
                new.date, new.record_length
            )),
            Refusal::NoSlot => failure.because(slots_left(disk)),
            _ => failure,
        }
    })?;
    match created.old && !force {
        true => Err(Failure::Wrong(format!("{} is on {path} already; --force overwrites it", typed.text))),
        false => Ok(created.old),
    }
}

/// Puts one file on the disk in memory; answers whether it was there before.
pub(super) fn put_one(
    opened: &mut Opened,
    source: &Source,
    new: &NewFile,
    password: Password,
    force: bool,
) -> Result<bool, Failure> {
    let old = create(opened, source, new, force)?;
    let Source { typed, bytes, .. } = source;
    let (path, disk) = (&opened.path, &mut opened.disk);
    // A write of nothing to a file of nothing would do no more than mark it as worked on.
    if bytes.is_empty() && is_empty(disk, typed) {
        return Ok(old);
    }
    let handle = write(disk, typed, bytes, password).map_err(|refusal| {
        // What was refused left the disk as it was.
        let wants = Wants::of(disk, typed, bytes.len());
        let failure = refused(path, typed)(refusal);
        match (refusal, Runs::of(disk, &typed.name, wants.granules)) {
            (Refusal::NoSpace, _) => failure.because(wants),
            (Refusal::NoSlot, Some(runs)) => {
                failure.because(format!("{runs}; {}", slots_left(disk))).in_runs(runs.needed, runs.room)
            }
            _ => failure,
        }
    })?;
    // A new file has no more than it needs.
    if old {
        disk.trim(&handle).map_err(refused(path, typed))?;
    }
    Ok(old)
}

fn is_empty(disk: &Disk, typed: &Typed) -> bool {
    let entries = disk.entries().unwrap_or_default();
    entries.iter().any(|entry| entry.name() == typed.name && entry.size() == 0 && entry.granules() == 0)
}

/// What a file wants of a disk on which it is not yet written.
struct Wants {
    size: usize,
    /// Granules that it has already, those that it wants more, and those that are free.
    owned: usize,
    granules: usize,
    free: usize,
}

impl Wants {
    fn of(disk: &Disk, typed: &Typed, size: usize) -> Wants {
        let entries = disk.entries().unwrap_or_default();
        let owned = entries.iter().find(|entry| entry.name() == typed.name).map_or(0, |entry| entry.granules());
        let granules = disk.geometry().granules_for(size).saturating_sub(owned);
        Wants { size, owned, granules, free: disk.count().map_or(0, |counts| counts.free) }
    }
}

impl fmt::Display for Wants {
    fn fmt(&self, f: &mut fmt::Formatter<'_>) -> fmt::Result {
        if self.size > Geometry::MOST_BYTES {
            return write!(f, "it has more than {} bytes, which no disk can hold", Geometry::MOST_BYTES);
        }
        let what = if self.owned > 0 { "more granule" } else { "granule" };
        let are = if self.free == 1 { "is" } else { "are" };
        write!(f, "it wants {}, and {} {are} free", counted(self.granules, what), self.free)
    }
}

/// Writes the whole file in one call. All its granules are taken at once: so where the lowest free ones would be too scattered
/// for the slots that are left, longer stretches are taken. More bytes than any position has are refused for want of space,
/// as the largest file would be.
fn write(disk: &mut Disk, typed: &Typed, bytes: &[u8], password: Password) -> Result<Handle, Refusal> {
    let mut handle = disk.open(&typed.name, 256, password)?;
    if bytes.len() > disk.geometry().highest_position() {
        disk.allot(&handle, disk.geometry().highest_position() / Geometry::SECTOR_BYTES - 1)?;
        return Err(Refusal::Range);
    }
    disk.write_bytes(&mut handle, Kind::Sequential, bytes)?;
    Ok(handle)
}

fn report(opened: &Opened, source: &Source, old: bool) -> Result<(String, Json), Failure> {
    let Source { typed, host, .. } = source;
    let path = &opened.path;
    let entries = opened.disk.entries().map_err(Failure::image(path))?;
    let entry = entries.iter().find(|entry| entry.name() == typed.name);
    let entry = entry.ok_or_else(|| Failure::file(path, &typed.text)(Refusal::NotFound))?;
    let (size, granules) = (entry.size(), entry.granules());
    let line = format!(
        "{host} to {}, {}, {}{}\n",
        entry.name(),
        counted(size, "byte"),
        counted(granules, "granule"),
        if old { ", overwritten" } else { "" }
    );
    let json = Json::object([
        ("name", entry.name().to_string().into()),
        ("host", host.as_str().into()),
        ("size", size.into()),
        ("granules", granules.into()),
        ("overwritten", old.into()),
    ]);
    Ok((line, json))
}
