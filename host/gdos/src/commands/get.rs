//! `gdos get` and `gdos cat`.

use super::choose::{chosen, image_and_files, open, password};
use super::opened::Opened;
use super::{failures_json, Command, Output, ALL, CODE, DONE, FORCE, JSON, UNLOCK};
use crate::args::{Args, Spec};
use crate::date;
use crate::failure::Failure;
use crate::host;
use crate::json::Json;
use crate::names::{host_name, Typed};
use crate::shape;
use crate::text::counted;
use genie_dos::{Name, Password};
use std::ffi::{OsStr, OsString};
use std::path::{Path, PathBuf};

const OUTPUT: Spec = Spec {
    long: "output",
    short: Some(b'o'),
    value: Some("DIR"),
    help: "the folder to write to, made if need be (the present one); - for standard output",
};

pub const COMMAND: Command = Command {
    name: "get",
    summary: "copy files from a disk to the host",
    usage: "[OPTIONS] IMAGE NAME...",
    about: "\
Copies each named file, and each that a pattern fits, to a file of the host: PULS01/DAT to PULS01.DAT. A line tells
of each. A file that is refused or cannot be written does not stop the others; the status is that of the worst.
Files of the host are not overwritten unless --force is given, and never left half written. The file's date on the disk
becomes its time of last change, noon in UTC; where the disk states none, that is when it was read out.
",
    groups: &[
        ("Options", &[OUTPUT, Spec { help: "overwrite files of the host", ..FORCE }, ALL, CODE, UNLOCK, JSON]),
        (shape::TITLE, shape::OPTIONS),
    ],
    examples: &[
        "gdos get disk.img PULS01/DAT",
        "gdos get disk.img '*/DAT' -o series",
        "gdos get disk.img PULS01/DAT -o -",
    ],
    status: DONE,
    run,
};

pub const CAT: Command = Command {
    name: "cat",
    summary: "write files of a disk to standard output",
    usage: "[OPTIONS] IMAGE NAME...",
    about: "\
Writes the bytes of each named file, one file after the other, and nothing else. A file that is refused is left out
and told on standard error.
",
    groups: &[("Options", &[ALL, CODE, UNLOCK]), (shape::TITLE, shape::OPTIONS)],
    examples: &["gdos cat disk.img PULS01/DAT | xxd | less"],
    status: DONE,
    run: |args| {
        let (image, words) = image_and_files(args)?;
        to_standard_output(args, image, words)
    },
};

fn run(args: &Args) -> Result<Output, Failure> {
    let (image, words) = image_and_files(args)?;
    let folder = match args.value("output") {
        Some(folder) if folder == "-" && args.has("json") => {
            return Err(Failure::Wrong("-o - writes the files themselves, so --json has no place".to_string()));
        }
        Some(folder) if folder == "-" => return to_standard_output(args, image, words),
        Some(folder) => PathBuf::from(folder),
        None => PathBuf::new(),
    };
    let opened = Opened::look(args, image)?;
    let password = password(args, opened.geometry())?;
    host::make_folder(&folder)?;
    let mut output = opened.output();
    let mut told = Vec::new();
    let times = times(&opened)?;
    for choice in chosen(&opened, words, args.has("all"))? {
        match choice.and_then(|typed| get_one(&opened, &typed, password, &folder, &times, args.has("force"))) {
            Ok((line, json)) => {
                output.text.extend(line.into_bytes());
                output.changed = true;
                told.push(json);
            }
            Err(failure) => output.failures.push(failure),
        }
    }
    let mut json = opened.head();
    json.extend([("files", Json::List(told)), ("failures", failures_json(&output.failures))]);
    output.json = Json::Object(json);
    Ok(output)
}

/// The files' names, and the time that each has by its date, if that is a day.
type Times = Vec<(Name, Option<u64>)>;

pub(super) fn times(opened: &Opened) -> Result<Times, Failure> {
    let entries = opened.disk.entries().map_err(Failure::image(&opened.path))?;
    Ok(entries.iter().map(|entry| (entry.name(), date::seconds(entry.date()))).collect())
}

/// The time of a file.
pub(super) fn time_of(times: &Times, typed: &Typed) -> Option<u64> {
    times.iter().find(|(name, _)| *name == typed.name).and_then(|(_, time)| *time)
}

fn get_one(
    opened: &Opened,
    typed: &Typed,
    password: Password,
    folder: &Path,
    times: &Times,
    force: bool,
) -> Result<(String, Json), Failure> {
    let bytes = contents(opened, typed, password)?;
    let host = folder.join(host_name(&typed.name));
    host::write_dated(&host, &bytes, force, time_of(times, typed))?;
    let line = format!("{} to {}, {}\n", typed.text, host.display(), counted(bytes.len(), "byte"));
    let json = Json::object([
        ("name", typed.text.as_str().into()),
        ("host", host.to_string_lossy().into_owned().into()),
        ("size", bytes.len().into()),
    ]);
    Ok((line, json))
}

fn to_standard_output(args: &Args, image: &OsStr, words: &[OsString]) -> Result<Output, Failure> {
    let opened = Opened::look(args, image)?;
    let password = password(args, opened.geometry())?;
    let mut output = opened.output();
    for choice in chosen(&opened, words, args.has("all"))? {
        match choice.and_then(|typed| contents(&opened, &typed, password)) {
            Ok(bytes) => output.text.extend(bytes),
            Err(failure) => output.failures.push(failure),
        }
    }
    Ok(output)
}

pub(super) fn contents(opened: &Opened, typed: &Typed, password: Password) -> Result<Vec<u8>, Failure> {
    let handle = open(opened, typed, password)?;
    opened.disk.contents(&handle).map_err(Failure::file(&opened.path, &typed.text))
}
