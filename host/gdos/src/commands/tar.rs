//! `gdos tar`.

use super::choose::{chosen, image_and_rest, password};
use super::get::{contents, time_of, times};
use super::opened::Opened;
use super::put::{no_twins, put_all, stated_date, Source, DATE};
use super::{failures_json, Command, Output, ALL, CODE, DONE, FORCE, JSON, UNLOCK};
use crate::args::{Args, Spec};
use crate::date;
use crate::failure::Failure;
use crate::host;
use crate::json::Json;
use crate::names::{host_name, Typed};
use crate::shape;
use crate::tar::{self, Member};
use crate::text::counted;
use genie_dos::{Date, Geometry};
use std::ffi::{OsStr, OsString};
use std::path::Path;

const OUT: Spec = Spec {
    long: "output",
    short: Some(b'o'),
    value: Some("ARCHIVE"),
    help: "write the disk's files to this archive; - for standard output",
};
const IN: Spec = Spec {
    long: "in",
    short: Some(b'i'),
    value: Some("ARCHIVE"),
    help: "put the files of this archive on the disk; - for standard input",
};

/// More bytes than any archive has whose files go on a disk: the largest disk, and four blocks for each of 222 files.
const MOST: usize = Geometry::MOST_BYTES + (4 << 20);

pub const COMMAND: Command = Command {
    name: "tar",
    summary: "copy all files of a disk to a tar archive, or of one to a disk",
    usage: "[OPTIONS] IMAGE -o ARCHIVE [NAME...]",
    about: "\
Out: writes the named files, or all, as one tar archive: PULS01/DAT as PULS01.DAT, its date as its time, noon in UTC.
System files are among all files only with --all. If a file is refused, no archive is written.

In: puts every regular file of an archive on the disk, as gdos put would: series/puls01.dat becomes PULS01/DAT, with
the day of its time, in UTC, as its date, or what --date says. All files are put or none. A date that the disk cannot
hold is written as the nearest that it can, and a note says so. Read are the formats that GNU tar and others write; an
archive that is compressed is to be unpacked first, and one with links is refused.

Names, sizes and dates go both ways. Codes, levels and flags do not: no tar knows them. A date that is not stated
goes out as 1970, and a time before 1970-01-02 comes in as no date.
",
    groups: &[
        (
            "Options",
            &[
                OUT,
                IN,
                Spec { help: "out: overwrite the archive; in: overwrite files that are on the disk", ..FORCE },
                Spec { help: "out: system files too", ..ALL },
                Spec { help: "in: the date of new files, as 1983-10-09, or none (the archive's)", ..DATE },
                CODE,
                UNLOCK,
                shape::SEARCH,
                JSON,
            ],
        ),
        (shape::TITLE, shape::OPTIONS),
    ],
    examples: &[
        "gdos tar disk.img -o disk.tar",
        "gdos tar disk.img -o - '*/DAT' | tar -tv",
        "gdos tar new.img --in disk.tar",
        "tar -c puls01.dat puls02.dat | gdos tar disk.img --in - --date 1983-10-09",
    ],
    status: DONE,
    run,
};

fn run(args: &Args) -> Result<Output, Failure> {
    let (image, words) = image_and_rest(args)?;
    match (args.value(OUT.long), args.value(IN.long)) {
        (Some(archive), None) => out(args, image, words, archive),
        (None, Some(archive)) => into(args, image, words, archive),
        _ => Err(Failure::Wrong("which way? -o ARCHIVE takes files off the disk, --in ARCHIVE puts them on it".into())),
    }
}

/// A file of the disk with what is told of it.
struct Taken {
    name: String,
    member: Member,
}

fn out(args: &Args, image: &OsStr, words: &[OsString], archive: &OsStr) -> Result<Output, Failure> {
    if args.has(DATE.long) {
        return Err(Failure::Wrong("--date is for files that come in; out of a disk they have their own".to_string()));
    }
    let to_standard_output = archive == "-";
    if host::same_file(Path::new(image), Path::new(archive)) {
        return Err(Failure::Wrong(
            "the archive is to be written over the image itself: name another file".to_string(),
        ));
    }
    if to_standard_output && args.has(JSON.long) {
        return Err(Failure::Wrong("-o - writes the archive itself, so --json has no place".to_string()));
    }
    let opened = Opened::look(args, image)?;
    let password = password(args, opened.geometry())?;
    let times = times(&opened)?;
    let all = match words.is_empty() {
        true => all_names(&opened, args.has(ALL.long))?,
        false => Vec::new(),
    };
    let named = if words.is_empty() { &all } else { words };
    let mut output = opened.output();
    let mut taken = Vec::new();
    for choice in chosen(&opened, named, args.has(ALL.long))? {
        let read = choice.and_then(|typed| {
            let bytes = contents(&opened, &typed, password)?;
            let member = Member { name: host_name(&typed.name), bytes, time: time_of(&times, &typed).unwrap_or(0) };
            Ok(Taken { name: typed.text, member })
        });
        match read {
            Ok(read) => taken.push(read),
            Err(failure) => output.failures.push(failure),
        }
    }
    let mut json = opened.head();
    if !output.failures.is_empty() {
        json.push(("failures", failures_json(&output.failures)));
        output.json = Json::Object(json);
        return Ok(output);
    }
    let told: Vec<_> = taken.iter().map(out_json).collect();
    let lines: String = taken.iter().map(out_line).collect();
    let members: Vec<_> = taken.into_iter().map(|taken| taken.member).collect();
    let bytes = tar::write(&members);
    if to_standard_output {
        output.text = bytes;
        return Ok(output);
    }
    host::write(Path::new(archive), &bytes, args.has(FORCE.long))?;
    output.changed = true;
    let shown = archive.to_string_lossy();
    output.text = format!("{lines}{} in {shown}\n", counted(members.len(), "file")).into_bytes();
    json.extend([("archive", shown.as_ref().into()), ("files", Json::List(told))]);
    output.json = Json::Object(json);
    Ok(output)
}

/// The names of all files; system files are left out unless they are wanted.
fn all_names(opened: &Opened, system: bool) -> Result<Vec<OsString>, Failure> {
    let entries = opened.disk.entries().map_err(Failure::image(&opened.path))?;
    let wanted = entries.iter().filter(|entry| system || !entry.is_system());
    Ok(wanted.map(|entry| entry.name().to_string().into()).collect())
}

fn out_line(Taken { name, member }: &Taken) -> String {
    format!("{name} to {}, {}\n", member.name, counted(member.bytes.len(), "byte"))
}

fn out_json(Taken { name, member }: &Taken) -> Json {
    Json::object([
        ("name", name.as_str().into()),
        ("host", member.name.as_str().into()),
        ("size", member.bytes.len().into()),
    ])
}

fn into(args: &Args, image: &OsStr, words: &[OsString], archive: &OsStr) -> Result<Output, Failure> {
    if let Some(surplus) = words.first() {
        return Err(Failure::Wrong(format!("what is {surplus:?} for? All files of the archive are put")));
    }
    if args.has(ALL.long) {
        return Err(Failure::Wrong("--all is for files that go out; all of an archive are put anyway".to_string()));
    }
    let stated = stated_date(args)?;
    let path = Some(Path::new(archive)).filter(|_| archive != "-");
    let shown = path.map_or("standard input".to_string(), |path| path.display().to_string());
    let bytes = host::read_part(path, MOST + 1)?;
    if bytes.len() > MOST {
        return Err(Failure::Wrong(format!("{shown} has more than {MOST} bytes: no disk holds its files")));
    }
    let members = tar::read(&bytes).map_err(|wrong| Failure::Wrong(format!("cannot read {shown}: {wrong}")))?;
    let mut odd = Vec::new();
    let sources = members.into_iter().map(|member| {
        let date = stated.unwrap_or_else(|| {
            let (date, exact) = date_of(member.time);
            if !exact {
                odd.push(format!("{} ({})", member.name, date::from_seconds(member.time)));
            }
            date
        });
        let typed = Typed::for_host(Path::new(&member.name));
        Source { typed, host: member.name, bytes: member.bytes, date }
    });
    let sources: Vec<Source> = sources.collect();
    no_twins(&sources)?;
    if sources.is_empty() {
        return Err(Failure::Wrong(format!("{shown} has no regular file: there is nothing to put")));
    }
    let note = odd.first().map(|first| {
        let others =
            if odd.len() > 1 { format!(" and of {}", counted(odd.len() - 1, "other file")) } else { String::new() };
        format!("the disk's dates go from 1980 to 1995: that of {first}{others} is written as the nearest")
    });
    put_all(args, image, &sources, note)
}

/// The date for a file's time, and whether it is that day.
fn date_of(time: u64) -> (Date, bool) {
    let date = date::from_seconds(time);
    if date == date::from_seconds(0) {
        return (date::NONE, true);
    }
    let clamped = date::clamped(date);
    (clamped, clamped == date)
}
