//! `gdos play` and `gdos record`.

use super::choose::image_and_rest;
use super::new::place;
use super::opened::{shown, Opened};
use super::{Command, Output, DONE, FORCE, JSON};
use crate::args::{Args, Spec};
use crate::failure::Failure;
use crate::host;
use crate::json::Json;
use crate::recording;
use crate::shape;
use crate::text::counted;
use genie_dos::{Refusal, Trace};
use std::ffi::OsStr;
use std::path::Path;

const TO_IMAGE: Spec = Spec {
    long: "to-image",
    short: Some(b'o'),
    value: Some("COPY"),
    help: "write the disk that is left as this image",
};
const IN_PLACE: Spec = Spec { long: "in-place", short: None, value: None, help: "change the image itself" };
const SHOW: Spec =
    Spec { long: "show", short: None, value: None, help: "write the trace's calls as a list, and play nothing" };

pub const COMMAND: Command = Command {
    name: "play",
    summary: "play back a recorded session",
    usage: "[OPTIONS] IMAGE TRACE",
    about: "\
Makes the calls of a trace on a copy of the disk in memory, one after the other, and tells the result of each. A call
that is refused stops nothing. The trace is read through first: one that is bad is refused, with the place of its first
bad bit, before anything runs. The image stays as it is, unless --in-place says otherwise; --to-image keeps what the
calls leave as an image of its own.

With --show TRACE the calls are written as a list, as gdos record takes it.
",
    groups: &[
        (
            "Options",
            &[TO_IMAGE, IN_PLACE, SHOW, Spec { help: "replace a copy that is there", ..FORCE }, shape::SEARCH, JSON],
        ),
        (shape::TITLE, shape::OPTIONS),
    ],
    examples: &[
        "gdos play disk.img session.trace",
        "gdos play disk.img session.trace --to-image after.img",
        "gdos play --show session.trace",
    ],
    status: DONE,
    run,
};

pub const RECORD: Command = Command {
    name: "record",
    summary: "pack a list of calls into a trace",
    usage: "[OPTIONS] LIST TRACE",
    about: "\
Reads a list of calls, one a line, and writes the trace that gdos play plays back. A trace has at most 32 names.

    create PULS01/DAT 256          record length
    write PULS01/DAT 0 256 41H     position, record length, fill byte: a sequential write of a record of that byte
    random PULS01/DAT 300 3 42H    the same, a random write
    read PULS01/DAT 0 256          position, record length
    allot PULS01/DAT 7             sector
    trim PULS01/DAT
    kill PULS01/DAT
    # a remark

A name that is not well formed is = and its eleven bytes in hexadecimal.
",
    groups: &[("Options", &[Spec { help: "replace a trace that is there", ..FORCE }, JSON])],
    examples: &["gdos record session.txt session.trace"],
    status: DONE,
    run: record,
};

fn run(args: &Args) -> Result<Output, Failure> {
    if args.has("show") {
        return show(args);
    }
    let (image, trace) = match image_and_rest(args)? {
        (image, [trace]) => (image, trace),
        (_, []) => return Err(Failure::Wrong("which trace? Its name is missing".to_string())),
        (_, [_, surplus, ..]) => return Err(Failure::Wrong(format!("what is {surplus:?} for? One trace is played"))),
    };
    let copy = args.value("to-image");
    if copy.is_some() && args.has("in-place") {
        return Err(Failure::Wrong("--to-image or --in-place, not both".to_string()));
    }
    if let Some(copy) = copy.filter(|copy| host::same_file(Path::new(image), Path::new(copy))) {
        return Err(Failure::Wrong(format!("{} is the image itself: --in-place changes it", shown(copy))));
    }
    let bytes = host::read(Path::new(trace))?;
    if args.has("in-place") {
        let (mut opened, locked) = Opened::change(args, image)?;
        let mut output = Output { changed: true, ..opened.output() };
        let results = played(&mut opened, trace, &bytes)?;
        output.notes.extend(opened.keep(locked)?);
        return Ok(told(&opened, output, &bytes, &results, Some(image)));
    }
    let mut opened = Opened::look(args, image)?;
    let mut output = opened.output();
    let results = played(&mut opened, trace, &bytes)?;
    if let Some(copy) = copy {
        output.notes.extend(place(copy, &opened.disk, opened.geometry(), args.has("force"))?);
        output.changed = true;
    }
    Ok(told(&opened, output, &bytes, &results, copy))
}

fn played(opened: &mut Opened, trace: &OsStr, bytes: &[u8]) -> Result<Vec<Option<Refusal>>, Failure> {
    let Opened { disk, path, .. } = opened;
    disk.play(bytes).map_err(Failure::file(path, &shown(trace)))
}

/// A line a call with its result, and where the disk is that they leave.
fn told(opened: &Opened, output: Output, bytes: &[u8], results: &[Option<Refusal>], kept: Option<&OsStr>) -> Output {
    // The library has taken the trace, so it can be unpacked.
    let trace = Trace::unpack(bytes).unwrap_or_default();
    let mut text = String::new();
    for (recorded, result) in trace.calls.iter().zip(results) {
        let result = result.map_or("done".to_string(), |refusal| refusal.to_string());
        text += &format!("{}: {result}\n", recording::line(&trace, recorded));
    }
    let refused = results.iter().flatten().count();
    let left = kept.map_or("the image is as it was".to_string(), |image| format!("written to {}", shown(image)));
    text += &format!("{}, {refused} refused; {left}\n", counted(results.len(), "call"));
    let calls = trace.calls.iter().zip(results).map(|(recorded, result)| {
        let refused = result
            .map(|refusal| Json::object([("number", refusal.number().into()), ("meaning", refusal.meaning().into())]));
        Json::object([
            ("call", recording::line(&trace, recorded).into()),
            ("result", result.map_or(0, Refusal::number).into()),
            ("refused", refused.unwrap_or_default()),
        ])
    });
    let mut json = opened.head();
    json.push(("calls", Json::list(calls)));
    json.push(("written", kept.map(shown).into()));
    Output { text: text.into_bytes(), json: Json::Object(json), ..output }
}

fn unpacked(path: &OsStr) -> Result<Trace, Failure> {
    let bytes = host::read(Path::new(path))?;
    let path = shown(path);
    Trace::unpack(&bytes).map_err(|place| Failure::image(&path)(Refusal::Trace(place)))
}

fn show(args: &Args) -> Result<Output, Failure> {
    let trace = match &args.words[..] {
        [path] => unpacked(path)?,
        _ => return Err(Failure::Wrong("--show wants one trace, and no image".to_string())),
    };
    let names = trace.names.iter().map(|name| Json::from(recording::name_text(name)));
    let calls = trace.calls.iter().map(|recorded| Json::from(recording::line(&trace, recorded)));
    let json = Json::object([("names", Json::list(names)), ("calls", Json::list(calls))]);
    Ok(Output { text: recording::written(&trace).into_bytes(), json, ..Output::default() })
}

fn record(args: &Args) -> Result<Output, Failure> {
    let (list, to) = match &args.words[..] {
        [list, to] => (list, to),
        _ => return Err(Failure::Wrong("which list, and which trace? gdos record LIST TRACE".to_string())),
    };
    let text = host::read(Path::new(list))?;
    let wrong = |why: String| Failure::Wrong(format!("{}: {why}", shown(list)));
    let trace = recording::parse(&String::from_utf8_lossy(&text)).map_err(wrong)?;
    let bytes = trace.pack().map_err(|why| wrong(why.to_string()))?;
    host::write(Path::new(to), &bytes, args.has("force"))?;
    let (names, calls) = (trace.names.len(), trace.calls.len());
    let text =
        format!("{}: {}, {}, {} bytes\n", shown(to), counted(names, "name"), counted(calls, "call"), bytes.len());
    let json = Json::object([
        ("trace", shown(to).into()),
        ("names", names.into()),
        ("calls", calls.into()),
        ("bytes", bytes.len().into()),
    ]);
    Ok(Output { text: text.into_bytes(), json, changed: true, ..Output::default() })
}
