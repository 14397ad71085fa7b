//! `gdos load`.

use super::choose::{image_and_rest, open, password};
use super::opened::Opened;
use super::{failures_json, Command, Output, CODE, DONE, FORCE, JSON, UNLOCK};
use crate::args::{Args, Spec};
use crate::failure::Failure;
use crate::host;
use crate::json::Json;
use crate::memory_image::{Memory, Span};
use crate::names::Typed;
use crate::shape;
use crate::text::counted;
use genie_dos::{Piece, RefusedLoad};
use std::path::Path;

const BIN: Spec =
    Spec { long: "bin", short: None, value: Some("FILE"), help: "write the memory that the records fill, gaps as 00" };
const HEX: Spec = Spec { long: "hex", short: None, value: Some("FILE"), help: "write it as Intel HEX" };

pub const COMMAND: Command = Command {
    name: "load",
    summary: "tell what a program file loads, and where",
    usage: "[OPTIONS] IMAGE NAME",
    about: "\
Tells the records of a program file in their order, each with the addresses that it fills, then the start address; then
how much of memory they fill, its gaps, and where a record fills what an earlier one filled. Comments are passed over.

A record is code 01, a count, a two-byte address and data bytes, the count less two; counts 0 and 1 mean 254 and 255.
By that count 2 is a record without bytes. Programs of the family mean 256 bytes by it: a file that holds such a record
and then does not go on as a program file is refused, and a note says so.

--bin and --hex write what the records leave in memory, the later one where two fill the same place, and only where
the file is whole. In Intel HEX the start address stands in the last record.
",
    groups: &[
        ("Options", &[BIN, HEX, Spec { help: "overwrite files of the host", ..FORCE }, CODE, UNLOCK, JSON]),
        (shape::TITLE, shape::OPTIONS),
    ],
    examples: &["gdos load disk.img PULS/CMD", "gdos load disk.img PULS/CMD --hex puls.hex"],
    status: DONE,
    run,
};

/// What is read of a program file up to its end.
#[derive(Default)]
struct Read {
    records: Vec<(u16, Vec<u8>)>,
    start: Option<u16>,
    refused: Option<RefusedLoad>,
}

fn run(args: &Args) -> Result<Output, Failure> {
    let (image, word) = match image_and_rest(args)? {
        (image, [word]) => (image, word),
        (_, []) => return Err(Failure::Wrong("which file? Its name is missing".to_string())),
        (_, [_, surplus, ..]) => return Err(Failure::Wrong(format!("what is {surplus:?} for? Name one file"))),
    };
    let opened = Opened::look(args, image)?;
    let typed = Typed::new(&word.to_string_lossy());
    let handle = open(&opened, &typed, password(args, opened.geometry())?)?;
    let mut read = Read::default();
    for piece in opened.disk.program(handle) {
        match piece {
            Ok(Piece::Data { address, bytes }) => read.records.push((address, bytes)),
            Ok(Piece::Start { address }) => read.start = Some(address),
            Err(refused) => read.refused = Some(refused),
        }
    }
    let memory = Memory::of(&read.records);
    let mut output = opened.output();
    output.text = text(&read, &memory).into_bytes();
    if let Some(refused) = read.refused {
        let failure = Failure::file(&opened.path, &typed.text)(refused.refusal);
        output.failures.push(match refused.position {
            Some(position) => failure.because(format!("at byte {position} of the file")),
            None => failure,
        });
        if read.records.iter().any(|(_, bytes)| bytes.is_empty()) {
            let note = "a record without bytes comes before (count 2): programs of the family mean 256 bytes by it";
            output.notes.push(format!("{}: {note}", typed.text));
        }
    } else {
        let written = [("bin", memory.bytes()), ("hex", memory.hex(read.start.unwrap_or(0)).into_bytes())];
        for (option, bytes) in written {
            if let Some(file) = args.value(option) {
                host::write(Path::new(file), &bytes, args.has("force"))?;
                output.changed = true;
            }
        }
    }
    let mut json = opened.head();
    json.extend([
        ("name", typed.text.as_str().into()),
        ("records", Json::list(read.records.iter().map(record_json))),
        ("start", read.start.into()),
        ("bytes", memory.filled().into()),
        ("gaps", Json::list(memory.gaps().iter().map(span_json))),
        ("overlaps", Json::list(memory.overlaps().iter().map(span_json))),
        ("position", read.refused.and_then(|refused| refused.position).into()),
        ("failures", failures_json(&output.failures)),
    ]);
    output.json = Json::Object(json);
    Ok(output)
}

fn record_json((address, bytes): &(u16, Vec<u8>)) -> Json {
    Json::object([("address", (*address).into()), ("length", bytes.len().into())])
}

fn span_json(span: &Span) -> Json {
    Json::object([("from", span.from.into()), ("to", span.to.into())])
}

fn text(read: &Read, memory: &Memory) -> String {
    let mut text = String::new();
    for (address, bytes) in &read.records {
        let filled = match bytes.len() {
            0 => format!("{address:04X}H"),
            length => Span { from: *address, to: address.wrapping_add((length - 1) as u16) }.to_string(),
        };
        text += &format!("{filled}, {}\n", counted(bytes.len(), "byte"));
    }
    text.extend(read.start.map(|address| format!("start {address:04X}H\n")));
    text += &format!("{}, {} of memory\n", counted(read.records.len(), "record"), counted(memory.filled(), "byte"));
    for (what, spans) in [("gap", memory.gaps()), ("filled twice", memory.overlaps())] {
        text.extend(spans.iter().map(|span| format!("{what} {span}\n")));
    }
    text
}
