//! `gdos diff`.

use super::ls::{attributes, file_json};
use super::opened::Opened;
use super::{Command, Output, JSON};
use crate::args::Args;
use crate::failure::Failure;
use crate::json::Json;
use crate::shape::{self, Wanted};
use genie_dos::{Difference, Entry, Geometry, Name, Which};
use std::fmt::Display;

pub const NAME: &str = "diff";
pub const STATUS: &str = "0 alike, 1 different, 2 trouble: wrong usage, I/O, or an image refused";

pub const COMMAND: Command = Command {
    name: NAME,
    summary: "compare two disks: which files differ, and in what",
    usage: "[OPTIONS] FIRST SECOND",
    about: "\
Tells every file that is on one disk only or differs, a line each, by rising name; nothing if the disks are alike:
  ALT/DAT: only in week1.img
  PULS01/DAT: differs from byte 256; size (257 and 300); date (1983-10-09 and 1983-10-16)
  PULS02/DAT: attributes (----B- 0 and -I--B- 3)
Bytes are counted from 0. A file that is a beginning of the other differs from the byte at which it ends. The
attributes are those of `gdos ls`, the record length and the codes. Where a file lies is no difference, nor is how
many granules it owns. A file that is a system file on either disk is compared by name only.
Each disk has its own geometry. What the options say holds for both, except where one that ends in 2 says otherwise
of the second.
",
    groups: &[("Options", &[JSON]), (shape::TITLE, shape::OPTIONS_OF_TWO)],
    examples: &[
        "gdos diff week1.img week2.img",
        "gdos diff --json week1.img week2.img",
        "gdos diff --preset sd40 --preset2 dd80ds old.img new.img",
    ],
    status: STATUS,
    run,
};

/// Whatever goes wrong is trouble, a refusal too.
fn run(args: &Args) -> Result<Output, Failure> {
    compare(args)
        .or_else(|failure| Ok(Output { json: failure.json(), failures: vec![failure], status: 2, ..Output::default() }))
}

/// A disk as the lines need it: its name, its geometry and its files.
struct Side {
    opened: Opened,
    entries: Vec<Entry>,
}

impl Side {
    fn new(opened: Opened) -> Result<Side, Failure> {
        let entries = opened.disk.entries().map_err(Failure::image(&opened.path))?;
        Ok(Side { opened, entries })
    }

    fn file(&self, name: Name) -> Option<&Entry> {
        self.entries.iter().find(|entry| entry.name() == name)
    }

    fn json(&self) -> Json {
        Json::Object(self.opened.head())
    }
}

fn compare(args: &Args) -> Result<Output, Failure> {
    let (one, two) = match args.words.as_slice() {
        [] => return Err(Failure::Wrong("which images? The names of two are missing".to_string())),
        [_] => return Err(Failure::Wrong("with which image? The second's name is missing".to_string())),
        [one, two] => (one, two),
        [_, _, surplus, ..] => {
            return Err(Failure::Wrong(format!("what is {surplus:?} for? This command takes two images")));
        }
    };
    let (wanted, wanted_of_second) = (Wanted::from_args(args)?, Wanted::second_from_args(args)?);
    let (first, second) = (Opened::look_as(&wanted, one)?, Opened::look_as(&wanted_of_second, two)?);
    let sides = [Side::new(first)?, Side::new(second)?];
    let [of_first, of_second] = &sides;
    let refused = |refused: genie_dos::RefusedImage| {
        let image = match refused.image {
            Which::First => &of_first.opened,
            Which::Second => &of_second.opened,
        };
        Failure::image(&image.path)(refused.refusal)
    };
    let found = of_first.opened.disk.differences(&of_second.opened.disk).map_err(refused)?;
    let differences: Vec<Difference> = found.collect();
    let text: String = differences.iter().map(|difference| line(difference, &sides)).collect();
    let mut notes = of_first.opened.notes();
    notes.extend(of_second.opened.notes());
    Ok(Output {
        text: text.into_bytes(),
        json: Json::object([
            ("first", of_first.json()),
            ("second", of_second.json()),
            ("alike", differences.is_empty().into()),
            ("differences", Json::list(differences.iter().map(|difference| json(difference, &sides)))),
        ]),
        notes,
        status: u8::from(!differences.is_empty()),
        ..Output::default()
    })
}

fn line(difference: &Difference, [first, second]: &[Side; 2]) -> String {
    let name = difference.name();
    let (position, size, date, attributes) = match *difference {
        Difference::OnlyInFirst { .. } => return format!("{name}: only in {}\n", first.opened.path),
        Difference::OnlyInSecond { .. } => return format!("{name}: only in {}\n", second.opened.path),
        Difference::Unlike { position, size, date, attributes, .. } => (position, size, date, attributes),
    };
    let mut words = Vec::new();
    words.extend(position.map(|at| format!("differs from byte {at}")));
    // A file that differs is on both disks.
    if let (Some(one), Some(two)) = (first.file(name), second.file(name)) {
        if size {
            words.push(format!("size ({} and {})", one.size(), two.size()));
        }
        if date {
            words.push(format!("date ({} and {})", one.date(), two.date()));
        }
        if attributes {
            let others = others((one, first.opened.geometry()), (two, second.opened.geometry()));
            words.push(format!("attributes ({})", others.join(", ")));
        }
    }
    format!("{name}: {}\n", words.join("; "))
}

/// Which of the other attributes differ, with their values: flags and level as `gdos ls` shows them, record length, codes.
fn others((one, g): (&Entry, Geometry), (two, h): (&Entry, Geometry)) -> Vec<String> {
    let code = |code: u16| format!("{code:04X}H");
    let flags = |entry: &Entry| (entry.as_bytes()[0x00], entry.as_bytes()[0x01] & 0xe0);
    let mut told = Vec::new();
    if flags(one) != flags(two) {
        told.push(format!("{} and {}", attributes(one, g), attributes(two, h)));
    }
    told.extend(pair("record length", one.record_length(), two.record_length()));
    told.extend(pair("main code", code(one.main_code()), code(two.main_code())));
    told.extend(pair("worker code", code(one.worker_code()), code(two.worker_code())));
    told
}

/// Two values with their noun, if they differ.
fn pair<T: Display + PartialEq>(noun: &str, one: T, two: T) -> Option<String> {
    (one != two).then(|| format!("{noun} {one} and {two}"))
}

/// A difference for `--json`, with the file as it is on each disk, null where it is not there. The position is null where
/// the contents are alike.
fn json(difference: &Difference, [first, second]: &[Side; 2]) -> Json {
    let name = difference.name();
    let (kind, position, size, date, attributes) = match *difference {
        Difference::OnlyInFirst { .. } => ("only_in_first", None, false, false, false),
        Difference::OnlyInSecond { .. } => ("only_in_second", None, false, false, false),
        Difference::Unlike { position, size, date, attributes, .. } => ("unlike", position, size, date, attributes),
    };
    let file = |side: &Side| side.file(name).map(|entry| file_json(entry, side.opened.geometry()));
    Json::object([
        ("name", name.to_string().into()),
        ("kind", kind.into()),
        ("position", position.into()),
        ("contents", position.is_some().into()),
        ("size", size.into()),
        ("date", date.into()),
        ("attributes", attributes.into()),
        ("first", file(first).into()),
        ("second", file(second).into()),
    ])
}
