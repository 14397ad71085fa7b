//! `gdos mend`.

use super::choose::only_image;
use super::new::place;
use super::opened::{shown, Opened};
use super::{Command, Output, DONE, FORCE, JSON};
use crate::args::{Args, Spec};
use crate::damage;
use crate::failure::Failure;
use crate::host;
use crate::json::Json;
use crate::shape::{self, Wanted};
use crate::text::counted;
use genie_dos::{Mended, Unmended};
use std::ffi::OsStr;
use std::path::Path;

const OUTPUT: Spec = Spec { long: "output", short: Some(b'o'), value: Some("COPY"), help: "the image to write" };
const DRY_RUN: Spec =
    Spec { long: "dry-run", short: Some(b'n'), value: None, help: "tell what would be done, and write nothing" };

pub const COMMAND: Command = Command {
    name: "mend",
    summary: "make a consistent copy of a damaged disk",
    usage: "[OPTIONS] IMAGE -o COPY",
    about: "\
Writes a copy of the image in which every fault is mended by the smallest change that takes it away: a HIT byte is put
to its hash or to 0, a missing GAT bit is set, bit 5 of byte 00 is cleared, one damaged byte of a name is put to what
the HIT byte demands, the directory gets the length for which most speaks, an entry of which only byte 00 says that it
is no file is put back. A file whose chain is broken, whose name is none, whose run is off the disk or whose size is
too large is taken out of the directory; its bytes stay where they are, and its granules stay taken. Of two files with
one granule or one name the one goes against which more speaks, else the one in the higher slot. The library checks
the copy after each change, until it is consistent.
Told are each fault, each byte changed, the files that were dropped, and those that are doubtful. The image itself is
never written. State its geometry: a damaged disk is seldom found by search.
",
    groups: &[
        ("Options", &[OUTPUT, DRY_RUN, Spec { help: "replace a copy that is there", ..FORCE }, JSON]),
        (shape::TITLE, shape::OPTIONS),
    ],
    examples: &["gdos mend --preset dd40 -n disk.img", "gdos mend --preset dd40 disk.img -o mended.img"],
    status: DONE,
    run,
};

fn run(args: &Args) -> Result<Output, Failure> {
    let image = only_image(args)?;
    let copy = match (args.value("output"), args.has("dry-run")) {
        (Some(copy), false) => Some(copy),
        (None, true) => None,
        (Some(_), true) => return Err(Failure::Wrong("--dry-run writes nothing, so -o has no use".to_string())),
        (None, false) => return Err(Failure::Wrong("which copy? -o COPY names it; or --dry-run".to_string())),
    };
    if let Some(copy) = copy.filter(|copy| host::same_file(Path::new(image), Path::new(copy))) {
        return Err(Failure::Wrong(format!("{} is the image itself, which is never written", shown(copy))));
    }
    let opened = Opened::unchecked(&Wanted::from_args(args)?, image)?;
    let mended = mended(&opened)?;
    let mut output = opened.output();
    if let Some(copy) = copy {
        output.notes.extend(place(copy, &mended.disk, opened.geometry(), args.has("force"))?);
        output.changed = true;
    }
    output.text = report(&opened, &mended, copy).into_bytes();
    output.json = json(&opened, &mended, copy);
    Ok(output)
}

/// The mended copy of an image, in memory.
pub fn mended(opened: &Opened) -> Result<Mended, Failure> {
    opened.disk.mend().map_err(|unmended| match unmended {
        Unmended::Refused(refusal) => opened.refused(refusal),
        gave_up => Failure::Wrong(format!("{}: {gave_up}", opened.path)),
    })
}

fn report(opened: &Opened, mended: &Mended, copy: Option<&OsStr>) -> String {
    let mut report: String = mended.steps.iter().map(damage::step_text).collect();
    for dropped in &mended.dropped {
        let why = mended.steps.get(dropped.step).map(|step| damage::line(step.decisive())).unwrap_or_default();
        report += &format!("dropped: {}: {why}\n", damage::named(&dropped.name, dropped.slot));
    }
    for doubtful in &mended.doubtful {
        let doubts = damage::doubts(&doubtful.doubts);
        report += &format!("doubtful: {}: {doubts}\n", damage::named(&doubtful.name, doubtful.slot));
    }
    let whose = copy.map_or_else(|| format!("{} (nothing written)", opened.path), shown);
    let bytes = mended.steps.iter().map(|step| step.changes.len()).sum();
    let sure = sure(mended);
    report
        + &match mended.steps.len() {
            0 => format!("{whose}: nothing to mend, {}\n", counted(sure, "file")),
            steps => format!(
                "{whose}: mended by {}, {} changed; {} without doubt, {} doubtful, {} dropped\n",
                counted(steps, "step"),
                counted(bytes, "byte"),
                counted(sure, "file"),
                mended.doubtful.len(),
                mended.dropped.len(),
            ),
        }
}

/// Files of the copy about which there is no doubt, system files included.
fn sure(mended: &Mended) -> usize {
    mended.disk.entries().map_or(0, |entries| entries.len()) - mended.doubtful.len()
}

fn json(opened: &Opened, mended: &Mended, copy: Option<&OsStr>) -> Json {
    let dropped = mended.dropped.iter().filter_map(|dropped| {
        let step = mended.steps.get(dropped.step)?;
        Some(damage::dropped_json(&dropped.name, dropped.slot, step.decisive()))
    });
    let doubtful = mended.doubtful.iter().map(|doubtful| {
        Json::object([
            ("name", doubtful.name.shown().into()),
            ("slot", doubtful.slot.into()),
            ("doubts", damage::doubts_json(&doubtful.doubts)),
        ])
    });
    let mut json = opened.head();
    json.extend([
        ("copy", copy.map(shown).into()),
        ("steps", Json::list(mended.steps.iter().map(damage::step_json))),
        ("dropped", Json::list(dropped)),
        ("doubtful", Json::list(doubtful)),
        ("sure", sure(mended).into()),
    ]);
    Json::Object(json)
}
