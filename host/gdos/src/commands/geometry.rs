//! `gdos geometry`.

use super::choose::only_image;
use super::opened::{shown, Opened};
use super::{Command, Output, DONE, JSON};
use crate::args::{Args, Spec};
use crate::failure::Failure;
use crate::fault;
use crate::json::Json;
use crate::search;
use crate::shape::{self, Wanted};
use crate::stated::{Sidecar, Source};
use genie_dos::Refusal;
use std::path::Path;

const SET: Spec =
    Spec { long: "set", short: None, value: None, help: "keep it in IMAGE.gdos, for every later command" };

pub const COMMAND: Command = Command {
    name: "geometry",
    summary: "show under which geometry an image is read, or keep it",
    usage: "[OPTIONS] IMAGE",
    about: "\
Tells the geometry that a command would read the image with, where it is from, and whether the disk is consistent
under it. With --set it is kept in a file beside the image, IMAGE.gdos, which every command heeds: state it by
--preset, or by --blocks, --units and --start; or say --search to keep what the search finds. An old IMAGE.gdos is
replaced. A geometry that does not have the image's length is refused; a disk that is not consistent is not, but a
note tells its fault.

IMAGE.gdos has a line for each of blocks, units, start and open_code, as `blocks = 48`, of a data disk
`system_disk = no`, and of granules that have not 5 sectors `granule_sectors = 20`; a preset's name will do too, and #
begins a remark. A key that is not known is an error.
GDOS_GEOMETRY is written likewise: `dd40`, or `blocks=48 units=3 start=360`.
",
    groups: &[("Options", &[SET, SEARCH, JSON]), (shape::TITLE, shape::OPTIONS)],
    examples: &["gdos geometry disk.img", "gdos geometry disk.img --set --preset dd40"],
    status: DONE,
    run,
};

const SEARCH: Spec = Spec { help: "with --set: keep what the search finds", ..shape::SEARCH };

fn run(args: &Args) -> Result<Output, Failure> {
    let image = only_image(args)?;
    let wanted = Wanted::from_args(args)?;
    match args.has("set") {
        true if !wanted.known.says_anything() && !args.has("search") => Err(Failure::Wrong(
            "which geometry is to be kept? State it, by --preset or by --blocks, --units and --start, or say --search"
                .to_string(),
        )),
        true => {
            let opened = match wanted.known.says_anything() {
                true => Opened::unchecked(&wanted, image)?,
                false => Opened::searched(&wanted, image)?,
            };
            if opened.source.is_search() && !args.has("search") {
                return Err(crate::stated::not_stated(opened.geometry(), &wanted, &opened.path));
            }
            let sidecar = Sidecar::of(Path::new(image));
            sidecar.prepare(&shown(image), opened.geometry(), true)?.place()?;
            let told = format!("kept in {}\n", sidecar.shown());
            Ok(Output { changed: true, ..output(&opened, Some(told)) })
        }
        false => Ok(output(&Opened::unchecked(&wanted, image)?, None)),
    }
}

fn output(opened: &Opened, told: Option<String>) -> Output {
    let from = opened.source.words();
    let geometry = opened.geometry();
    let options = shape::options(geometry, "");
    let told_of_code = format!("open code {:04X}H", geometry.open_code);
    let on = match opened.source {
        Source::Search { went_on: true } => format!(", which{}", search::WENT_ON),
        _ => String::new(),
    };
    let text =
        format!("{}: {options}, {told_of_code}, from {from}{on}\n", opened.path) + &told.clone().unwrap_or_default();
    let fault = opened.disk.check().err().and_then(Refusal::fault).map(|fault| opened.disk.explain(fault));
    let mut json = opened.head();
    json.extend([
        ("kept", told.is_some().into()),
        ("consistent", fault.is_none().into()),
        ("fault", fault.as_ref().map(fault::json).into()),
    ]);
    let notes = fault.map(|fault| {
        let (path, number, kind) = (&opened.path, fault.fault.kind.number(), fault.fault.kind);
        format!("{path} is not consistent under it: {number} ({kind}): {fault}")
    });
    let mut output = Output { text: text.into_bytes(), json: Json::Object(json), ..Output::default() };
    // That it was searched stands in the text.
    output.notes.extend(opened.notes().into_iter().filter(|_| !opened.source.is_search()));
    output.notes.extend(notes);
    output
}
