//! `gdos probe`.

use super::choose::only_image;
use super::opened::shown;
use super::{Command, Output, DONE, JSON};
use crate::args::Args;
use crate::failure::Failure;
use crate::host;
use crate::json::Json;
use crate::search::{candidate_json, candidate_lines, WENT_ON};
use crate::shape::{self, Wanted};
use crate::stated;
use genie_dos::search::{Reading, Search, Verdict};
use std::path::Path;

pub const COMMAND: Command = Command {
    name: "probe",
    summary: "show what an image says of its geometry",
    usage: "[OPTIONS] IMAGE",
    about: "\
Looks at every place where a directory may begin, and tries every geometry that fits the image's length, or those
that agree with the options given. The places are ranked by what speaks for each: names whose entry is in use, whose
HIT byte is their hash, and whose marker is one; names that one byte parts from that (nearly); and slots in which
HIT and entry contradict each other (against). For each place: the options to type, then whether the disk is
consistent, or its first fault. The last line tells which geometry a command takes that only reads. What is stated
by GDOS_GEOMETRY or beside the image plays no part. Granules of 10 and 20 sectors are tried only where no reading with 5
is consistent; the last line says so. The open code cannot be found: nothing on a disk speaks of it.
Refused with 1 if no geometry has this length, and if the disk is consistent under none.
",
    groups: &[("Options", &[JSON]), (shape::TITLE, shape::OPTIONS)],
    examples: &["gdos probe disk.img", "gdos probe --units 6 disk.img"],
    status: DONE,
    run,
};

fn run(args: &Args) -> Result<Output, Failure> {
    let image = only_image(args)?;
    let path = shown(image);
    let wanted = Wanted::from_args(args)?;
    let bytes = host::read(Path::new(image))?;
    let search = Search::new(&bytes, &wanted.known);
    let mut failures = Vec::new();
    if search.intact.is_empty() {
        let failure = stated::none_fits(&search, &wanted, &bytes, &path);
        if search.ranking.is_empty() {
            return Err(failure);
        }
        failures.push(failure.brief());
    }
    let mut text = String::new();
    for (number, candidate) in (1..).zip(&search.ranking) {
        for line in candidate_lines(candidate, "") {
            text += &format!("{number}. {line}\n");
        }
    }
    text += &format!("{}\n", told(&search));
    let json = Json::object([
        ("image", path.as_str().into()),
        ("tried", search.tried.into()),
        ("went_on", search.went_on.into()),
        ("geometries", Json::list(search.intact.iter().map(fit_json))),
        ("ranking", Json::list(search.ranking.iter().map(candidate_json))),
        ("taken", search.geometry().map(shape::json).into()),
        ("why", told(&search).into()),
        ("failures", super::failures_json(&failures)),
    ]);
    Ok(Output { text: text.into_bytes(), json, failures, ..Output::default() })
}

/// What a command does that finds the geometry by itself.
fn told(search: &Search) -> String {
    match (search.went_on, search.intact.is_empty()) {
        (false, _) => judged(search),
        (true, true) => judged(search) + ", with granules of 5, 10 or 20 sectors",
        (true, false) => format!("{}; the search{WENT_ON}", judged(search)),
    }
}

fn judged(search: &Search) -> String {
    let why = match search.verdict {
        Verdict::Taken(geometry) => return format!("taken: {}", shape::options(geometry, "")),
        Verdict::NoLength | Verdict::Damaged => "no reading is consistent",
        Verdict::Several => "several readings are consistent",
        Verdict::NoName => "no file speaks for the only consistent reading",
        Verdict::AnotherPlace => "another directory speaks against the only consistent reading",
        Verdict::Longer => "names beyond its length speak against the only consistent reading",
        Verdict::Blank(blank) => {
            let blank = shape::options(blank, "");
            return format!("none taken: a directory without files seems to be there too: {blank}");
        }
        Verdict::OtherUnits(rival) => {
            let rival = shape::options(rival, "");
            return format!("none taken: with one byte damaged {rival} would fit as well");
        }
        _ => "something speaks against each",
    };
    format!("none taken: {why}")
}

/// A consistent reading for `--json`.
fn fit_json(reading: &Reading) -> Json {
    let counts = reading.found.as_ref().ok();
    Json::object([
        ("geometry", shape::json(reading.geometry)),
        ("files", counts.map(|counts| counts.files).into()),
        ("free", counts.map(|counts| counts.free).into()),
    ])
}
