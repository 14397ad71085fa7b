//! What the search found, in words and for `--json`.

use crate::fault;
use crate::json::Json;
use crate::shape;
use crate::text::counted;
use genie_dos::search::{Candidate, Evidence, Reading};
use genie_dos::Counts;

/// What is said where the search went on.
pub const WENT_ON: &str = " went on to granules of 10 and 20 sectors, since with 5 no reading is consistent";

/// `2 names for it, 1 nearly, 0 slots against`.
pub fn evidence_words(evidence: &Evidence) -> String {
    let Evidence { names, nearly, against, beyond, .. } = *evidence;
    let beyond = match beyond {
        0 => String::new(),
        beyond => format!(", {beyond} beyond its length"),
    };
    format!("{} for it, {nearly} nearly{beyond}, {} against", counted(names, "name"), counted(against, "slot"))
}

/// How the image reads: `consistent, 1 file, 134 granules free`, or the first fault.
fn reading_words(reading: &Reading) -> String {
    match &reading.found {
        Ok(Counts { files, free, .. }) => {
            format!("consistent, {}, {} free", counted(*files, "file"), counted(*free, "granule"))
        }
        Err(fault) => format!("{} ({}): {fault}", fault.fault.kind.number(), fault.fault.kind),
    }
}

/// A line for each reading of a place: the options to type, the evidence, and how the image reads.
pub fn candidate_lines(candidate: &Candidate, suffix: &str) -> Vec<String> {
    let line = |reading: &Reading| {
        let options = shape::options(reading.geometry, suffix);
        format!("{options}: {}; {}", evidence_words(&candidate.evidence), reading_words(reading))
    };
    candidate.readings.iter().map(line).collect()
}

/// One line of a place of which the reading is told already.
pub fn candidate_brief(candidate: &Candidate, suffix: &str) -> Option<String> {
    let options = shape::options(candidate.readings.first()?.geometry, suffix);
    Some(format!("{options}: {}; not consistent, as told", evidence_words(&candidate.evidence)))
}

/// A place for `--json`.
pub fn candidate_json(candidate: &Candidate) -> Json {
    let Evidence { start, sectors, names, nearly, against, beyond, .. } = candidate.evidence;
    Json::object([
        ("start", start.into()),
        ("directory_sectors", sectors.into()),
        ("names", names.into()),
        ("nearly", nearly.into()),
        ("against", against.into()),
        ("beyond", beyond.into()),
        ("readings", Json::list(candidate.readings.iter().map(reading_json))),
    ])
}

fn reading_json(reading: &Reading) -> Json {
    let counts = reading.found.as_ref().ok();
    Json::object([
        ("geometry", shape::json(reading.geometry)),
        ("consistent", counts.is_some().into()),
        ("files", counts.map(|counts| counts.files).into()),
        ("free", counts.map(|counts| counts.free).into()),
        ("fault", reading.found.as_ref().err().map(|found| fault::json(found)).into()),
    ])
}
