//! What is said where no geometry is stated and the search takes none.

use crate::failure::{Failure, Ranking};
use crate::search::{candidate_brief, candidate_json, candidate_lines, WENT_ON};
use crate::shape::{self, preset_of, Wanted};
use crate::text::counted;
use genie_dos::search::{Candidate, Reading, Search, Verdict};
use genie_dos::{Counts, Disk, Explained, Geometry, Refusal};

/// How many places are told.
const TOLD: usize = 3;

/// The refusal of an image whose geometry the search does not take.
pub fn failure(search: &Search, wanted: &Wanted, image: &[u8], path: &str) -> Failure {
    if let Some(failure) = damaged(search, wanted, image, path) {
        return failure;
    }
    let starts = || search.intact.iter().map(|reading| reading.geometry.start);
    match search.verdict {
        Verdict::Taken(_) | Verdict::NoLength | Verdict::Damaged => none_fits(search, wanted, image, path),
        Verdict::Several if starts().all(|start| starts().next() == Some(start)) => several(search, wanted, path),
        Verdict::NoName => no_name(search, wanted, path),
        Verdict::Several | Verdict::AnotherPlace => {
            to_state(search, wanted, path, "more than one directory is there", Vec::new())
        }
        Verdict::Longer => {
            let why = "by its HIT the directory is shorter than the names that are there";
            to_state(search, wanted, path, why, Vec::new())
        }
        Verdict::Blank(blank) => {
            let also = format!("  also, without files: {}", shape::options(blank, wanted.suffix));
            to_state(search, wanted, path, "the disk may have been formatted anew and be empty", vec![also])
        }
        Verdict::OtherUnits(rival) => {
            let also = format!("  also, with one byte damaged: {}", shape::options(rival, wanted.suffix));
            to_state(search, wanted, path, "other blocks and units fit nearly as well", vec![also])
        }
        _ => to_state(search, wanted, path, "something speaks against each geometry", Vec::new()),
    }
}

/// The refusal of a change whose geometry was only searched.
pub fn not_stated(found: Geometry, wanted: &Wanted, path: &str) -> Failure {
    let options = shape::options(found, wanted.suffix);
    let typed = match preset_of(found) {
        Some(preset) => format!("--preset {preset}"),
        None => options.clone(),
    };
    Failure::Wrong(format!(
        "{path}: a change wants a geometry that is stated, and this one was searched: {options}\n\
         if it is right, state it by these options, keep it by `gdos geometry {path} --set {typed}`, or say --search"
    ))
}

/// The refusal of an image under none of whose geometries the disk is consistent: 1 if none has its length; the fault
/// where the search ranks a directory first; otherwise the faults under those that are of a known kind of disk.
pub fn none_fits(search: &Search, wanted: &Wanted, image: &[u8], path: &str) -> Failure {
    let and_options = if wanted.known.says_anything() { " and the options" } else { "" };
    if search.verdict == Verdict::NoLength {
        let length = shape::length(image.len());
        let why = format!("no geometry fits its length of {length} bytes{and_options}");
        return Failure::image(path)(Refusal::Geometry).because(why);
    }
    if let Some(failure) = damaged(search, wanted, image, path) {
        return failure;
    }
    let mut detail = format!("under none of the {} geometries that fit its length{and_options}", search.tried);
    let known: Vec<(&str, Explained)> =
        wanted.known.fitting_any_granule(image.len()).into_iter().filter_map(known_fault(image)).collect();
    for (name, fault) in &known {
        detail += &format!("; by --preset {name}: {} ({}): {fault}", fault.fault.kind.number(), fault.fault.kind);
    }
    let fault = match <[_; 1]>::try_from(known) {
        Ok([(_, only)]) => Some(Box::new(only)),
        Err(_) => None,
    };
    Failure::NoGeometry { image: path.to_string(), detail, fault }
}

/// The preset's name and the fault under a geometry of a known kind.
fn known_fault(image: &[u8]) -> impl Fn(Geometry) -> Option<(&'static str, Explained)> + '_ {
    move |geometry| {
        let name = preset_of(geometry)?;
        let disk = Disk::new(image, geometry);
        let fault = disk.check().err().and_then(Refusal::fault)?;
        Some((name, disk.explain(fault)))
    }
}

/// The refusal of the disk as the strongest directory has it, if that one is not intact.
fn damaged(search: &Search, wanted: &Wanted, image: &[u8], path: &str) -> Option<Failure> {
    let first = search.ranking.first().filter(|first| first.evidence.speaks())?;
    let disk = Disk::new(image, first.readings.first()?.geometry);
    let refusal = disk.check().err()?;
    let mut lines = vec!["nothing is read or written; what speaks for each directory, and the options to type:".into()];
    lines.extend(ranked_lines(search, |candidate| match std::ptr::eq(candidate, first) {
        true => candidate_brief(candidate, wanted.suffix).into_iter().collect(),
        false => candidate_lines(candidate, wanted.suffix),
    }));
    match search.ranking.iter().filter(|candidate| candidate.is_intact()).count() {
        0 => {}
        1 => lines.push("the only intact reading is the weaker one: an older directory, or a copy of one".into()),
        _ => lines.push("the intact readings are the weaker ones: older directories, or copies".into()),
    }
    let ranking = Ranking { lines, json: ranked_json(search) };
    let failure = Failure::disk(path, &disk)(refusal);
    Some(failure.by("search", Some("a search".into())).ranked(ranking))
}

/// The places that are told, numbered.
fn ranked_lines(search: &Search, told: impl Fn(&Candidate) -> Vec<String>) -> Vec<String> {
    let mut lines = Vec::new();
    for (number, candidate) in (1..).zip(search.ranking.iter().take(TOLD)) {
        lines.extend(told(candidate).into_iter().map(|line| format!("  {number}. {line}")));
    }
    match search.ranking.len().saturating_sub(TOLD) {
        0 => {}
        more => lines.push(format!("  and {} more, which `gdos probe` shows", counted(more, "place"))),
    }
    lines
}

fn ranked_json(search: &Search) -> Vec<crate::json::Json> {
    search.ranking.iter().take(TOLD).map(candidate_json).collect()
}

fn to_state(search: &Search, wanted: &Wanted, path: &str, why: &str, more: Vec<String>) -> Failure {
    let message = format!(
        "{path}: {why}, so the geometry is to be stated; nothing is read or written; what speaks for each directory, and \
         the options to type:"
    );
    let mut lines = ranked_lines(search, |candidate| candidate_lines(candidate, wanted.suffix));
    lines.extend(more);
    lines.extend(went_on(search));
    Failure::Unclear { message, ranking: Ranking { lines, json: ranked_json(search) } }
}

/// That granules of 10 and 20 sectors were tried, where what is told is of them.
fn went_on(search: &Search) -> Option<String> {
    search.went_on.then(|| format!("the search{WENT_ON}"))
}

/// The message where several geometries make the disk consistent.
fn several(search: &Search, wanted: &Wanted, path: &str) -> Failure {
    let message = format!("{path}: {} geometries fit; choose one of", search.intact.len());
    chosen_by_options(search, wanted, message)
}

/// The message where the one that does has no file.
fn no_name(search: &Search, wanted: &Wanted, path: &str) -> Failure {
    let message = format!("{path}: no file speaks for the one geometry that fits; if the disk is empty, state it:");
    chosen_by_options(search, wanted, message)
}

fn chosen_by_options(search: &Search, wanted: &Wanted, message: String) -> Failure {
    let suffix = wanted.suffix;
    let mut lines: Vec<String> = search.intact.iter().map(|reading| format!("  {}", fit(reading, suffix))).collect();
    lines.push(format!("by its options or, if it has one, by --preset{suffix}"));
    lines.extend(went_on(search));
    Failure::Unclear { message, ranking: Ranking { lines, json: ranked_json(search) } }
}

/// The options that state a geometry, and what it would mean.
fn fit(reading: &Reading, suffix: &str) -> String {
    let preset = preset_of(reading.geometry).map(|name| format!(", preset {name}")).unwrap_or_default();
    let (files, free) = match &reading.found {
        Ok(Counts { files, free, .. }) => (*files, *free),
        Err(_) => (0, 0),
    };
    let options = shape::options_alone(reading.geometry, suffix);
    format!("{options}  ({files} files, {free} granules free{preset})")
}
