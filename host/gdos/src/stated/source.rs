//! The geometry to work with, and where it is from.

use super::sidecar::Sidecar;
use super::unclear;
use crate::failure::Failure;
use crate::shape::{self, Wanted};
use genie_dos::search::{Search, Verdict};
use genie_dos::{Disk, Geometry, Refusal};
use std::ffi::OsStr;
use std::path::Path;

/// The environment's variable.
const VARIABLE: &str = "GDOS_GEOMETRY";

/// Where a geometry is from. What comes first goes before the others.
#[derive(Clone, Debug, PartialEq, Eq)]
pub enum Source {
    /// The options, which leave one.
    Options,
    /// The environment.
    Environment,
    /// The file of this name beside the image.
    Beside(String),
    /// The search; whether it went on to granules of 10 and 20 sectors, none of 5 being consistent.
    Search { went_on: bool },
}

impl Source {
    /// For `--json`.
    pub fn word(&self) -> &'static str {
        match self {
            Source::Options => "options",
            Source::Environment => "environment",
            Source::Beside(_) => "file",
            Source::Search { .. } => "search",
        }
    }

    /// Whether it was searched.
    pub fn is_search(&self) -> bool {
        matches!(self, Source::Search { .. })
    }

    /// Where it is from, in words.
    pub fn words(&self) -> String {
        self.told().unwrap_or_else(|| "the options".to_string())
    }

    /// What a refusal says of it; whoever typed options knows.
    pub fn told(&self) -> Option<String> {
        match self {
            Source::Options => None,
            Source::Environment => Some(VARIABLE.to_string()),
            Source::Beside(file) => Some(file.clone()),
            Source::Search { .. } => Some("a search".to_string()),
        }
    }
}

/// A geometry and where it is from.
#[derive(Clone, Debug)]
pub struct Found {
    pub geometry: Geometry,
    pub source: Source,
}

/// The geometry that is stated for an image: by the options if they say anything of it, by the environment, by the file
/// beside it. None if it has to be searched.
fn stated(wanted: &Wanted, image: &OsStr, image_len: usize) -> Result<Option<Found>, Failure> {
    let found = |geometry, source| Ok(Some(Found { geometry, source }));
    if wanted.known.says_anything() {
        return match (wanted.known.whole(), wanted.known.fitting(image_len).as_slice()) {
            (Some(geometry), _) | (None, &[geometry]) => found(geometry, Source::Options),
            _ => Ok(None),
        };
    }
    if let Some(text) = std::env::var_os(VARIABLE).filter(|text| !text.is_empty()) {
        let wrong = |why| Failure::Wrong(format!("{VARIABLE} states no geometry: {why}"));
        let geometry = shape::parse(&text.to_string_lossy()).map_err(wrong)?;
        return found(wanted.known.completed(geometry), Source::Environment);
    }
    let sidecar = Sidecar::of(Path::new(image));
    match sidecar.read()? {
        Some(geometry) => found(wanted.known.completed(geometry), Source::Beside(sidecar.shown().to_string())),
        None => Ok(None),
    }
}

/// The geometry to read an image with: the one stated, or what the search finds.
pub fn find(wanted: &Wanted, image: &OsStr, bytes: &[u8]) -> Result<Found, Failure> {
    let path = image.to_string_lossy();
    match stated(wanted, image, bytes.len())? {
        Some(found) => allowed(found, &path, bytes),
        None => searched(wanted, &path, bytes),
    }
}

/// What the search finds, whatever is stated.
pub fn searched(wanted: &Wanted, path: &str, bytes: &[u8]) -> Result<Found, Failure> {
    let search = Search::new(bytes, &wanted.known);
    match search.verdict {
        Verdict::Taken(geometry) => Ok(Found { geometry, source: Source::Search { went_on: search.went_on } }),
        _ => Err(unclear::failure(&search, wanted, bytes, path)),
    }
}

/// The geometry to change an image with: the one stated; what the search finds only if that is asked for.
pub fn find_for_change(wanted: &Wanted, searched: bool, image: &OsStr, bytes: &[u8]) -> Result<Found, Failure> {
    let found = find(wanted, image, bytes)?;
    match found.source {
        Source::Search { .. } if !searched => {
            Err(unclear::not_stated(found.geometry, wanted, &image.to_string_lossy()))
        }
        _ => Ok(found),
    }
}

/// A stated geometry, if the library allows it for this image: free space is refused for nothing else.
fn allowed(found: Found, path: &str, bytes: &[u8]) -> Result<Found, Failure> {
    match Disk::new(bytes, found.geometry).free_space() {
        Err(Refusal::Geometry) => {
            let why = shape::fault(found.geometry, bytes.len());
            Err(Failure::image(path)(Refusal::Geometry).because(why).by(found.source.word(), found.source.told()))
        }
        _ => Ok(found),
    }
}
