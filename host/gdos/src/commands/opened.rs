//! The disk of an image, under the geometry that is stated for it or found.

use super::Output;
use crate::args::Args;
use crate::failure::Failure;
use crate::host::{self, Locked};
use crate::json::Json;
use crate::search::{self, evidence_words};
use crate::shape::{self, Wanted};
use crate::stated::{self, Found, Source};
use genie_dos::search::stronger_elsewhere;
use genie_dos::{Disk, Geometry, Refusal};
use std::ffi::OsStr;
use std::path::Path;

/// A disk with what messages need of it.
pub struct Opened {
    pub disk: Disk,
    /// The image's name as messages show it.
    pub path: String,
    pub source: Source,
}

impl Opened {
    fn new(image: &OsStr, bytes: Vec<u8>, found: Found) -> Opened {
        Opened { disk: Disk::new(bytes, found.geometry), path: shown(image), source: found.source }
    }

    /// An image that is only looked at; its disk must be consistent.
    pub fn look(args: &Args, image: &OsStr) -> Result<Opened, Failure> {
        Opened::look_as(&Wanted::from_args(args)?, image)
    }

    /// The same where what is wanted of its geometry is known.
    pub fn look_as(wanted: &Wanted, image: &OsStr) -> Result<Opened, Failure> {
        let opened = Opened::unchecked(wanted, image)?;
        opened.check()?;
        Ok(opened)
    }

    /// The same where the disk need not be consistent, if its geometry is stated.
    pub fn unchecked(wanted: &Wanted, image: &OsStr) -> Result<Opened, Failure> {
        let bytes = host::read(Path::new(image))?;
        let found = stated::find(wanted, image, &bytes)?;
        Ok(Opened::new(image, bytes, found))
    }

    /// The same under what the search finds, whatever is stated.
    pub fn searched(wanted: &Wanted, image: &OsStr) -> Result<Opened, Failure> {
        let bytes = host::read(Path::new(image))?;
        let found = stated::searched(wanted, &shown(image), &bytes)?;
        Ok(Opened::new(image, bytes, found))
    }

    /// An image that is to be changed: its disk in memory, and the lock on its file.
    pub fn change(args: &Args, image: &OsStr) -> Result<(Opened, Locked), Failure> {
        Opened::change_as(&Wanted::from_args(args)?, args.has("search"), image)
    }

    /// The same where what is wanted of its geometry is known, and whether one that a search finds will do.
    pub fn change_as(wanted: &Wanted, search: bool, image: &OsStr) -> Result<(Opened, Locked), Failure> {
        let (locked, bytes) = Locked::open(Path::new(image))?;
        let found = stated::find_for_change(wanted, search, image, &bytes)?;
        let opened = Opened::new(image, bytes, found);
        opened.check()?;
        Ok((opened, locked))
    }

    /// An image that is held for long, to be changed or only looked at.
    #[cfg(unix)]
    pub fn hold(args: &Args, image: &OsStr, change: bool) -> Result<(Opened, Locked), Failure> {
        let wanted = Wanted::from_args(args)?;
        let (locked, bytes) = Locked::hold(Path::new(image), change)?;
        let found = match change {
            true => stated::find_for_change(&wanted, args.has("search"), image, &bytes)?,
            false => stated::find(&wanted, image, &bytes)?,
        };
        let opened = Opened::new(image, bytes, found);
        opened.check()?;
        Ok((opened, locked))
    }

    /// Whether the disk is consistent: refused with what is wrong.
    pub fn check(&self) -> Result<(), Failure> {
        self.disk.check().map_err(|refusal| self.refused(refusal))
    }

    /// Puts the changed disk in the image's place: the one step in which the host's file changes. Answers with remarks.
    pub fn keep(&self, mut locked: Locked) -> Result<Option<String>, Failure> {
        self.check()?;
        locked.keep(self.disk.image())
    }

    /// The refusal of the disk as a whole, with where its geometry is from; and if that was not typed, whether more speaks
    /// for another.
    pub fn refused(&self, refusal: Refusal) -> Failure {
        let failure = Failure::disk(&self.path, &self.disk)(refusal).by(self.source.word(), self.source.told());
        match (&self.source, self.stronger()) {
            (Source::Environment | Source::Beside(_), Some(stronger)) => failure.because(stronger),
            _ => failure,
        }
    }

    /// That more speaks for another directory than for the stated one.
    fn stronger(&self) -> Option<String> {
        let (other, own) = stronger_elsewhere(self.disk.image(), self.geometry())?;
        Some(format!(
            "more speaks for a directory at sector {} ({}) than for the stated one at sector {} ({}); `gdos probe {}` shows it",
            other.start,
            evidence_words(&other),
            own.start,
            evidence_words(&own),
            self.path
        ))
    }

    pub fn geometry(&self) -> Geometry {
        self.disk.geometry()
    }

    /// What is to be remarked: which geometry a search found; or that more speaks for another than for the stated one.
    pub fn notes(&self) -> Vec<String> {
        let path = &self.path;
        if let Source::Search { went_on } = self.source {
            let on = if went_on { format!("; it{}", search::WENT_ON) } else { String::new() };
            return vec![format!("{path}: geometry found by search: {}{on}", shape::options(self.geometry(), ""))];
        }
        self.stronger().map(|stronger| format!("{path}: {stronger}")).into_iter().collect()
    }

    /// An output that has the remarks.
    pub fn output(&self) -> Output {
        Output { notes: self.notes(), ..Output::default() }
    }

    /// The members that every `--json` answer on one image begins with.
    pub fn head(&self) -> Vec<(&'static str, Json)> {
        vec![
            ("image", self.path.as_str().into()),
            ("geometry", shape::json(self.geometry())),
            ("geometry_from", self.source.word().into()),
        ]
    }
}

/// The image's name as messages show it.
pub fn shown(path: &OsStr) -> String {
    path.to_string_lossy().into_owned()
}
