//! A disk that a program beside this one holds as `gdos` does: found by the same options, under the same lock, saved in the same way.
//! `gdos-mount` is made of it.

pub use crate::args::{Args, Asked, Spec};
pub use crate::failure::Failure;
pub use crate::help::group;
pub use crate::names::{host_name, Typed};

use crate::commands::{self, Opened};
use crate::host::Locked;
use crate::shape;
use genie_dos::{Date, Disk, Password, Refusal};
use std::ffi::OsStr;
use std::path::Path;

/// The title and the options that state a geometry.
pub const GEOMETRY: (&str, &[Spec]) = (shape::TITLE, shape::OPTIONS);
/// Lets a disk be changed under the geometry that the search finds.
pub const SEARCH: Spec = shape::SEARCH;
/// The code to open files by.
pub const CODE: Spec = commands::CODE;
/// Opens files without a check of codes.
pub const UNLOCK: Spec = commands::UNLOCK;
/// The date of new files.
pub const DATE: Spec = commands::DATE;

/// A disk in memory and the lock on its image. Nobody else who uses `gdos` changes the image meanwhile.
pub struct Held {
    opened: Opened,
    locked: Locked,
}

impl Held {
    /// Takes an image, to be changed or only looked at, by the options that state its geometry. Its disk must be consistent. It is
    /// refused where another holds it.
    pub fn open(args: &Args, image: &OsStr, change: bool) -> Result<Held, Failure> {
        let (opened, locked) = Opened::hold(args, image, change)?;
        Ok(Held { opened, locked })
    }

    /// The disk.
    pub fn disk(&self) -> &Disk {
        &self.opened.disk
    }

    /// The disk, to be changed: in memory, until it is saved.
    pub fn disk_mut(&mut self) -> &mut Disk {
        &mut self.opened.disk
    }

    /// The image's name as it was typed.
    pub fn image(&self) -> &str {
        &self.opened.path
    }

    /// Where the image is, links followed.
    pub fn path(&self) -> &Path {
        self.locked.path()
    }

    /// What is to be remarked of the geometry.
    pub fn notes(&self) -> Vec<String> {
        self.opened.notes()
    }

    /// How the options say that files are to be opened.
    pub fn password(&self, args: &Args) -> Result<Password, Failure> {
        commands::password(args, self.opened.geometry())
    }

    /// The refusal of a call on a file, in words.
    pub fn refused(&self, typed: &Typed, refusal: Refusal) -> Failure {
        commands::refused(&self.opened.path, typed)(refusal)
    }

    /// Puts the disk in the image's place, if it was changed: by a copy beside it, synced and renamed. Answers with a remark.
    pub fn save(&mut self) -> Result<Option<String>, Failure> {
        self.opened.check()?;
        self.locked.keep(self.opened.disk.image())
    }
}

/// The date that new files get, and a note where that is not today's.
pub fn date(args: &Args) -> Result<(Date, Option<String>), Failure> {
    commands::date(args)
}
