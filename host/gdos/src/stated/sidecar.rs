//! The file beside an image that states its geometry: `disk.img.gdos` for `disk.img`.

use crate::failure::Failure;
use crate::host::{self, Prepared};
use crate::shape;
use genie_dos::Geometry;
use std::ffi::OsString;
use std::path::{Path, PathBuf};

/// Most bytes of a file's name.
const MOST_NAME: usize = 255;

/// What its name has behind the image's.
const EXTENSION: &str = ".gdos";

/// The file beside an image.
pub struct Sidecar {
    path: PathBuf,
    shown: String,
}

impl Sidecar {
    /// That of an image. It stands beside the file itself, wherever links to it are.
    pub fn of(image: &Path) -> Sidecar {
        let real = image.canonicalize().unwrap_or_else(|_| image.to_path_buf());
        let beside = |path: &Path| {
            let mut name = OsString::from(path.as_os_str());
            name.push(EXTENSION);
            PathBuf::from(name)
        };
        // Shown as the image was named, unless that is a link to another.
        let shown = match real.file_name() == image.file_name() {
            true => beside(image),
            false => beside(&real),
        };
        Sidecar { path: beside(&real), shown: shown.display().to_string() }
    }

    /// Its name as messages show it.
    pub fn shown(&self) -> &str {
        &self.shown
    }

    /// Whether the host allows a name of that length.
    pub fn can_be(&self) -> bool {
        self.path.file_name().map_or(false, |name| name.len() <= MOST_NAME)
    }

    /// The geometry that it states, if it is there.
    pub fn read(&self) -> Result<Option<Geometry>, Failure> {
        let wrong = |why| Failure::Wrong(format!("{} states no geometry: {why}", self.shown));
        host::read_text(&self.path)?.map(|text| shape::parse(&text).map_err(wrong)).transpose()
    }

    /// What it is to be, written but not yet in its place.
    pub fn prepare(&self, image: &str, geometry: Geometry, force: bool) -> Result<Prepared, Failure> {
        let name = image.replace(|c: char| c.is_control(), "?");
        let text = format!("# The geometry of {name}, as gdos heeds it.\n{}", shape::written(geometry));
        Prepared::new(&self.path, text.as_bytes(), force)
    }
}
