//! What the commands that show a disk share: they take one that is not consistent too.

use super::choose;
use super::opened::Opened;
use crate::args::Args;
use crate::failure::Failure;
use crate::host;
use crate::names::Typed;
use crate::shape::Wanted;
use crate::text::counted;
use genie_dos::{FaultKind, Map, MappedFile, Refusal};
use std::ffi::OsStr;
use std::path::Path;

/// An image that is shown, with its map.
pub struct Shown {
    pub opened: Opened,
    pub map: Map,
}

impl Shown {
    /// The image under the geometry that is stated for it or found; its disk need not be consistent if it is stated.
    pub fn open(args: &Args, image: &OsStr) -> Result<Shown, Failure> {
        let opened = Opened::unchecked(&Wanted::from_args(args)?, image)?;
        let map = opened.disk.map().map_err(|refusal| opened.refused(refusal))?;
        Ok(Shown { opened, map })
    }

    /// What is to be remarked: of the geometry, and that the disk is not consistent.
    pub fn notes(&self) -> Vec<String> {
        let mut notes = self.opened.notes();
        notes.extend(not_consistent(&self.opened.path, &self.map));
        notes.extend(presumed_length(&self.map));
        notes
    }

    /// The files of a name: one, or where the disk is not consistent perhaps several.
    pub fn files(&self, name: &OsStr) -> Result<Vec<&MappedFile>, Failure> {
        let typed = Typed::new(&name.to_string_lossy());
        if let Some(failure) = choose::no_name(&self.opened.path, &typed) {
            return Err(failure);
        }
        let files: Vec<&MappedFile> = self.map.files.iter().filter(|file| file.name == typed.name).collect();
        if files.is_empty() {
            return Err(choose::refused(&self.opened.path, &typed)(Refusal::NotFound));
        }
        Ok(files)
    }

    /// Writes what is shown to a file of the host, whole or not at all; never to the image.
    pub fn write(&self, image: &OsStr, to: &OsStr, bytes: &[u8], force: bool) -> Result<(), Failure> {
        let to = Path::new(to);
        if host::same_file(Path::new(image), to) {
            return Err(Failure::Wrong(format!("{} is the image itself, which is never written", to.display())));
        }
        host::write(to, bytes, force)
    }
}

fn not_consistent(path: &str, map: &Map) -> Option<String> {
    let faults = match map.faults.len() {
        0 => return None,
        faults => counted(faults, "fault"),
    };
    Some(format!("{path} is not consistent: {faults}; what is marked by one has a !"))
}

/// That the directory's length is a fault, so that another is gone by.
pub fn presumed_length(map: &Map) -> Option<String> {
    let first = map.faults.first().filter(|fault| fault.told.fault.kind == FaultKind::DirectoryLength);
    first.map(|_| {
        let sectors = map.directory_sectors;
        format!("the directory's length is a fault: shown as one of {sectors} sectors, for which most speaks")
    })
}
