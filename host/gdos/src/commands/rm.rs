//! `gdos rm`.

use super::change::change_each;
use super::{Command, CODE, DONE, JSON, UNLOCK};
use crate::shape;
use genie_dos::Disk;

pub const COMMAND: Command = Command {
    name: "rm",
    summary: "remove files from a disk",
    usage: "[OPTIONS] IMAGE NAME...",
    about: "\
Removes each named file, and each that a pattern fits; their granules are free again. A line tells of each. All are
removed or none: if one is refused (not there, wrong password, a system file), the image stays as it is.
",
    groups: &[("Options", &[CODE, UNLOCK, shape::SEARCH, JSON]), (shape::TITLE, shape::OPTIONS)],
    examples: &["gdos rm disk.img PULS01/DAT", "gdos rm disk.img 'PULS*/DAT' LEER"],
    status: DONE,
    run: |args| change_each(args, "removed", Disk::kill),
};
