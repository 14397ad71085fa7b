//! `gdos trim`.

use super::change::change_each;
use super::{Command, CODE, DONE, JSON, UNLOCK};
use crate::shape;
use genie_dos::Disk;

pub const COMMAND: Command = Command {
    name: "trim",
    summary: "give back space that files do not need",
    usage: "[OPTIONS] IMAGE NAME...",
    about: "\
Each named file, and each that a pattern fits, keeps the granules that its size needs; the others are free again. A
file with the flag F (keeps its space) stays as it is. A line tells of each. All are trimmed or none. If there is
nothing to give back the image is not written at all.
",
    groups: &[("Options", &[CODE, UNLOCK, shape::SEARCH, JSON]), (shape::TITLE, shape::OPTIONS)],
    examples: &["gdos trim disk.img PULS01/DAT", "gdos trim disk.img '*'"],
    status: DONE,
    run: |args| change_each(args, "trimmed", Disk::trim),
};
