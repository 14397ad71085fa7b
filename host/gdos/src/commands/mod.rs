//! The commands, and what several of them share.

mod change;
mod check;
mod choose;
mod completion;
mod cp;
mod diff;
mod dump;
mod find;
mod free;
mod geometry;
mod get;
mod info;
mod leftovers;
mod load;
mod ls;
mod map;
mod mend;
mod new;
mod opened;
mod play;
mod probe;
mod put;
mod report;
mod rescue;
mod rm;
mod room;
mod seeing;
mod tar;
mod trim;
mod undelete;

#[cfg(unix)]
pub use choose::{password, refused};
#[cfg(unix)]
pub use opened::Opened;
#[cfg(unix)]
pub use put::{date, DATE};

use crate::args::Spec;
use crate::command::{Command, Output, DONE};
use crate::failure::Failure;
use crate::json::Json;
use std::ffi::OsStr;

/// All commands, in the order of the help.
pub const COMMANDS: &[Command] = &[
    check::COMMAND,
    mend::COMMAND,
    rescue::COMMAND,
    ls::COMMAND,
    get::CAT,
    get::COMMAND,
    load::COMMAND,
    put::COMMAND,
    cp::COMMAND,
    tar::COMMAND,
    rm::COMMAND,
    undelete::COMMAND,
    trim::COMMAND,
    play::COMMAND,
    play::RECORD,
    free::COMMAND,
    info::COMMAND,
    map::COMMAND,
    dump::COMMAND,
    report::COMMAND,
    new::COMMAND,
    probe::COMMAND,
    geometry::COMMAND,
    diff::COMMAND,
    find::COMMAND,
    completion::COMMAND,
    completion::MANUAL,
];

/// The command of a name.
pub fn find(name: &OsStr) -> Option<&'static Command> {
    COMMANDS.iter().find(|command| name == command.name)
}

const JSON: Spec = Spec { long: "json", short: None, value: None, help: "write one JSON value instead of text" };
const FORCE: Spec = Spec { long: "force", short: Some(b'f'), value: None, help: "" };
const ALL: Spec = Spec { long: "all", short: Some(b'a'), value: None, help: "patterns find system files too" };
pub const CODE: Spec =
    Spec { long: "code", short: None, value: Some("CODE"), help: "the password code to open files by (the open code)" };
pub const UNLOCK: Spec =
    Spec { long: "unlock", short: Some(b'u'), value: None, help: "open files without checking their passwords" };

/// What went wrong, for `--json`.
fn failures_json(failures: &[Failure]) -> Json {
    Json::list(failures.iter().map(Failure::json))
}
