//! What a command of the program is, and what it leaves. The list of all is in `commands`; what is made of a list (help, man page,
//! completions) is handed it.

use crate::args::{Args, Spec};
use crate::failure::Failure;
use crate::json::Json;

/// A command of the program.
pub struct Command {
    pub name: &'static str,
    pub summary: &'static str,
    /// What stands behind the name on the command line.
    pub usage: &'static str,
    /// What it does, for its help.
    pub about: &'static str,
    /// Its options, under their titles.
    pub groups: &'static [(&'static str, &'static [Spec])],
    pub examples: &'static [&'static str],
    /// What its exit status tells.
    pub status: &'static str,
    pub run: fn(&Args) -> Result<Output, Failure>,
}

impl Command {
    /// All its options.
    pub fn options(&self) -> Vec<Spec> {
        self.groups.iter().flat_map(|(_, specs)| *specs).copied().collect()
    }

    /// Whether it has an option of this name.
    pub fn knows(&self, long: &str) -> bool {
        self.options().iter().any(|spec| spec.long == long)
    }
}

/// The exit status of nearly every command.
pub const DONE: &str = "0 done, 1 refused, 2 wrong usage or I/O";

/// What a command leaves to be printed.
#[derive(Debug, Default)]
pub struct Output {
    /// For people.
    pub text: Vec<u8>,
    /// For programs, with `--json`.
    pub json: Json,
    /// Remarks to standard error.
    pub notes: Vec<String>,
    /// What went wrong although the command went on.
    pub failures: Vec<Failure>,
    /// The exit status, if it is more than the failures make it.
    pub status: u8,
    /// The command did more than to print this: it changed an image or wrote files.
    pub changed: bool,
}
