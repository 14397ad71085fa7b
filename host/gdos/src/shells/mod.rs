//! Completion for shells, made of the commands as they are: what can be typed behind `gdos`.

mod bash;
mod fish;
mod zsh;

use crate::args::Spec;
use crate::command::Command;
use genie_dos::Preset;

/// A shell that gets a completion.
pub struct Shell {
    pub name: &'static str,
    /// The text that it is to read, of all commands.
    pub script: fn(&[Command]) -> String,
}

/// All shells.
pub const SHELLS: &[Shell] = &[
    Shell { name: "bash", script: bash::script },
    Shell { name: "zsh", script: zsh::script },
    Shell { name: "fish", script: fish::script },
];

/// What can stand in a place of the command line.
#[derive(Clone, Debug, PartialEq, Eq)]
enum Place {
    /// A number, a code, a date: nothing is proposed.
    Open,
    File,
    Folder,
    /// A file of the image that stands before it.
    Name,
    /// One of these.
    One(Vec<&'static str>),
}

/// What an option's value can be; none if it takes none.
fn value(spec: &Spec) -> Option<Place> {
    let place = match (spec.long, spec.value?) {
        ("preset" | "preset2", _) => Place::One(Preset::ALL.iter().map(|preset| preset.name).collect()),
        ("granule" | "granule2", _) => Place::One(vec!["5", "10", "20"]),
        ("color", _) => Place::One(vec!["auto", "always", "never"]),
        ("file", "NAME") => Place::Name,
        (_, "DIR" | "FOLDER") => Place::Folder,
        (_, "FILE" | "COPY" | "ARCHIVE" | "LIST") => Place::File,
        _ => Place::Open,
    };
    Some(place)
}

/// What the words of a command can be, the first and those behind it: as its usage says.
fn words(command: &Command) -> (Place, Place) {
    let kind = |word: &str| match word.trim_matches(|c: char| !c.is_ascii_alphabetic()) {
        "NAME" => Place::Name,
        "SHELL" => Place::One(SHELLS.iter().map(|shell| shell.name).collect()),
        _ => Place::File,
    };
    // What stands behind an option in the usage is its value.
    let mut plain = command.usage.split_whitespace().filter(|word| *word != "[OPTIONS]");
    // A name that stands before its image cannot be known yet.
    let first = plain.next().map_or(Place::Open, kind);
    let first = if first == Place::Name { Place::File } else { first };
    let second = plain.next().filter(|word| !word.starts_with('-')).map_or(Place::Open, kind);
    let later = if command.usage.contains("IMAGE...") { Place::File } else { second };
    (first, later)
}

/// The names of commands.
fn names(commands: &[Command]) -> Vec<&'static str> {
    commands.iter().map(|command| command.name).collect()
}

/// Options that every command has.
const EVERYWHERE: [Spec; 2] = [
    Spec { long: "help", short: Some(b'h'), value: None, help: "tell what it does, and its options" },
    Spec { long: "version", short: Some(b'V'), value: None, help: "tell the program's version" },
];

/// The options of a command, with those that every one has.
fn options(command: &Command) -> Vec<Spec> {
    let mut options = command.options();
    options.extend(EVERYWHERE);
    options
}

/// An option as it is typed: `--force`, and `-f` if it has a letter.
fn typed(spec: &Spec) -> Vec<String> {
    let short = spec.short.map(|letter| format!("-{}", letter as char));
    short.into_iter().chain([format!("--{}", spec.long)]).collect()
}

#[cfg(test)]
mod tests {
    use super::*;
    use crate::commands::COMMANDS;

    #[test]
    fn places_of_words() {
        let words = |name: &str| words(COMMANDS.iter().find(|command| command.name == name).unwrap());
        assert_eq!(words("get"), (Place::File, Place::Name));
        assert_eq!(words("ls"), (Place::File, Place::Name));
        assert_eq!(words("put"), (Place::File, Place::File));
        assert_eq!(words("check"), (Place::File, Place::File));
        assert_eq!(words("rescue"), (Place::File, Place::Open));
        assert_eq!(words("free"), (Place::File, Place::Open));
        assert_eq!((words("cp"), words("find")), ((Place::File, Place::File), (Place::File, Place::File)));
        assert_eq!(words("completion"), (Place::One(vec!["bash", "zsh", "fish"]), Place::Open));
    }

    /// Every command and every option stands in every script.
    #[test]
    fn nothing_is_left_out() {
        for shell in SHELLS {
            let script = (shell.script)(COMMANDS);
            for command in COMMANDS {
                assert!(script.contains(command.name), "{}: {}", shell.name, command.name);
                for spec in options(command) {
                    let long =
                        if shell.name == "fish" { format!("-l {} ", spec.long) } else { format!("--{}", spec.long) };
                    assert!(script.contains(&long), "{}: {}", shell.name, spec.long);
                }
            }
        }
    }
}
