//! `gdos completion` and `gdos manual`.

use super::{Command, Output, COMMANDS, DONE};
use crate::args::Args;
use crate::failure::Failure;
use crate::manual;
use crate::shells::SHELLS;

pub const COMMAND: Command = Command {
    name: "completion",
    summary: "write the completion of a shell",
    usage: "[OPTIONS] SHELL",
    about: "\
Writes what bash, zsh or fish is to read so that it completes commands, options, presets, files of the host and, behind
an image, names of its files. `make install` puts all three where they are found; by hand:

    gdos completion bash > ~/.local/share/bash-completion/completions/gdos
    gdos completion zsh > DIR/_gdos           # DIR one of the folders of fpath
    gdos completion fish > ~/.config/fish/completions/gdos.fish
",
    groups: &[],
    examples: &["source <(gdos completion bash)", "gdos completion fish | source"],
    status: DONE,
    run,
};

pub const MANUAL: Command = Command {
    name: "manual",
    summary: "write the man page",
    usage: "[OPTIONS]",
    about: "\
Writes the man page, gdos.1: all that the help of each command tells, in one text. `make install` puts it where man
finds it.
",
    groups: &[],
    examples: &["gdos manual | man -l -"],
    status: DONE,
    run: |args| match args.words.first() {
        Some(surplus) => Err(Failure::Wrong(format!("what is {surplus:?} for? This command takes no words"))),
        None => Ok(Output { text: manual::page(COMMANDS).into_bytes(), ..Output::default() }),
    },
};

fn run(args: &Args) -> Result<Output, Failure> {
    let names = || SHELLS.iter().map(|shell| shell.name).collect::<Vec<_>>().join(", ");
    match args.words.as_slice() {
        [] => Err(Failure::Wrong(format!("which shell? There are {}", names()))),
        [word] => match SHELLS.iter().find(|shell| word == shell.name) {
            Some(shell) => Ok(Output { text: (shell.script)(COMMANDS).into_bytes(), ..Output::default() }),
            None => Err(Failure::Wrong(format!("there is no completion for {word:?}; there are {}", names()))),
        },
        [_, surplus, ..] => Err(Failure::Wrong(format!("what is {surplus:?} for? This command takes one shell"))),
    }
}
