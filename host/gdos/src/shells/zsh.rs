//! For zsh.

use super::{options, value, words, Place};
use crate::args::Spec;
use crate::command::Command;

const HEAD: &str = r#"#compdef gdos
# zsh completion for gdos; `gdos completion zsh` wrote it.

_gdos_names() { # the files of the image that stands on the line
    local word
    local -a names
    for word in ${words[2,CURRENT-1]}; do
        [[ -f ${(Q)word} ]] || continue
        names=(${${${(f)"$(gdos ls --listing -- ${(Q)word} 2>/dev/null)"}[2,-2]}%% *})
        compadd -M 'm:{a-z}={A-Z}' -a names
        return
    done
}

_gdos() {
    local curcontext=$curcontext state state_descr line
    typeset -A opt_args
    local -a commands
    commands=(
"#;

/// A text within a specification of `_arguments`, in single quotes.
fn escaped(text: &str) -> String {
    let mut escaped = String::new();
    for c in text.chars() {
        match c {
            '\'' => escaped += "'\\''",
            '[' | ']' | ':' | '\\' => escaped += &format!("\\{c}"),
            c => escaped.push(c),
        }
    }
    escaped
}

fn place(place: &Place) -> String {
    match place {
        Place::Open => " ".to_string(),
        Place::File => "_files".to_string(),
        Place::Folder => "_files -/".to_string(),
        Place::Name => "_gdos_names".to_string(),
        Place::One(all) => format!("({})", all.join(" ")),
    }
}

/// One option, both ways to type it.
fn option(spec: &Spec) -> String {
    let long = format!("--{}", spec.long);
    let value = match (value(spec), spec.value) {
        (Some(kind), Some(name)) => format!(":{name}:{}", place(&kind)),
        _ => String::new(),
    };
    let told = format!("'[{}]{value}'", escaped(spec.help));
    match spec.short {
        Some(letter) => format!("'(-{0} {long})'{{-{0},{long}}}{told}", letter as char),
        None => format!("{long}{told}"),
    }
}

fn case(command: &Command) -> String {
    let (first, later) = words(command);
    let mut text = format!("                {})\n                    _arguments -s \\\n", command.name);
    for spec in options(command) {
        text += &format!("                        {} \\\n", option(&spec));
    }
    text += &format!("                        '1:word:{}' '*:word:{}'\n", place(&first), place(&later));
    text + "                    ;;\n"
}

pub fn script(commands: &[Command]) -> String {
    let mut text = HEAD.to_string();
    for command in commands {
        text += &format!("        '{}:{}'\n", command.name, escaped(command.summary));
    }
    text += "    )\n    _arguments -C '1:command:->command' '*::argument:->argument'\n    case $state in\n";
    text += "        command)\n            _describe command commands -- \\\n";
    text += "                '(help:\"tell of a command\" --help --version)'\n            ;;\n";
    text += "        argument)\n            case ${words[1]} in\n";
    text += "                help) _describe command commands ;;\n";
    for command in commands {
        text += &case(command);
    }
    text + "            esac\n            ;;\n    esac\n}\n\n_gdos \"$@\"\n"
}
