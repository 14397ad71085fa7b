//! For bash.

use super::{names, options, typed, value, words, Place};
use crate::command::Command;

/// What stands before what is made of the commands: it offers what `place` says.
const HEAD: &str = r#"# bash completion for gdos; `gdos completion bash` wrote it.

_gdos_files() { # WHAT: files, or folders
    local found
    while IFS= read -r found; do COMPREPLY+=("$found"); done < <(compgen "$1" -- "$cur")
    compopt -o filenames 2>/dev/null
}

_gdos_names() { # the files of the image that stands on the line
    local word name upper=${cur^^}
    for word in "${COMP_WORDS[@]:2:COMP_CWORD-2}"; do
        [ -f "$word" ] || continue
        while read -r name _; do
            if [[ $name == "$upper"* ]]; then COMPREPLY+=("$(printf '%q' "$name")"); fi
        done < <(gdos ls --listing -- "$word" 2>/dev/null | sed '1d; $d')
        return
    done
}

_gdos() {
    local cur=${COMP_WORDS[COMP_CWORD]} prev=${COMP_WORDS[COMP_CWORD-1]} command=${COMP_WORDS[1]-}
    local options='' first=open later=open place word
    COMPREPLY=()
    # --preset=dd40 is three words to bash.
    if [ "$cur" = = ]; then cur=''; elif [ "$prev" = = ]; then prev=${COMP_WORDS[COMP_CWORD-2]}; fi
"#;

const TAIL: &str = r#"    if [ -z "$place" ]; then
        case $cur in
            -*) place="$options" ;;
            *)
                place=$first
                for word in "${COMP_WORDS[@]:2:COMP_CWORD-2}"; do
                    if [ -f "$word" ]; then place=$later; break; fi
                done
                ;;
        esac
    fi
    case $place in
        open) ;;
        file) _gdos_files -f ;;
        folder) _gdos_files -d ;;
        name) _gdos_names ;;
        *) while IFS= read -r word; do COMPREPLY+=("$word"); done < <(compgen -W "$place" -- "$cur") ;;
    esac
}

complete -F _gdos gdos
"#;

/// A place as the script has it.
fn place(place: &Place) -> String {
    match place {
        Place::Open => "open".to_string(),
        Place::File => "file".to_string(),
        Place::Folder => "folder".to_string(),
        Place::Name => "name".to_string(),
        Place::One(all) => format!("'{}'", all.join(" ")),
    }
}

pub fn script(commands: &[Command]) -> String {
    let mut text = HEAD.to_string();
    let names = names(commands).join(" ");
    text += "    case $COMP_CWORD:$command:$prev in\n";
    text += &format!("        1:*) place='help {names} --help --version' ;;\n");
    text += &format!("        *:help:*) place='{names}' ;;\n");
    for command in commands {
        for spec in command.options() {
            if let Some(kind) = value(&spec) {
                let typed: Vec<_> = typed(&spec).iter().map(|word| format!("*:{}:{word}", command.name)).collect();
                text += &format!("        {}) place={} ;;\n", typed.join(" | "), place(&kind));
            }
        }
    }
    text += "    esac\n    case $command in\n";
    for command in commands {
        let all: Vec<_> = options(command).iter().flat_map(typed).collect();
        let (first, later) = words(command);
        text += &format!(
            "        {})\n            options='{}' first={} later={}\n            ;;\n",
            command.name,
            all.join(" "),
            place(&first),
            place(&later)
        );
    }
    text + "    esac\n" + TAIL
}
