//! For fish.

use super::{names, options, value, words, Place};
use crate::command::Command;

const HEAD: &str = r#"# fish completion for gdos; `gdos completion fish` wrote it.

function __gdos_image # the image that stands on the line, if one does
    for word in (commandline -opc)[3..-1]
        if test -f "$word"
            echo $word
            return 0
        end
    end
    return 1
end

function __gdos_names # its files
    set -l image (__gdos_image); or return
    gdos ls --listing -- $image 2>/dev/null | sed '1d; $d; s/ .*//'
end

complete -c gdos -f
complete -c gdos -n __fish_use_subcommand -s h -l help -d 'list the commands'
complete -c gdos -n __fish_use_subcommand -s V -l version -d "tell the program's version"
complete -c gdos -n __fish_use_subcommand -a help -d 'tell of a command'
"#;

fn quoted(text: &str) -> String {
    format!("'{}'", text.replace('\\', "\\\\").replace('\'', "\\'"))
}

/// What offers a place's words.
fn place(place: &Place) -> Option<String> {
    match place {
        Place::Open => None,
        Place::File => Some("-F".to_string()),
        Place::Folder => Some("-a '(__fish_complete_directories (commandline -ct))'".to_string()),
        Place::Name => Some("-a '(__gdos_names)'".to_string()),
        Place::One(all) => Some(format!("-a '{}'", all.join(" "))),
    }
}

pub fn script(commands: &[Command]) -> String {
    let mut text = HEAD.to_string();
    text += &format!("complete -c gdos -n '__fish_seen_subcommand_from help' -a '{}'\n", names(commands).join(" "));
    for command in commands {
        let (name, summary) = (command.name, quoted(command.summary));
        text += &format!("\ncomplete -c gdos -n __fish_use_subcommand -a {name} -d {summary}\n");
        let seen = format!("__fish_seen_subcommand_from {name}");
        for spec in options(command) {
            let short = spec.short.map(|letter| format!(" -s {}", letter as char)).unwrap_or_default();
            let taken = match value(&spec) {
                None => String::new(),
                Some(Place::File) => " -r -F".to_string(),
                Some(kind) => format!(" -x {}", place(&kind).unwrap_or_default()),
            };
            text += &format!("complete -c gdos -n '{seen}' -l {}{short} -d {}{taken}\n", spec.long, quoted(spec.help));
        }
        let (first, later) = words(command);
        for (when, kind) in [("not __gdos_image >/dev/null", first), ("__gdos_image >/dev/null", later)] {
            if let Some(offered) = place(&kind) {
                text += &format!("complete -c gdos -n '{seen}; and {when}' {offered}\n");
            }
        }
    }
    text
}
