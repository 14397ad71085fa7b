//! The man page, made of the same texts as the help.

use crate::args::Spec;
use crate::command::Command;
use crate::help;
use crate::shape;

/// The day of the page.
const DAY: &str = "2026-11-16";

/// Where a line of the page ends, before its dashes are written as roff wants them.
const MOST_LINE: usize = 68;

/// The page, for man: `gdos.1`, of all commands.
pub fn page(commands: &[Command]) -> String {
    let mut page = format!(
        ".\\\" Made by `gdos manual`; what it says is in the program's own help.\n\
         .TH GDOS 1 {DAY} \"gdos {}\" \"User Commands\"\n",
        env!("CARGO_PKG_VERSION")
    );
    page += ".SH NAME\ngdos \\- Genie\\-DOS disk images on the command line\n";
    page += ".SH SYNOPSIS\n.B gdos\n.I COMMAND\n.RI [ OPTIONS ]\n.I IMAGE\n.RI [ ARGUMENTS ]\n.br\n.B gdos\n.I COMMAND\n.B \\-\\-help\n";
    page += &format!(".SH DESCRIPTION\n{}", paragraphs(DESCRIPTION));
    page += ".SH COMMANDS\n";
    for command in commands {
        page += &on(command);
    }
    page += &titled(help::NAMES);
    page += &titled(help::GEOMETRY);
    let options: String = shape::OPTIONS.iter().map(option).collect();
    page += &format!(".PP\nOptions that state it:\n{options}");
    page += &listed(&help::presets());
    page += &titled(help::CHANGES);
    page += &titled(help::STATUS);
    page +=
        &format!(".SH ENVIRONMENT\n{}", ENVIRONMENT.iter().map(|(name, text)| tagged(name, text)).collect::<String>());
    page += &format!(
        ".SH FILES\n{}",
        tagged("IMAGE.gdos", "keeps the geometry of IMAGE; `gdos geometry` shows and sets it.")
    );
    page += ".SH SEE ALSO\n.BR tar (1),\n.BR xxd (1)\n";
    tidy(&page)
}

/// The page without breaks between paragraphs where there is none: next to a heading, a tag or another break.
fn tidy(page: &str) -> String {
    let mut tidied: Vec<&str> = Vec::new();
    let begins = |line: &str| [".SH", ".SS", ".TP", ".PP"].iter().any(|word| line.starts_with(word));
    for line in page.lines() {
        let before = tidied.last().copied().unwrap_or_default();
        if begins(line) && before == ".PP" {
            tidied.pop();
        }
        if line != ".PP" || !(before.starts_with(".SH") || before.starts_with(".SS")) {
            tidied.push(line);
        }
    }
    tidied.join("\n") + "\n"
}

const DESCRIPTION: &str = "\
gdos lists, reads, writes, checks, compares and mends images of Genie-DOS disks (TRSDOS family, 1983). Every call goes
through a library that is proved to keep the disk's rules. A disk that is not consistent is refused, with what is wrong and
where, and stays as it is; dump, map and report look at it, and mend and rescue make the best of a copy.
";

const ENVIRONMENT: [(&str, &str); 2] = [
    (
        "GDOS_GEOMETRY",
        "states a geometry where the options do not: a preset's name, or as blocks=48 units=3 start=360.",
    ),
    ("NO_COLOR", "if it is set, `gdos map` shows no colours unless --color says so."),
];

/// A command: its usage, what it does, its own options and examples.
fn on(command: &Command) -> String {
    let mut text = format!(".SS gdos {} {}\n", escaped(command.name), escaped(command.usage));
    text += &format!("{}.\n{}", capital(command.summary), ".PP\n");
    text += &paragraphs(command.about);
    for (title, specs) in command.groups {
        if *title == shape::TITLE {
            text += ".PP\nThe geometry is stated as below.\n";
            continue;
        }
        specs.iter().for_each(|spec| text += &option(spec));
    }
    text += ".PP\nExamples:\n.PP\n.EX\n";
    for example in command.examples {
        text += &format!("{}\n", escaped(example));
    }
    text + ".EE\n"
}

fn option(spec: &Spec) -> String {
    let mut typed = String::new();
    if let Some(letter) = spec.short {
        typed += &format!("\\-{}, ", letter as char);
    }
    typed += &escaped(&format!("--{}", spec.long));
    let value = spec.value.map(|value| format!(" \\fI{}\\fP", escaped(value))).unwrap_or_default();
    format!(".TP\n\\fB{typed}\\fP{value}\n{}", paragraphs(spec.help))
}

fn tagged(name: &str, text: &str) -> String {
    format!(".TP\n.B {}\n{}", escaped(name), paragraphs(text))
}

/// A section of the help: its first line is the title, and what follows is indented.
fn titled(section: &str) -> String {
    let (title, body) = section.split_once('\n').unwrap_or((section, ""));
    let body: String = body.lines().map(|line| line.strip_prefix("  ").unwrap_or(line).to_string() + "\n").collect();
    format!(".SH {}\n{}", escaped(&title.to_uppercase()), paragraphs(&body))
}

/// The same of lines that stay as they stand.
fn listed(section: &str) -> String {
    let (title, lines) = section.split_once('\n').unwrap_or((section, ""));
    format!(
        ".SH {}\n.EX\n{}.EE\n",
        escaped(&title.to_uppercase()),
        lines.lines().map(|line| escaped(line.trim_start()) + "\n").collect::<String>()
    )
}

/// A text of paragraphs; what is indented in it stays as it stands.
fn paragraphs(text: &str) -> String {
    let mut page = String::new();
    let mut paragraph = String::new();
    let mut listed = false;
    let is_list = |line: &str| line.starts_with(' ') || line.chars().next().map_or(false, |c| c.is_ascii_digit());
    for line in text.lines() {
        let lists = is_list(line);
        if lists != listed {
            filled(&mut page, &mut paragraph);
            page += if lists { ".PP\n.EX\n" } else { ".EE\n.PP\n" };
            listed = lists;
        }
        match line.trim_end() {
            line if lists => page += &format!("{}\n", escaped(line)),
            "" => {
                filled(&mut page, &mut paragraph);
                page += if page.is_empty() || page.ends_with(".PP\n") { "" } else { ".PP\n" };
            }
            line => paragraph += &format!("{line} "),
        }
    }
    filled(&mut page, &mut paragraph);
    page += if listed { ".EE\n" } else { "" };
    page.trim_end_matches(".PP\n").to_string()
}

/// Adds a paragraph, in lines that are not too long for who edits the page.
fn filled(page: &mut String, paragraph: &mut String) {
    let mut line = String::new();
    for word in paragraph.split_whitespace() {
        if !line.is_empty() && line.len() + word.len() >= MOST_LINE {
            *page += &format!("{}\n", escaped(&std::mem::take(&mut line)));
        }
        line += if line.is_empty() { "" } else { " " };
        line += word;
    }
    if !line.is_empty() {
        *page += &format!("{}\n", escaped(&line));
    }
    paragraph.clear();
}

/// A line as roff takes it for itself: no control line, dashes as they are typed, backslashes shown.
fn escaped(line: &str) -> String {
    let plain: String = line
        .chars()
        .map(|c| match c {
            '\\' => "\\e".to_string(),
            '-' => "\\-".to_string(),
            '`' => "\\(ga".to_string(),
            '\'' => "\\(aq".to_string(),
            '^' => "\\(ha".to_string(),
            '~' => "\\(ti".to_string(),
            c => c.to_string(),
        })
        .collect();
    match plain.starts_with('.') {
        true => format!("\\&{plain}"),
        false => plain,
    }
}

fn capital(text: &str) -> String {
    let text = escaped(text);
    let mut chars = text.chars();
    chars.next().map(|first| first.to_uppercase().chain(chars).collect()).unwrap_or_default()
}

#[cfg(test)]
mod tests {
    use super::*;

    #[test]
    fn lines_for_roff() {
        assert_eq!(escaped(".br"), "\\&.br");
        assert_eq!(escaped("it's - a \\"), "it\\(aqs \\- a \\e");
        assert_eq!(paragraphs("A\nb.\n\nC\n  d\n  e\nf\n"), "A b.\n.PP\nC\n.PP\n.EX\n  d\n  e\n.EE\n.PP\nf\n");
    }

    /// The page in the repository is the one that the program writes. `gdos manual > host/gdos/gdos.1` makes it anew.
    #[test]
    fn the_page_is_up_to_date() {
        assert!(
            include_str!("../gdos.1") == page(crate::commands::COMMANDS),
            "write it anew: gdos manual > host/gdos/gdos.1"
        );
    }
}
