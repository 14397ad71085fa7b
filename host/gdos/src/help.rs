//! The help texts.

use crate::args::Spec;
use crate::command::Command;
use crate::shape;
use genie_dos::Preset;

const ABOUT: &str = "\
gdos: Genie-DOS disk images (TRSDOS family, 1983)

Usage: gdos COMMAND [OPTIONS] IMAGE [ARGUMENTS]
       gdos COMMAND --help
";

pub const GEOMETRY: &str = "\
The geometry
  An image is raw: the disk's sectors of 256 bytes in order, which is also the JV1 container. It does not say
  how its disk is organized. The first of these that says anything of it is heeded:
    1. options: --preset, or --blocks, --units and --start, and --granule where a granule has not 5 sectors (these go
       before the preset's numbers)
    2. GDOS_GEOMETRY in the environment: a preset's name, or as blocks=48 units=3 start=360
    3. IMAGE.gdos beside the image: gdos new makes it, and gdos geometry IMAGE --set
    4. a search
  Numbers are typed as 1440, 5A0H or 0x5A0. Options that leave one geometry state it; what they leave open is
  searched. The search takes a geometry only if the disk is consistent under it, a file's name speaks for its
  directory, and nothing speaks for another; otherwise nothing is read, and what was found is told with the options
  to type. It tries granules of 5 sectors, and only where none of these readings is consistent 10 and 20, which it
  says. Commands that only read tell on standard error what they found. Those that change a disk (put, cp, tar
  --in, rm, trim, undelete) want a geometry that is stated; --search lets them use what is found. `gdos probe` shows the
  evidence.
";

pub const NAMES: &str = "\
Names
  A file is named as on the machine, PULS01/DAT: 1 to 8 characters, then a slash and a type of up to 3. Allowed
  are digits, letters (small ones count as capital) and [ \\ ]. In patterns * stands for any characters, the slash
  too, and ? for one that is no slash; they do not find system files. Put patterns in quotes: '*/DAT'.
";

pub const STATUS: &str = "\
Exit status
  0  done
  1  refused by the disk's rules; the message has the number, what it means and the file
  2  wrong usage, a geometry that is to be stated, or a file of the host that cannot be read or written
  diff alone has that of the host's diff: 0 alike, 1 different, 2 trouble, a refusal too.
  Where a command was refused or failed no image was changed. An image is never left half written: a change is
  made to a copy beside it, which is then put in its place.
";

pub const CHANGES: &str = "\
What no command does
  The system has no call that renames a file or changes its attributes (invisible, access level, F, E, codes, date),
  and gdos writes no byte behind the library's back. So there is no mv and no attr. A file gets another name by being
  copied within its disk, with its date, record length and codes, and then removed under the old one:
    gdos cp disk.img:PULS01/DAT disk.img:PULS02/DAT
    gdos rm disk.img PULS01/DAT
  It gets another date, record length or codes by being read out, removed and put anew:
    gdos get disk.img PULS01/DAT
    gdos rm disk.img PULS01/DAT
    gdos put disk.img PULS01.DAT --date 1983-10-09 --code 1234H
  The new file has access level 0 and is not invisible, and F and E are not set, as of every new file.
";

/// `gdos --help`, of all commands.
pub fn overview(commands: &[Command]) -> String {
    let mut text = format!("{ABOUT}\nCommands\n");
    for command in commands {
        text += &format!("  {:<12}{}\n", command.name, command.summary);
    }
    text + "\n" + NAMES + "\n" + GEOMETRY + "\n" + &presets() + "\n" + CHANGES + "\n" + STATUS
}

/// `gdos --version`.
pub fn version() -> String {
    format!("gdos {}\n", env!("CARGO_PKG_VERSION"))
}

/// `gdos COMMAND --help`.
pub fn on(command: &Command) -> String {
    let mut text =
        format!("gdos {}: {}\n\nUsage: gdos {} {}\n", command.name, command.summary, command.name, command.usage);
    text += &format!("\n{}", command.about);
    for (title, specs) in command.groups {
        text += &group(title, specs);
    }
    text += "\nExamples\n";
    for example in command.examples {
        text += &format!("  {example}\n");
    }
    text + &format!("\nExit status: {}. `gdos --help` tells more.\n", command.status)
}

/// Options under their title; behind those of the geometry the presets.
pub fn group(title: &str, specs: &[Spec]) -> String {
    let mut text = format!("\n{title}\n");
    for spec in specs {
        text += &option(spec);
    }
    if title == shape::TITLE {
        text += &format!("\n{}", presets());
    }
    text
}

fn option(spec: &Spec) -> String {
    let short = spec.short.map_or("    ".to_string(), |letter| format!("-{}, ", letter as char));
    let value = spec.value.map_or(String::new(), |value| format!(" {value}"));
    format!("  {:<26}{}\n", format!("{short}--{}{value}", spec.long), spec.help)
}

pub fn presets() -> String {
    let mut text = String::from("Presets\n");
    for preset in Preset::ALL {
        let g = preset.geometry;
        text += &format!(
            "  {:<9}{:>3} blocks of {} units, directory at sector {:>5}: {}\n",
            preset.name, g.blocks, g.units, g.start, preset.about
        );
    }
    text
}
