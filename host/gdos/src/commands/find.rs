//! `gdos find`.

use super::choose::refused;
use super::opened::Opened;
use super::{Command, Output, DONE, JSON};
use crate::args::Args;
use crate::failure::Failure;
use crate::json::Json;
use crate::names::Typed;
use crate::shape::{self, Wanted};
use crate::text;
use genie_dos::Refusal;

pub const COMMAND: Command = Command {
    name: "find",
    summary: "which of two disks has a file",
    usage: "[OPTIONS] NAME IMAGE [IMAGE]",
    about: "\
Looks the name up as a bench with two drives does: the first image is drive 0, the second drive 1, and the first that
has the name has the file. Tells the drive, the slot of the file's entry, and how many directory entries were compared
on the way: on drive 0 up to the file, and if it is not there all whose hash is the name's, then those of drive 1. A
file of the same name on drive 1 that drive 0 hides is told too. Both disks must be consistent. The name is looked up,
not matched: patterns are for `gdos ls`. Each disk has its own geometry. What the options say holds for both, except
where one that ends in 2 says otherwise of the second.
",
    groups: &[("Options", &[JSON]), (shape::TITLE, shape::OPTIONS_OF_TWO)],
    examples: &["gdos find PULS01/DAT drive0.img drive1.img", "gdos find --json EICH01/DAT bench.img"],
    status: DONE,
    run,
};

fn run(args: &Args) -> Result<Output, Failure> {
    let (name, images) = match args.words.as_slice() {
        [] => return Err(Failure::Wrong("which file? Its name is missing".to_string())),
        [_] => return Err(Failure::Wrong("on which images? The name of one or two is missing".to_string())),
        [_, _, _, surplus, ..] => {
            return Err(Failure::Wrong(format!("what is {surplus:?} for? This command takes one name and two images")));
        }
        [name, images @ ..] => (Typed::new(&name.to_string_lossy()), images),
    };
    let wanted = [Wanted::from_args(args)?, Wanted::second_from_args(args)?];
    let mut drives = Vec::new();
    for (image, wanted) in images.iter().zip(&wanted) {
        drives.push(Opened::look_as(wanted, image)?);
    }
    let mut notes = Vec::new();
    let (mut compared, mut found, mut hidden) = (0, None, None);
    for (drive, opened) in drives.iter().enumerate() {
        notes.extend(opened.notes());
        let answer = opened.disk.look_up(&name.name);
        match answer.slot {
            Ok(_) if found.is_some() => hidden = Some(drive),
            Ok(slot) => {
                compared += answer.compared;
                found = Some((drive, slot));
            }
            Err(Refusal::NotFound) if found.is_some() => {}
            Err(Refusal::NotFound) => compared += answer.compared,
            Err(refusal) => return Err(refused(&opened.path, &name)(refusal)),
        }
    }
    let entries = counted_entries(compared);
    let (drive, slot) = found.ok_or_else(|| {
        let all: Vec<&str> = drives.iter().map(|opened| opened.path.as_str()).collect();
        refused(&all.join(", "), &name)(Refusal::NotFound).because(format!("{entries} compared"))
    })?;
    let typed = &name.text;
    let mut lines = format!(
        "{typed}: drive {drive}, {}, slot {}; {entries} compared\n",
        drives[drive].path,
        text::slot(slot.into())
    );
    if let Some(other) = hidden {
        lines += &format!(
            "{typed}: on drive {other}, {}, too: a search without a drive does not come to it\n",
            drives[other].path
        );
    }
    Ok(Output {
        text: lines.into_bytes(),
        json: Json::object([
            ("name", typed.as_str().into()),
            ("drives", Json::list(drives.iter().map(|opened| Json::Object(opened.head())))),
            ("drive", drive.into()),
            ("slot", usize::from(slot).into()),
            ("compared", compared.into()),
            ("hidden", hidden.map_or(Json::Null, Json::from)),
        ]),
        notes,
        ..Output::default()
    })
}

/// `1 entry`, `2 entries`.
fn counted_entries(number: usize) -> String {
    match number {
        1 => text::counted(1, "entry"),
        _ => format!("{number} entries"),
    }
}
