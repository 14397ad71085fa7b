//! `gdos rescue`.

use super::choose::only_image;
use super::mend::mended;
use super::opened::Opened;
use super::{failures_json, Command, Output, FORCE, JSON};
use crate::args::{Args, Spec};
use crate::damage;
use crate::failure::Failure;
use crate::host;
use crate::json::Json;
use crate::names::host_name;
use crate::shape::{self, Wanted};
use crate::text::{self, counted};
use genie_dos::{Dropped, Holds, Mended, Rescued};
use std::path::{Path, PathBuf};

const OUTPUT: Spec =
    Spec { long: "output", short: Some(b'o'), value: Some("FOLDER"), help: "the folder to write to, made if need be" };
const DOUBTFUL: Spec = Spec {
    long: "doubtful",
    short: None,
    value: None,
    help: "write the doubtful files too, to the folder `doubtful` in that one",
};

/// The folder of the doubtful files, and their word.
const DOUBTFUL_FOLDER: &str = "doubtful";

pub const COMMAND: Command = Command {
    name: "rescue",
    summary: "copy what can be had from a damaged disk to the host",
    usage: "[OPTIONS] IMAGE -o FOLDER",
    about: "\
Mends a copy of the disk in memory (see gdos mend) and reads its files from there, system files too, without asking for
passwords: PULS01/DAT goes to FOLDER/PULS01.DAT. Files about which there is doubt are written only with --doubtful, to
FOLDER/doubtful: those of which a granule or the name stood in another entry too, a granule was free in the GAT, the
HIT byte did not bear out the name or gave a byte of it back, or byte 00 said that they were killed. Of two files that
stand against each other both are read. A line tells of each file, and of each that could not be had.
What no rule can tell is not told: an end, a run or a name that was changed so that the disk is still consistent.
The image is never written. State its geometry: a damaged disk is seldom found by search.
",
    groups: &[
        ("Options", &[OUTPUT, DOUBTFUL, Spec { help: "overwrite files of the host", ..FORCE }, JSON]),
        (shape::TITLE, shape::OPTIONS),
    ],
    examples: &[
        "gdos rescue --preset dd40 disk.img -o series",
        "gdos rescue --preset dd40 disk.img -o series --doubtful",
    ],
    status: STATUS,
    run,
};

/// What its exit status tells, for its help.
pub const STATUS: &str = "0 all files, 1 refused, or a file is missing or doubtful, 2 wrong usage or I/O";

/// A file, and whether it was read from the copy or from another one in which it could stay.
pub struct Had {
    pub file: Rescued,
    elsewhere: bool,
}

fn run(args: &Args) -> Result<Output, Failure> {
    let image = only_image(args)?;
    let folder = args.value("output").map(PathBuf::from);
    let folder = folder.ok_or_else(|| Failure::Wrong("which folder? -o FOLDER names it".to_string()))?;
    let opened = Opened::unchecked(&Wanted::from_args(args)?, image)?;
    let mended = mended(&opened)?;
    let (had, missing) = had_and_missing(&opened, &mended)?;

    let mut output = opened.output();
    output.notes.extend(untold(&mended));
    let mut told = Vec::new();
    let mut used: Vec<PathBuf> = Vec::new();
    for Had { file, elsewhere } in &had {
        let doubtful = !file.doubts.is_empty();
        let wanted = !doubtful || args.has(DOUBTFUL.long);
        let mut path = if doubtful { folder.join(DOUBTFUL_FOLDER) } else { folder.clone() };
        path.push(host_name(&file.entry.name()));
        // Two doubtful files of one name are told apart by their slots.
        if used.contains(&path) {
            let mut apart = path.into_os_string();
            apart.push(format!("-slot{}", text::slot(file.entry.slot().into())));
            path = PathBuf::from(apart);
        }
        used.push(path.clone());
        let written = match wanted {
            true if host::same_file(Path::new(image), &path) => Err(Failure::Wrong(format!(
                "{} is the image itself, which is never written; choose another folder",
                path.display()
            ))),
            true => write(&folder, &path, &file.bytes, args.has("force")).map(|()| true),
            false => Ok(false),
        };
        match written {
            Ok(written) => {
                output.changed |= written;
                output.text.extend(line(file, written.then_some(path.as_path())).into_bytes());
                told.push(json(file, written.then_some(path.as_path()), *elsewhere));
            }
            Err(failure) => output.failures.push(failure),
        }
    }
    let mut lost = Vec::new();
    for dropped in &missing {
        if let Some(step) = mended.steps.get(dropped.step) {
            let named = damage::named(&dropped.name, dropped.slot);
            output.text.extend(format!("missing: {named}: {}\n", damage::line(step.decisive())).into_bytes());
            lost.push(damage::dropped_json(&dropped.name, dropped.slot, step.decisive()));
        }
    }
    let doubtful = had.iter().filter(|had| !had.file.doubts.is_empty()).count();
    output.text.extend(
        format!(
            "{}: {} without doubt, {doubtful} doubtful, {} missing\n",
            opened.path,
            counted(had.len() - doubtful, "file"),
            missing.len()
        )
        .into_bytes(),
    );
    output.status = u8::from(doubtful + missing.len() > 0);
    let mut members = opened.head();
    members.extend([
        ("files", Json::List(told)),
        ("missing", Json::List(lost)),
        ("failures", failures_json(&output.failures)),
    ]);
    output.json = Json::Object(members);
    Ok(output)
}

/// Of a damaged disk with reserved granules: what no rule tells, so that a file called undoubted is not taken for more than that.
fn untold(mended: &Mended) -> Option<String> {
    let reserved = match mended.disk.map() {
        Ok(map) if !mended.steps.is_empty() => map.cells.iter().filter(|cell| cell.holds == Holds::Reserved).count(),
        _ => 0,
    };
    let (noun, them) = if reserved == 1 { ("granule is", "it") } else { ("granules are", "them") };
    (reserved > 0).then(|| {
        format!("{reserved} {noun} taken and in no file: if the damage turned a file's run to {them}, no rule of the disk tells")
    })
}

/// The files of the mended copy; those that it does not have, but another one in which they could stay; and those that cannot be
/// had.
pub fn had_and_missing<'a>(opened: &Opened, mended: &'a Mended) -> Result<(Vec<Had>, Vec<&'a Dropped>), Failure> {
    let read = |mended: &Mended| mended.rescue().map_err(Failure::image(&opened.path));
    let mut had: Vec<Had> = read(mended)?.into_iter().map(|file| Had { file, elsewhere: false }).collect();
    let mut missing = Vec::new();
    for dropped in &mended.dropped {
        let other = Mended::with(&opened.disk, dropped).ok().flatten();
        let file = other.map(|other| read(&other)).transpose()?;
        let file = file.and_then(|files| files.into_iter().find(|file| file.entry.slot() == dropped.slot));
        match file {
            // It stood against another file, so it is never without doubt.
            Some(file) if !file.doubts.is_empty() => had.push(Had { file, elsewhere: true }),
            _ => missing.push(dropped),
        }
    }
    Ok((had, missing))
}

fn write(folder: &Path, path: &Path, bytes: &[u8], force: bool) -> Result<(), Failure> {
    host::make_folder(folder)?;
    path.parent().map_or(Ok(()), host::make_folder)?;
    host::write(path, bytes, force)
}

fn line(file: &Rescued, host: Option<&Path>) -> String {
    let (name, size) = (file.entry.name().shown(), counted(file.bytes.len(), "byte"));
    match (file.doubts.is_empty(), host) {
        (true, Some(host)) => format!("{name} to {}, {size}\n", host.display()),
        (true, None) => format!("{name}, {size}, not written\n"),
        (false, Some(host)) => {
            format!("doubtful: {name} to {}, {size}: {}\n", host.display(), damage::doubts(&file.doubts))
        }
        (false, None) => format!("doubtful: {name}, {size}, not written: {}\n", damage::doubts(&file.doubts)),
    }
}

fn json(file: &Rescued, host: Option<&Path>, elsewhere: bool) -> Json {
    Json::object([
        ("name", file.entry.name().shown().into()),
        ("slot", file.entry.slot().into()),
        ("size", file.bytes.len().into()),
        ("host", host.map(|host| host.to_string_lossy().into_owned()).into()),
        ("in_mended_copy", (!elsewhere).into()),
        ("doubts", damage::doubts_json(&file.doubts)),
    ])
}
