//! `gdos new`.

use super::choose::only_image;
use super::opened::shown;
use super::{Command, Output, DONE, FORCE, JSON};
use crate::args::{number, Args, Spec};
use crate::failure::Failure;
use crate::host::Prepared;
use crate::json::Json;
use crate::shape::{self, Wanted};
use crate::stated::{Sidecar, Source};
use crate::text::counted;
use genie_dos::{Disk, Geometry, Refusal};
use std::ffi::OsStr;
use std::path::Path;

const DIRECTORY: Spec = Spec {
    long: "directory",
    short: None,
    value: Some("SECTORS"),
    help: "length of the directory: 10, 15, 20, 25 or 30 sectors (10)",
};
const RESERVE: Spec = Spec {
    long: "reserve",
    short: None,
    value: Some("LIST"),
    help: "granules that no file may take, as 0,1,40; or none (0, the boot sector's)",
};

pub const COMMAND: Command = Command {
    name: "new",
    summary: "make an image of an empty disk",
    usage: "[OPTIONS] IMAGE",
    about: "\
Makes a consistent disk without files. State its geometry, by --preset or by --blocks, --units and --start, and if its
granules have 10 or 20 sectors by --granule; it is kept in IMAGE.gdos beside the image, so that no later command has to
be told it (see gdos geometry). A directory of
10, 15, 20, 25 or 30 sectors has room for 32, 72, 112, 152 or 192 files, and with --data-disk for 30 more; a badly
scattered file takes more than one place. Outside the directory every byte is E5H, as formatting leaves it; there is
neither a system nor a label on the disk.
",
    groups: &[
        ("Options", &[DIRECTORY, RESERVE, Spec { help: "replace an image that is there", ..FORCE }, JSON]),
        (shape::TITLE, shape::OPTIONS),
    ],
    examples: &[
        "gdos new --preset dd80ds --directory 30 disk.img",
        "gdos new --blocks 16 --units 2 --start 80 small.img",
        "gdos new --preset dd80ds --directory 30 --data-disk archive.img",
    ],
    status: DONE,
    run,
};

fn run(args: &Args) -> Result<Output, Failure> {
    let image = only_image(args)?;
    let path = shown(image);
    let geometry = Wanted::from_args(args)?.known.whole().ok_or_else(|| {
        Failure::Wrong("a new disk needs its geometry: --preset, or --blocks, --units and --start".to_string())
    })?;
    let sectors = args.number("directory")?.unwrap_or(10);
    if ![10, 15, 20, 25, 30].contains(&sectors) {
        return Err(Failure::Wrong(format!("a directory has 10, 15, 20, 25 or 30 sectors, not {sectors}")));
    }
    let reserved = reserved(args)?;
    if let (Some(granules), Some(off)) = (geometry.granules(), reserved.iter().max()) {
        if *off >= granules {
            return Err(Failure::Wrong(format!("--reserve: the disk has granules 0 to {}, not {off}", granules - 1)));
        }
    }
    let disk = Disk::blank(geometry, sectors, &reserved).map_err(|refusal| match refusal {
        Refusal::Geometry => Failure::image(&path)(refusal).because(shape::fault(geometry, 0)),
        Refusal::Inconsistent(_) => Failure::image(&path)(refusal)
            .because(format!("a directory of {sectors} sectors from sector {} on does not fit", geometry.start)),
        _ => Failure::image(&path)(refusal),
    })?;
    let free = disk.count().map_err(Failure::image(&path))?.free;
    let notes = place(image, &disk, geometry, args.has("force"))?;
    let json = Json::object([
        ("image", path.as_str().into()),
        ("geometry", shape::json(geometry)),
        ("geometry_from", Source::Options.word().into()),
        ("bytes", disk.image().len().into()),
        ("directory_sectors", sectors.into()),
        ("free", free.into()),
    ]);
    let text = format!("{path}: {} bytes, {} free\n", disk.image().len(), counted(free, "granule"));
    Ok(Output { text: text.into_bytes(), json, notes, changed: true, ..Output::default() })
}

/// Writes the image and the file beside it: both are written before either is put in its place.
pub(super) fn place(image: &OsStr, disk: &Disk, geometry: Geometry, force: bool) -> Result<Vec<String>, Failure> {
    let prepared = Prepared::new(Path::new(image), disk.image(), force)?;
    let sidecar = Sidecar::of(Path::new(image));
    if !sidecar.can_be() {
        prepared.place()?;
        return Ok(vec!["the image's name is too long for a file beside it that keeps the geometry".to_string()]);
    }
    let beside = sidecar.prepare(&shown(image), geometry, force)?;
    prepared.place()?;
    beside.place()?;
    Ok(Vec::new())
}

fn reserved(args: &Args) -> Result<Vec<usize>, Failure> {
    let list = args.value("reserve").map_or("0".into(), |list| list.to_string_lossy());
    if list == "none" {
        return Ok(Vec::new());
    }
    let granules: Option<Vec<_>> = list.split(',').map(number).collect();
    granules.ok_or_else(|| Failure::Wrong(format!("--reserve wants granule numbers, as 0,1,40, or none, not {list:?}")))
}
