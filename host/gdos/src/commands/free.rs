//! `gdos free`.

use super::choose::only_image;
use super::opened::Opened;
use super::room::More;
use super::{Command, Output, DONE, JSON};
use crate::args::Args;
use crate::failure::Failure;
use crate::fault;
use crate::json::Json;
use crate::shape::{self, Wanted};
use crate::text::counted;
use genie_dos::{Explained, FreeSpace, Refusal};

pub const COMMAND: Command = Command {
    name: "free",
    summary: "tell how much space is left",
    usage: "[OPTIONS] IMAGE",
    about: "\
Tells the free granules and the longest free stretch (granules with consecutive numbers), and the bytes that fit into
them. A file takes whole granules: of 1,280 bytes, unless --granule says 10 or 20 sectors. Of a consistent disk also how
many files more its directory takes, as a system disk and as a data disk.

Only the disk's map of granules is looked at. So a disk that is not consistent is answered too, if its geometry is
stated: what is marked free is counted, and a note says what is wrong with the disk (`gdos check` tells more).
",
    groups: &[("Options", &[JSON]), (shape::TITLE, shape::OPTIONS)],
    examples: &["gdos free disk.img", "gdos free damaged.img --preset dd80ds"],
    status: DONE,
    run,
};

fn run(args: &Args) -> Result<Output, Failure> {
    let image = only_image(args)?;
    let opened = Opened::unchecked(&Wanted::from_args(args)?, image)?;
    let (disk, path) = (&opened.disk, &opened.path);
    let FreeSpace { free, longest, .. } = disk.free_space().map_err(Failure::image(path))?;
    let fault = disk.check().err().and_then(Refusal::fault).map(|fault| disk.explain(fault));
    let width = opened.geometry().granule_bytes();
    let (total, bytes, longest_bytes) = (disk.image().len() / width, free * width, longest * width);
    // A disk that is not consistent takes no file.
    let more = if fault.is_none() { Some(More::of(disk).map_err(Failure::image(path))?) } else { None };
    let mut json = opened.head();
    json.extend([
        ("free", free.into()),
        ("free_bytes", bytes.into()),
        ("longest", longest.into()),
        ("longest_bytes", longest_bytes.into()),
        ("granules", total.into()),
        ("files_more_system_disk", more.map(|more| more.system).into()),
        ("files_more_data_disk", more.map(|more| more.data).into()),
        ("consistent", fault.is_none().into()),
        ("fault", fault.as_ref().map(fault::json).into()),
    ]);
    let mut text = format!(
        "{free} of {} free, {bytes} bytes\nlongest stretch {}, {longest_bytes} bytes\n",
        shape::granules(opened.geometry(), total),
        counted(longest, "granule"),
    );
    text.extend(more.map(|more| format!("files: {}\n", more.told(opened.geometry()))));
    let note = |fault: Explained| {
        let kind = fault.fault.kind;
        let place = fault.fault.slot.map(|slot| format!(", slot {slot:02X}H")).unwrap_or_default();
        format!("{path} is not consistent ({kind}{place}): this is what its GAT marks as free, not what may be taken")
    };
    let mut notes = opened.notes();
    notes.extend(fault.map(note));
    Ok(Output { text: text.into_bytes(), json: Json::Object(json), notes, ..Output::default() })
}
