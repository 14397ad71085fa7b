//! A change of each file that the words name.

use super::choose::{chosen, image_and_files, open, password, refused};
use super::opened::Opened;
use super::Output;
use crate::args::Args;
use crate::failure::Failure;
use crate::json::Json;
use crate::text::counted;
use genie_dos::{Disk, Handle, Refusal};

/// Opens each file that the words name and has a call change it: all of them, or the image stays as it is. A line tells
/// what was done and how many granules it freed.
pub fn change_each(
    args: &Args,
    done: &str,
    call: fn(&mut Disk, &Handle) -> Result<(), Refusal>,
) -> Result<Output, Failure> {
    let (image, words) = image_and_files(args)?;
    let (mut opened, locked) = Opened::change(args, image)?;
    let password = password(args, opened.geometry())?;
    let free = |opened: &Opened| opened.disk.count().map(|counts| counts.free).map_err(Failure::image(&opened.path));
    let mut output = opened.output();
    let mut told = Vec::new();
    for typed in chosen(&opened, words, false)?.into_iter().collect::<Result<Vec<_>, _>>()? {
        let before = free(&opened)?;
        let handle = open(&opened, &typed, password)?;
        call(&mut opened.disk, &handle).map_err(refused(&opened.path, &typed))?;
        let freed = free(&opened)? - before;
        let line = format!("{} {done}, {} freed\n", typed.name, counted(freed, "granule"));
        output.text.extend(line.into_bytes());
        told.push(Json::object([("name", typed.name.to_string().into()), ("freed", freed.into())]));
    }
    output.notes.extend(opened.keep(locked)?);
    output.changed = true;
    let mut json = opened.head();
    json.push(("files", Json::List(told)));
    output.json = Json::Object(json);
    Ok(output)
}
