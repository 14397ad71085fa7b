//! `gdos undelete`.

use super::choose::{image_and_rest, no_name};
use super::leftovers::{self, also_in, Also};
use super::opened::Opened;
use super::{Command, Output, DONE, JSON};
use crate::args::{Args, Spec};
use crate::failure::Failure;
use crate::json::Json;
use crate::names::{self, Typed};
use crate::shape;
use crate::text::{self, counted};
use genie_dos::{BroughtBack, Entry, Name, Refusal};
use std::ffi::{OsStr, OsString};

const SLOT: Spec =
    Spec { long: "slot", short: None, value: Some("N"), help: "the file that was in this slot, as 130 or 82H" };

pub const COMMAND: Command = Command {
    name: "undelete",
    summary: "list removed files, or bring some back",
    usage: "[OPTIONS] IMAGE [NAME...]",
    about: "\
Without a name: lists what removed files left in the directory, by slot: name, size in bytes, and whether the file
can be brought back, or why it cannot. It can if its entries are whole, its name is not in use and its granules are
free.

With names, or one slot: brings these files back, with the size, date, codes and flags that they had; all of them, or
the image stays as it is. A pattern stands for the removed files that it fits. A file's bytes are what its granules hold
now, which another file may have written since. Where another removed file's entry names the same granule, list and
note say so; a file whose own entry is gone too leaves no trace. So look at what came back. If several removed files
have a name, the slot is to say which one is meant.
",
    groups: &[("Options", &[SLOT, shape::SEARCH, JSON]), (shape::TITLE, shape::OPTIONS)],
    examples: &[
        "gdos undelete disk.img",
        "gdos undelete disk.img PULS01/DAT PULS02/DAT",
        "gdos undelete disk.img --slot 82H",
    ],
    status: DONE,
    run,
};

fn run(args: &Args) -> Result<Output, Failure> {
    let (image, words) = image_and_rest(args)?;
    match (words, args.number("slot")?) {
        ([], None) => list(args, image),
        ([], Some(slot)) => bring_back(args, image, |_| Ok(vec![slot])),
        (names, None) => bring_back(args, image, |opened| slots_of(opened, names)),
        (_, Some(_)) => Err(Failure::Wrong("a name or --slot, not both".to_string())),
    }
}

/// A removed file: whether it can be brought back, and who else names its granules.
pub struct Removed {
    pub entry: Entry,
    answer: Result<BroughtBack, Refusal>,
    also: Vec<Also>,
}

impl Removed {
    pub fn name(&self) -> String {
        name_text(&self.entry)
    }

    /// Whether it can be brought back, in words.
    pub fn answer_words(&self) -> String {
        match self.answer {
            Err(refusal) => format!("no: {refusal}"),
            Ok(_) if self.also.is_empty() => "yes".to_string(),
            Ok(_) => format!("yes, but {}: contents may be that file's", leftovers::told(&self.also)),
        }
    }
}

/// What removed files left, and whether each can be brought back: the call is tried on a copy of the disk.
pub fn removed_files(opened: &Opened) -> Result<Vec<Removed>, Failure> {
    let disk = &opened.disk;
    let dead = disk.dead_entries().map_err(Failure::image(&opened.path))?;
    let tried = |entry: Entry| {
        let slot = usize::from(entry.slot());
        Removed { entry, answer: disk.clone().bring_back(slot), also: also_in(disk, slot) }
    };
    Ok(dead.into_iter().map(tried).collect())
}

fn list(args: &Args, image: &OsStr) -> Result<Output, Failure> {
    let opened = Opened::look(args, image)?;
    let removed = removed_files(&opened)?;
    let mut json = opened.head();
    json.push(("removed", Json::list(removed.iter().map(entry_json))));
    Ok(Output { text: table(&removed).into_bytes(), json: Json::Object(json), ..opened.output() })
}

fn table(tried: &[Removed]) -> String {
    let mut text = String::new();
    if !tried.is_empty() {
        text += "SLOT  NAME/TYPE        SIZE  CAN BE BROUGHT BACK\n";
    }
    for removed in tried {
        let entry = &removed.entry;
        let (slot, name, size) = (text::slot(entry.slot().into()), removed.name(), entry.size());
        let answer = removed.answer_words();
        text += &format!("{slot:>4}  {name:<12}  {size:>7}  {answer}\n");
    }
    let possible = tried.iter().filter(|removed| removed.answer.is_ok()).count();
    text + &format!("{}, {possible} can be brought back\n", counted(tried.len(), "removed file"))
}

fn entry_json(Removed { entry, answer, also }: &Removed) -> Json {
    let answer = *answer;
    let refused = answer
        .err()
        .map(|refusal| Json::object([("number", refusal.number().into()), ("meaning", refusal.meaning().into())]));
    Json::object([
        ("slot", entry.slot().into()),
        ("name", name_text(entry).into()),
        ("size", entry.size().into()),
        ("slots", answer.ok().map(|back| back.slots).into()),
        ("granules", answer.ok().map(|back| back.granules).into()),
        ("refused", refused.unwrap_or_default()),
        ("also_in", leftovers::json(also)),
    ])
}

fn name_text(entry: &Entry) -> String {
    leftovers::name_text(entry.as_bytes())
}

/// The slots of the removed files that the words name, each only once. A pattern stands for those that it fits.
fn slots_of(opened: &Opened, words: &[OsString]) -> Result<Vec<usize>, Failure> {
    let path = &opened.path;
    let dead = opened.disk.dead_entries().map_err(Failure::image(path))?;
    let mut slots = Vec::new();
    for word in words {
        let word = word.to_string_lossy();
        let mut named = Vec::new();
        if names::is_pattern(&word) {
            let fitting = dead.iter().map(|entry| entry.name()).filter(|name| names::matches(&word, name));
            fitting.for_each(|name| {
                if !named.contains(&name) {
                    named.push(name)
                }
            });
        } else {
            let typed = Typed::new(&word);
            if let Some(failure) = no_name(path, &typed) {
                return Err(failure);
            }
            named.extend(dead.iter().map(|entry| entry.name()).find(|name| *name == typed.name));
        }
        if named.is_empty() {
            let why = if names::is_pattern(&word) {
                "no removed file fits this pattern"
            } else {
                "no removed file has this name"
            };
            return Err(Failure::file(path, &Typed::new(&word).text)(Refusal::NotFound).because(why));
        }
        for name in named {
            let slot = slot_of(&dead, name)?;
            if !slots.contains(&slot) {
                slots.push(slot);
            }
        }
    }
    Ok(slots)
}

/// The slot of the one removed file of this name.
fn slot_of(dead: &[Entry], name: Name) -> Result<usize, Failure> {
    let slots: Vec<_> = dead.iter().filter(|entry| entry.name() == name).map(|entry| entry.slot().into()).collect();
    match slots[..] {
        [only] => Ok(only),
        _ => {
            let slots: Vec<_> = slots.into_iter().map(text::slot).collect();
            let slots = slots.join(", ");
            Err(Failure::Wrong(format!("{name} was removed more than once, from slots {slots}: say which by --slot")))
        }
    }
}

/// Brings the files of some slots back, all of them or none.
fn bring_back(
    args: &Args,
    image: &OsStr,
    find: impl Fn(&Opened) -> Result<Vec<usize>, Failure>,
) -> Result<Output, Failure> {
    let (mut opened, locked) = Opened::change(args, image)?;
    let mut output = Output { changed: true, ..opened.output() };
    let slots = find(&opened)?;
    let mut notes = Vec::new();
    let mut files = Vec::new();
    // What each shares with others is looked for while all are dead.
    let shared: Vec<_> = slots.iter().map(|&slot| also_in(&opened.disk, slot)).collect();
    for (slot, also) in slots.into_iter().zip(shared) {
        let (line, json, name) = bring_one_back(&mut opened, slot, &also)?;
        output.text.extend(line.into_bytes());
        files.push(json);
        if !also.is_empty() {
            let told = leftovers::told(&also);
            notes.push(format!("{name}: {told}, a removed file's: the contents may be that file's"));
        }
    }
    output.notes.extend(opened.keep(locked)?);
    output.notes.extend(notes);
    let mut json = opened.head();
    json.push(match <[Json; 1]>::try_from(files) {
        Ok([file]) => ("file", file),
        Err(files) => ("files", Json::List(files)),
    });
    output.json = Json::Object(json);
    Ok(output)
}

/// Brings the file of a slot back: what is told of it, and its name.
fn bring_one_back(opened: &mut Opened, slot: usize, also: &[Also]) -> Result<(String, Json, String), Failure> {
    let dead = opened.disk.dead_entries().map_err(Failure::image(&opened.path))?;
    let entry = dead.into_iter().find(|entry| usize::from(entry.slot()) == slot);
    let title = entry.as_ref().map_or_else(
        || format!("slot {}", text::slot(slot)),
        |entry| format!("{} (slot {})", name_text(entry), text::slot(slot)),
    );
    let back = opened.disk.bring_back(slot).map_err(|refusal| {
        let failure = Failure::file(&opened.path, &title)(refusal);
        match refusal {
            Refusal::Range => failure.because("the directory has no such slot"),
            _ => failure,
        }
    })?;
    // Only a dead primary entry is brought back, and that is one of these.
    let (name, size) = entry.as_ref().map_or_else(Default::default, |entry| (name_text(entry), entry.size()));
    let (slots, granules) = (counted(back.slots, "slot"), counted(back.granules, "granule"));
    let json = Json::object([
        ("slot", slot.into()),
        ("name", name.as_str().into()),
        ("size", size.into()),
        ("slots", back.slots.into()),
        ("granules", back.granules.into()),
        ("also_in", leftovers::json(also)),
    ]);
    let line = format!("{name} brought back: {}, {slots}, {granules}\n", counted(size, "byte"));
    Ok((line, json, name))
}
