//! The words of a command: its image, and the files that it names.

use super::opened::Opened;
use crate::args::Args;
use crate::failure::Failure;
use crate::names::{self, Typed};
use genie_dos::{Geometry, Handle, Password, Refusal};
use std::ffi::OsString;

/// The command's first word, its image, and the others.
pub fn image_and_rest(args: &Args) -> Result<(&OsString, &[OsString]), Failure> {
    args.words.split_first().ok_or_else(|| Failure::Wrong("which image? Its name is missing".to_string()))
}

/// The command's image and the files that it is to work on.
pub fn image_and_files(args: &Args) -> Result<(&OsString, &[OsString]), Failure> {
    match image_and_rest(args)? {
        (_, []) => Err(Failure::Wrong("which files? Name some, or '*' for all".to_string())),
        both => Ok(both),
    }
}

/// The command's only word, its image.
pub fn only_image(args: &Args) -> Result<&OsString, Failure> {
    match image_and_rest(args)? {
        (image, []) => Ok(image),
        (_, [surplus, ..]) => Err(Failure::Wrong(format!("what is {surplus:?} for? This command takes one image"))),
    }
}

/// How the options say that files are to be opened.
pub fn password(args: &Args, geometry: Geometry) -> Result<Password, Failure> {
    match (args.has("unlock"), args.code("code")?) {
        (true, Some(_)) => Err(Failure::Wrong("--unlock checks no password, so --code has no use".to_string())),
        (true, None) => Ok(Password::Unchecked),
        (false, code) => Ok(Password::Code(code.unwrap_or(geometry.open_code))),
    }
}

/// The files that the words name, in their order and each only once. A pattern stands for the files that it fits; one
/// that fits none is refused like a name that is not there.
pub fn chosen(opened: &Opened, words: &[OsString], system: bool) -> Result<Vec<Result<Typed, Failure>>, Failure> {
    let image = &opened.path;
    let words: Vec<_> = words.iter().map(|word| word.to_string_lossy()).collect();
    let entries = match words.iter().any(|word| names::is_pattern(word)) {
        true => opened.disk.entries().map_err(Failure::image(image))?,
        false => Vec::new(),
    };
    let candidates: Vec<_> = entries.iter().filter(|e| system || !e.is_system()).map(|e| e.name()).collect();
    let mut chosen: Vec<Result<Typed, Failure>> = Vec::new();
    for word in words {
        if !names::is_pattern(&word) {
            chosen.push(Ok(Typed::new(&word)));
            continue;
        }
        let fitting: Vec<_> = candidates.iter().filter(|name| names::matches(&word, name)).collect();
        if fitting.is_empty() {
            chosen.push(Err(Failure::file(image, &word)(Refusal::NotFound).because("no file fits this pattern")));
        }
        chosen.extend(fitting.into_iter().map(|&name| Ok(Typed::from(name))));
    }
    let mut seen = Vec::new();
    chosen.retain(|choice| match choice {
        Ok(typed) if typed.wrong.is_none() => {
            let new = !seen.contains(&typed.name);
            seen.push(typed.name);
            new
        }
        _ => true,
    });
    Ok(chosen)
}

/// The refusal of a call on a file as it was typed.
pub fn refused<'a>(image: &'a str, typed: &'a Typed) -> impl Fn(Refusal) -> Failure + 'a {
    move |refusal| {
        let failure = Failure::file(image, &typed.text)(refusal);
        match (refusal, typed.wrong) {
            (Refusal::Name { .. }, Some(wrong)) => failure.bad_name(wrong),
            _ => failure,
        }
    }
}

/// The refusal of what was typed where it is no name, for commands that find the file themselves.
pub fn no_name(image: &str, typed: &Typed) -> Option<Failure> {
    typed.wrong.map(|wrong| refused(image, typed)(Refusal::Name { place: wrong.place() }))
}

/// Opens a file as it was typed.
pub fn open(opened: &Opened, typed: &Typed, password: Password) -> Result<Handle, Failure> {
    opened.disk.open(&typed.name, 256, password).map_err(refused(&opened.path, typed))
}
