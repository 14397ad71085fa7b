//! `gdos-mount`: a Genie-DOS disk image as a folder. What an image is, which geometry it has, who may hold it and how it is replaced is
//! `gdos`'s; what is done to a disk is the proved library's; what is here turns the one into the other.

// Without libfuse3 only the tests call the operations.
#![cfg_attr(not(libfuse), allow(dead_code))]

mod attributes;
mod bytes;
mod calendar;
mod errno;
mod ffi;
mod log;
mod mount;

use ffi::Ended;
use gdos::held::{self, Args, Asked, Failure, Held, Spec};
use genie_dos::{NewFile, Password};
use log::Log;
use mount::{Mount, Settings};
use std::ffi::OsString;
use std::fs::{self, OpenOptions};
use std::path::{Path, PathBuf};
use std::process::ExitCode;

const OPTIONS: &[Spec] = &[
    Spec { long: "rw", short: Some(b'w'), value: None, help: "files may be changed, made and removed" },
    Spec { long: "all", short: Some(b'a'), value: None, help: "system files are listed too" },
    held::CODE,
    held::UNLOCK,
    held::DATE,
    held::SEARCH,
    Spec { long: "log", short: None, value: Some("FILE"), help: "refusals are told there (the system's log)" },
    Spec { long: "foreground", short: Some(b'f'), value: None, help: "stay, and tell refusals on standard error" },
    Spec { long: "allow-other", short: None, value: None, help: "other users may see the folder too" },
];

const ABOUT: &str = "\
gdos-mount: a Genie-DOS disk image as a folder

Usage: gdos-mount [OPTIONS] IMAGE FOLDER
       fusermount3 -u FOLDER

PULS01/DAT is FOLDER/PULS01.DAT; small letters are taken for capital ones. Nothing can be changed unless --rw is given.
What a directory knows and a host does not are extended attributes: getfattr -d FOLDER/PULS01.DAT.

With --rw a change is in memory first. Whenever a file is closed, synced or removed, and at the end, the whole disk
goes to a copy beside the image, which is synced and renamed over it: a mount that is killed leaves the old disk or
the new one. Nobody else who uses gdos changes the image meanwhile, and nobody else mounts it.

No call of the system renames a file, or changes its date, permissions or attributes: copy it, and remove the old one.
What is refused gets the nearest error, and a line in the log with the number and what it means.

The geometry is stated or searched as by gdos (gdos --help); with --rw it must be stated, or --search given.
";

fn main() -> ExitCode {
    let specs: Vec<Spec> = OPTIONS.iter().chain(held::GEOMETRY.1).copied().collect();
    match Args::parse(&specs, std::env::args_os().skip(1)) {
        Ok(Asked::Help) => {
            let (title, options) = held::GEOMETRY;
            print!("{ABOUT}{}{}", held::group("Options", OPTIONS), held::group(title, options));
            println!("\nExit status: 0 mounted (in the foreground: unmounted), 1 refused, 2 wrong usage or I/O.");
            ExitCode::SUCCESS
        }
        Ok(Asked::Version) => {
            println!("gdos-mount {}", env!("CARGO_PKG_VERSION"));
            ExitCode::SUCCESS
        }
        Ok(Asked::Run(args)) => mount(&args).unwrap_or_else(|failure| {
            eprintln!("gdos-mount: {failure}");
            ExitCode::from(failure.status())
        }),
        Err(wrong) => {
            eprintln!("gdos-mount: {wrong}; `gdos-mount --help` tells more");
            ExitCode::from(2)
        }
    }
}

fn mount(args: &Args) -> Result<ExitCode, Failure> {
    let (image, folder) = words(args)?;
    let (change, foreground) = (args.has("rw"), args.has("foreground"));
    if !change {
        for (option, why) in [("date", "no file is made"), ("search", "the search is enough")] {
            if args.has(option) {
                return Err(Failure::Wrong(format!("--{option} is of use only with --rw: {why}")));
            }
        }
    }
    let (date, note) = held::date(args)?;
    let held = Held::open(args, image, change)?;
    let folder = empty_place(&folder, &held)?;
    let password = held.password(args)?;
    let mut new = NewFile::open(held.disk().geometry(), date);
    match password {
        Password::Code(code) => (new.main_code, new.worker_code) = (code, code),
        _ => new.checking = false,
    }
    let log = match args.value("log") {
        Some(path) => Some(open_log(Path::new(path))?),
        None => None,
    };
    for note in held.notes().into_iter().chain(note.filter(|_| change)) {
        eprintln!("gdos-mount: note: {note}");
    }
    // A comma ends an option, unless a backslash stands before it.
    let name = held.path().to_string_lossy().replace('\\', "\\\\").replace(',', "\\,");
    let mode = if change { "rw" } else { "ro" };
    let mut options = format!("{mode},nosuid,nodev,noexec,subtype=gdos,fsname={name}");
    if args.has("allow-other") {
        options += ",allow_other,default_permissions";
    }
    let settings = Settings { change, all: args.has("all"), password, new };
    let mut mount = Mount::new(held, settings, Log::Terminal);
    match (log, foreground) {
        (Some(log), _) => mount.log_to(log),
        (None, true) => {}
        (None, false) => mount.log_to(Log::Host),
    }
    let ended = ffi::run(&mut mount, &folder, &options, change, foreground);
    // What was changed and not closed.
    let saved = mount.save();
    match (ended, saved) {
        (Ended::Unmounted, Ok(())) => Ok(ExitCode::SUCCESS),
        (Ended::Unmounted, Err(_)) => Err(Failure::Wrong(format!("the last changes of {} are not saved", mount.image()))),
        (Ended::NotMounted, _) => Err(Failure::Wrong(format!("{} could not be mounted at {}", mount.image(), folder.display()))),
        (Ended::BrokeOff, _) => Err(Failure::Wrong(format!("the mount at {} broke off", folder.display()))),
        (Ended::Without, _) => Err(Failure::Wrong(
            "this program was built without libfuse3, so it cannot mount; with pkg-config and libfuse3-dev (Debian's names) at hand, \
             build it again"
                .to_string(),
        )),
    }
}

/// The image and the folder.
fn words(args: &Args) -> Result<(&OsString, PathBuf), Failure> {
    match args.words.as_slice() {
        [image, folder] => Ok((image, PathBuf::from(folder))),
        [_] => Err(Failure::Wrong("at which folder? Its name is missing".to_string())),
        [] => Err(Failure::Wrong("which image, at which folder? `gdos-mount --help` tells more".to_string())),
        [_, _, surplus, ..] => {
            Err(Failure::Wrong(format!("what is {surplus:?} for? One image is mounted at one folder")))
        }
    }
}

/// The folder, if it can hide what is in it: nothing, and not the image.
fn empty_place(folder: &Path, held: &Held) -> Result<PathBuf, Failure> {
    let wrong = |why: String| Failure::Wrong(format!("cannot mount at {}: {why}", folder.display()));
    let real = folder.canonicalize().map_err(|e| wrong(e.to_string()))?;
    if held.path().starts_with(&real) {
        return Err(wrong("the image lies in it, and could not be reached any more".to_string()));
    }
    match fs::read_dir(&real).map_err(|e| wrong(e.to_string()))?.next() {
        Some(_) => Err(wrong("it is not empty".to_string())),
        None => Ok(real),
    }
}

fn open_log(path: &Path) -> Result<Log, Failure> {
    let opened = OpenOptions::new().create(true).append(true).open(path);
    opened.map(Log::File).map_err(|e| Failure::Wrong(format!("cannot write to {}: {e}", path.display())))
}
