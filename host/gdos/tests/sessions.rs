//! Recorded sessions: each folder under `cases` has a `session.txt` and the files that it begins with.
//!
//! A line `$ WORDS` is a command; words may stand in single quotes. Behind it stands what it must write: standard output as
//! it is, standard error with `! ` before each line, and the exit status in brackets if it is not 0. `#` begins a remark.
//! Besides `gdos` (whose output `> FILE` puts into a file) there are
//!   make FILE BYTES        a file of so many bytes, no two sectors alike
//!   poke FILE AT BYTES     other bytes into a file; numbers are decimal or as 4CH
//!   cmp FILE FILE          both must be the same
//!   cut FILE FROM BYTES TO a part of a file as another one
//!   lay FILE AT OTHER      the bytes of another file into it
//!   drop FILE              removes it
//!   write FILE WORDS       a file of one line
//!   with NAME=VALUE gdos   the program with a variable of the environment
//! After every command that fails all files must be as they were, their times too (`get` and `rescue` may have written some,
//! but no image); none of the program's own are left. With GDOS_SESSIONS=write in the environment the files are written anew with
//! what came, to be read before it is kept.

mod common;

use common::{Done, Folder};
use std::fs;
use std::path::Path;

#[test]
fn first_steps() {
    play("first-steps");
}

#[test]
fn refusals() {
    play("refusals");
}

#[test]
fn undelete() {
    play("undelete");
}

#[test]
fn program_files() {
    play("load");
}

#[test]
fn playing_back() {
    play("play");
}

#[test]
fn data_disk() {
    play("data-disk");
}

#[test]
fn granules_of_ten_sectors() {
    play("granules");
}

#[test]
fn a_hard_disk() {
    play("hard-disk");
}

#[test]
fn full_disk() {
    play("full-disk");
}

#[test]
fn scattered_disk() {
    play("scattered");
}

#[test]
fn damaged_images() {
    play("damaged");
}

#[test]
fn faults() {
    play("faults");
}

#[test]
fn patterns() {
    play("patterns");
}

#[test]
fn small_letters() {
    play("small-letters");
}

#[test]
fn geometry() {
    play("geometry");
}

#[test]
fn passwords() {
    play("passwords");
}

#[test]
fn overwriting() {
    play("overwriting");
}

#[test]
fn archives() {
    play("tar");
}

#[test]
fn usage() {
    play("usage");
}

#[test]
fn two_images() {
    play("diff");
}

#[test]
fn two_drives() {
    play("two-drives");
}

#[test]
fn a_second_directory() {
    play("second-directory");
}

#[test]
fn the_search() {
    play("search");
}

#[test]
fn stated_geometries() {
    play("stated");
}

#[test]
fn system_files() {
    play("system-files");
}

#[test]
fn mending() {
    play("mend");
}

#[test]
fn rescuing() {
    play("rescue");
}

#[test]
fn dumping() {
    play("dump");
}

#[test]
fn mapping() {
    play("map");
}

#[test]
fn reporting() {
    play("report");
}

#[test]
fn every_case_is_played() {
    let here = include_str!("sessions.rs");
    for case in fs::read_dir(cases()).unwrap() {
        let name = case.unwrap().file_name().into_string().unwrap();
        assert!(here.contains(&format!("play(\"{name}\")")), "{name} is not played");
    }
}

fn cases() -> &'static Path {
    Path::new(concat!(env!("CARGO_MANIFEST_DIR"), "/tests/cases"))
}

/// A command of a session and what it must do.
struct Step {
    line: usize,
    words: Vec<String>,
    out: String,
    err: String,
    status: i32,
}

fn play(case: &str) {
    let from = cases().join(case);
    let folder = Folder::new(case);
    for file in fs::read_dir(&from).unwrap().map(|file| file.unwrap()) {
        if file.file_name() != "session.txt" {
            fs::copy(file.path(), folder.root().join(file.file_name())).unwrap();
        }
    }
    let session = fs::read_to_string(from.join("session.txt")).unwrap();
    let steps = steps(&session);
    assert!(!steps.is_empty());
    let writing = std::env::var_os("GDOS_SESSIONS").is_some_and(|what| what == "write");
    let mut came = Vec::new();
    for step in steps {
        let kept = |folder: &Folder| {
            let mut all = folder.everything();
            let writes = ["get", "rescue"].contains(&step.words[1].as_str());
            all.retain(|(path, ..)| !writes || path.extension().is_some_and(|e| e == "img"));
            all
        };
        let before = kept(&folder);
        let done = run(&folder, &step.words);
        let place = format!("{case}/session.txt:{}: {}", step.line, step.words.join(" "));
        if writing {
            came.push((step.line, written(&done)));
            continue;
        }
        assert_eq!(
            (String::from_utf8_lossy(&done.out), done.err.as_str(), done.status),
            (step.out.as_str().into(), step.err.as_str(), step.status),
            "{place}"
        );
        if step.status != 0 {
            assert!(kept(&folder) == before, "{place} changed something");
        }
        assert!(folder.left_over().is_empty(), "{place} left {:?}", folder.left_over());
    }
    if writing {
        let kept = session.lines().zip(1..).filter(|(line, _)| line.starts_with(['$', '#']));
        let of = |number| came.iter().find(|(line, _)| *line == number).map_or("", |(_, text)| text);
        let text: String = kept.map(|(line, number)| format!("{line}\n{}", of(number))).collect();
        fs::write(from.join("session.txt"), text).unwrap();
    }
}

/// What a command did, as a session has it.
fn written(done: &Done) -> String {
    let mut text = String::from_utf8_lossy(&done.out).into_owned();
    text.extend(done.err.lines().map(|line| format!("! {line}\n")));
    match done.status {
        0 => text,
        status => text + &format!("[{status}]\n"),
    }
}

fn steps(session: &str) -> Vec<Step> {
    let mut steps: Vec<Step> = Vec::new();
    for (number, line) in session.lines().enumerate() {
        if let Some(command) = line.strip_prefix("$ ") {
            let (out, err) = (String::new(), String::new());
            steps.push(Step { line: number + 1, words: words(command), out, err, status: 0 });
        } else if !line.starts_with('#') {
            let step = steps.last_mut().expect("a session begins with a command");
            if let Some(err) = line.strip_prefix("! ") {
                step.err += &format!("{err}\n");
            } else if let Some(status) = line.strip_prefix('[').and_then(|rest| rest.strip_suffix(']')) {
                step.status = status.parse().unwrap();
            } else {
                step.out += &format!("{line}\n");
            }
        }
    }
    steps
}

/// Words of a line: blanks part them, except in single quotes.
fn words(line: &str) -> Vec<String> {
    let mut words = Vec::new();
    let mut word = None;
    let mut quoted = false;
    for c in line.chars() {
        match c {
            '\'' => {
                quoted = !quoted;
                word.get_or_insert_with(String::new);
            }
            ' ' if !quoted => words.extend(word.take()),
            c => word.get_or_insert_with(String::new).push(c),
        }
    }
    words.extend(word);
    words
}

fn run(folder: &Folder, words: &[String]) -> Done {
    let words: Vec<&str> = words.iter().map(String::as_str).collect();
    let nothing = Done { status: 0, out: Vec::new(), err: String::new() };
    match words.as_slice() {
        ["gdos", words @ .., ">", file] => {
            let done = folder.gdos(words);
            folder.write(file, &done.out);
            Done { out: Vec::new(), ..done }
        }
        ["gdos", words @ ..] => folder.gdos(words),
        ["make", file, bytes] => {
            folder.write(file, (0..number(bytes)).map(|i| (i % 251 + i / 256) as u8).collect::<Vec<_>>());
            nothing
        }
        ["poke", file, at, bytes @ ..] => {
            let bytes: Vec<u8> = bytes.iter().map(|byte| number(byte) as u8).collect();
            folder.poke(file, number(at), &bytes);
            nothing
        }
        ["cut", from, at, bytes, to] => {
            let (at, bytes) = (number(at), number(bytes));
            folder.write(to, &folder.read(from)[at..at + bytes]);
            nothing
        }
        ["lay", file, at, other] => {
            folder.poke(file, number(at), &folder.read(other));
            nothing
        }
        ["drop", file] => {
            fs::remove_file(folder.path(file)).unwrap();
            nothing
        }
        ["write", file, words @ ..] => {
            folder.write(file, words.join(" ") + "\n");
            nothing
        }
        ["with", variable, "gdos", words @ ..] => {
            let (name, value) = variable.split_once('=').unwrap();
            Done::from(folder.command(words).env(name, value).output().unwrap())
        }
        ["cmp", one, other] => {
            assert!(folder.read(one) == folder.read(other), "{one} and {other} differ");
            nothing
        }
        other => panic!("no such command: {other:?}"),
    }
}

fn number(word: &str) -> usize {
    match word.strip_suffix('H') {
        Some(digits) => usize::from_str_radix(digits, 16).unwrap(),
        None => word.parse().unwrap(),
    }
}
