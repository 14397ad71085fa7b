//! What the tests of the program share: a folder of their own, the program itself, and a reader of JSON.

#![allow(dead_code)]

use std::fs;
use std::path::{Path, PathBuf};
use std::process::{Command, Output, Stdio};
use std::sync::atomic::{AtomicUsize, Ordering};
use std::time::SystemTime;

/// The program under test.
pub const GDOS: &str = env!("CARGO_BIN_EXE_gdos");

/// A folder that a test has for itself; it goes with the test.
pub struct Folder(PathBuf);

impl Folder {
    pub fn new(name: &str) -> Folder {
        static NUMBER: AtomicUsize = AtomicUsize::new(0);
        let number = NUMBER.fetch_add(1, Ordering::Relaxed);
        let path = std::env::temp_dir().join(format!("gdos-{name}-{}-{number}", std::process::id()));
        fs::create_dir_all(&path).unwrap();
        Folder(path.canonicalize().unwrap())
    }

    pub fn path(&self, name: &str) -> PathBuf {
        self.0.join(name)
    }

    pub fn root(&self) -> &Path {
        &self.0
    }

    pub fn write(&self, name: &str, bytes: impl AsRef<[u8]>) {
        fs::write(self.path(name), bytes).unwrap();
    }

    pub fn read(&self, name: &str) -> Vec<u8> {
        fs::read(self.path(name)).unwrap()
    }

    /// Changes bytes of a file in place.
    pub fn poke(&self, name: &str, at: usize, bytes: &[u8]) {
        let mut content = self.read(name);
        content[at..at + bytes.len()].copy_from_slice(bytes);
        self.write(name, content);
    }

    /// The program in this folder, not yet run.
    pub fn command(&self, words: &[&str]) -> Command {
        let mut command = Command::new(GDOS);
        command.args(words).current_dir(&self.0).stdin(Stdio::null()).env_remove("GDOS_GEOMETRY");
        command
    }

    /// Runs the program in this folder.
    pub fn gdos(&self, words: &[&str]) -> Done {
        Done::from(self.command(words).output().unwrap())
    }

    /// Runs the program; it must succeed.
    pub fn done(&self, words: &[&str]) -> String {
        let done = self.gdos(words);
        assert_eq!(done.status, 0, "gdos {words:?}: {}", done.err);
        String::from_utf8(done.out).unwrap()
    }

    /// Every file of the folder with its time and content: what a refused command must leave alone.
    pub fn everything(&self) -> Vec<(PathBuf, SystemTime, Vec<u8>)> {
        let mut all: Vec<_> = fs::read_dir(&self.0)
            .unwrap()
            .map(|entry| entry.unwrap())
            .filter(|entry| entry.file_type().unwrap().is_file())
            .map(|entry| {
                let time = entry.metadata().unwrap().modified().unwrap();
                (entry.path(), time, fs::read(entry.path()).unwrap_or_default())
            })
            .collect();
        all.sort();
        all
    }

    /// Names of files that the program made for itself and left behind.
    pub fn left_over(&self) -> Vec<PathBuf> {
        let all = fs::read_dir(&self.0).unwrap().map(|entry| entry.unwrap().path());
        all.filter(|path| path.extension().is_some_and(|e| e == "tmp")).collect()
    }
}

impl Drop for Folder {
    fn drop(&mut self) {
        let _ = fs::remove_dir_all(&self.0);
    }
}

/// What the program did.
#[derive(Debug)]
pub struct Done {
    pub status: i32,
    pub out: Vec<u8>,
    pub err: String,
}

impl From<Output> for Done {
    fn from(output: Output) -> Done {
        Done {
            status: output.status.code().unwrap_or_else(|| panic!("ended by a signal: {output:?}")),
            out: output.stdout,
            err: String::from_utf8(output.stderr).unwrap(),
        }
    }
}

impl Done {
    pub fn text(&self) -> &str {
        std::str::from_utf8(&self.out).unwrap()
    }

    /// Standard output as one JSON value.
    pub fn json(&self) -> Json {
        Json::parse(self.text())
    }
}

/// A JSON value, read strictly.
#[derive(Clone, Debug, PartialEq)]
pub enum Json {
    Null,
    Bool(bool),
    Number(u64),
    Text(String),
    List(Vec<Json>),
    Object(Vec<(String, Json)>),
}

impl Json {
    /// Reads exactly one value and the line feed behind it.
    pub fn parse(text: &str) -> Json {
        let mut rest = text.strip_suffix('\n').expect("a line");
        let value = value(&mut rest);
        assert_eq!(rest, "", "something stands behind the value");
        value
    }

    /// The member of an object, or the item of a list, along a path as `files.0.name`.
    pub fn at(&self, path: &str) -> &Json {
        path.split('.').fold(self, |value, step| match value {
            Json::Object(members) => {
                &members.iter().find(|(name, _)| name == step).unwrap_or_else(|| panic!("no {step} in {value:?}")).1
            }
            Json::List(items) => &items[step.parse::<usize>().unwrap()],
            other => panic!("{step} of {other:?}"),
        })
    }

    pub fn text(&self) -> &str {
        match self {
            Json::Text(text) => text,
            other => panic!("{other:?} is no text"),
        }
    }

    pub fn number(&self) -> u64 {
        match self {
            Json::Number(number) => *number,
            other => panic!("{other:?} is no number"),
        }
    }

    pub fn len(&self) -> usize {
        match self {
            Json::List(items) => items.len(),
            other => panic!("{other:?} is no list"),
        }
    }
}

fn eat(rest: &mut &str, token: &str) -> bool {
    let found = rest.strip_prefix(token);
    *rest = found.unwrap_or(rest);
    found.is_some()
}

fn value(rest: &mut &str) -> Json {
    match rest.chars().next().expect("a value") {
        'n' if eat(rest, "null") => Json::Null,
        't' if eat(rest, "true") => Json::Bool(true),
        'f' if eat(rest, "false") => Json::Bool(false),
        '0'..='9' => {
            let digits = rest.find(|c: char| !c.is_ascii_digit()).unwrap_or(rest.len());
            let (number, behind) = rest.split_at(digits);
            assert!(number == "0" || !number.starts_with('0'), "{number}");
            *rest = behind;
            Json::Number(number.parse().unwrap())
        }
        '"' => Json::Text(string(rest)),
        '[' => {
            eat(rest, "[");
            let mut items = Vec::new();
            while !eat(rest, "]") {
                assert!(items.is_empty() || eat(rest, ","), "a comma before {rest}");
                items.push(value(rest));
            }
            Json::List(items)
        }
        '{' => {
            eat(rest, "{");
            let mut members: Vec<(String, Json)> = Vec::new();
            while !eat(rest, "}") {
                assert!(members.is_empty() || eat(rest, ","), "a comma before {rest}");
                let name = string(rest);
                assert!(eat(rest, ":"), "a colon before {rest}");
                assert!(members.iter().all(|(other, _)| *other != name), "{name} twice");
                members.push((name, value(rest)));
            }
            Json::Object(members)
        }
        other => panic!("{other} begins no value"),
    }
}

fn string(rest: &mut &str) -> String {
    assert!(eat(rest, "\""), "a string before {rest}");
    let mut text = String::new();
    loop {
        let c = rest.chars().next().expect("the string's end");
        *rest = &rest[c.len_utf8()..];
        match c {
            '"' => return text,
            '\0'..='\x1f' => panic!("a control code in a string"),
            '\\' => {
                let escape = rest.chars().next().expect("an escape");
                *rest = &rest[escape.len_utf8()..];
                text.push(match escape {
                    '"' | '\\' | '/' => escape,
                    'n' => '\n',
                    'r' => '\r',
                    't' => '\t',
                    'u' => {
                        let (code, behind) = rest.split_at(4);
                        *rest = behind;
                        char::from_u32(u32::from_str_radix(code, 16).unwrap()).unwrap()
                    }
                    other => panic!("no escape: {other}"),
                });
            }
            c => text.push(c),
        }
    }
}
