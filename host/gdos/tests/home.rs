//! The program beside the host's own tools: the man page under man's reader, completions in the shells, `make install`, and tar. A
//! tool that is not there is left out, and the test's output says so.

mod common;

use common::{Folder, GDOS};
use std::ffi::OsStr;
use std::fs;
use std::path::Path;
use std::process::{Command, Output, Stdio};
use std::time::{Duration, SystemTime};

/// Runs a tool of the host in a folder, the program first on its PATH; none if the host has no such tool.
fn tool(folder: &Folder, name: &str, words: &[&OsStr]) -> Option<Output> {
    let programs = Path::new(GDOS).parent().unwrap().to_path_buf();
    let path = std::env::join_paths(
        [programs].into_iter().chain(std::env::split_paths(&std::env::var_os("PATH").unwrap_or_default())),
    );
    let mut command = Command::new(name);
    command.args(words).current_dir(folder.root()).env("PATH", path.unwrap()).env("TZ", "UTC").env("LC_ALL", "C");
    let ran = command.stdin(Stdio::null()).output();
    if ran.is_err() {
        println!("left out: there is no {name}");
    }
    ran.ok()
}

/// The same with words of text; what it writes.
fn told(folder: &Folder, name: &str, words: &[&str]) -> Option<String> {
    let words: Vec<&OsStr> = words.iter().map(OsStr::new).collect();
    let ran = tool(folder, name, &words)?;
    assert!(ran.status.success(), "{name} {words:?}: {}", String::from_utf8_lossy(&ran.stderr));
    Some(String::from_utf8(ran.stdout).unwrap())
}

/// A disk with three files, and its geometry beside it.
fn disk(folder: &Folder) {
    folder.done(&["new", "d.img", "--preset", "sample"]);
    for (name, length) in [("puls01.dat", 3000), ("puls02.dat", 700), ("eich01.dat", 0)] {
        folder.write(name, (0..length).map(|i| (i * 31 + i / 256) as u8).collect::<Vec<u8>>());
        folder.done(&["put", "d.img", name, "--date", "1983-10-09"]);
    }
}

#[test]
fn the_man_page_is_sound() {
    let folder = Folder::new("man");
    let page = Path::new(env!("CARGO_MANIFEST_DIR")).join("gdos.1");
    assert_eq!(folder.done(&["manual"]), fs::read_to_string(&page).unwrap(), "gdos manual > host/gdos/gdos.1");
    if let Some(lint) = told(&folder, "mandoc", &["-T", "lint", "-W", "warning", page.to_str().unwrap()]) {
        assert_eq!(lint, "");
    }
}

#[test]
fn completion_in_bash() {
    let folder = Folder::new("bash");
    disk(&folder);
    fs::create_dir(folder.path("puls-folder")).unwrap();
    folder.write("gdos.bash", folder.done(&["completion", "bash"]));
    folder.write(
        "try",
        r#"source ./gdos.bash
complete -p gdos
try() { COMP_WORDS=("$@"); COMP_CWORD=$(($# - 1)); _gdos; echo "$*: $(printf '%s\n' "${COMPREPLY[@]}" | sort | tr '\n' ' ')"; }
try gdos und
try gdos help und
try gdos get --fo
try gdos ls --preset dd4
try gdos ls --preset = dd4
try gdos map --color a
try gdos get d.im
try gdos get d.img pu
try gdos cat d.img ''
try gdos rm --preset sample d.img EI
try gdos put d.img puls
try gdos get d.img -o pul
try gdos put d.img --date 19
try gdos completion ''
try gdos nonsense ''
"#,
    );
    let Some(told) = told(&folder, "bash", &["--norc", "try"]) else { return };
    let wanted = "\
complete -F _gdos gdos
gdos und: undelete 
gdos help und: undelete 
gdos get --fo: --force 
gdos ls --preset dd4: dd40 dd40ds 
gdos ls --preset = dd4: dd40 dd40ds 
gdos map --color a: always auto 
gdos get d.im: d.img d.img.gdos 
gdos get d.img pu: PULS01/DAT PULS02/DAT 
gdos cat d.img : EICH01/DAT PULS01/DAT PULS02/DAT 
gdos rm --preset sample d.img EI: EICH01/DAT 
gdos put d.img puls: puls-folder puls01.dat puls02.dat 
gdos get d.img -o pul: puls-folder 
gdos put d.img --date 19:  
gdos completion : bash fish zsh 
gdos nonsense :  
";
    assert_eq!(told, wanted);
}

#[test]
fn completion_in_fish() {
    let folder = Folder::new("fish");
    disk(&folder);
    folder.write("gdos.fish", folder.done(&["completion", "fish"]));
    let offered = |typed: &str| {
        let line = format!("source gdos.fish; complete -C '{typed}'");
        let told = told(&folder, "fish", &["--no-config", "-c", &line])?;
        let mut words: Vec<_> = told.lines().map(|line| line.split('\t').next().unwrap().to_string()).collect();
        words.sort();
        Some(words)
    };
    let Some(commands) = offered("gdos und") else { return };
    assert_eq!(commands, ["undelete"]);
    assert_eq!(offered("gdos get --fo").unwrap(), ["--force"]);
    assert_eq!(offered("gdos ls --preset dd4").unwrap(), ["dd40", "dd40ds"]);
    assert_eq!(offered("gdos get d.img PU").unwrap(), ["PULS01/DAT", "PULS02/DAT"]);
    assert_eq!(offered("gdos get d.im").unwrap(), ["d.img", "d.img.gdos"]);
    assert_eq!(offered("gdos completion ").unwrap(), ["bash", "fish", "zsh"]);
}

#[test]
fn completion_in_zsh() {
    let folder = Folder::new("zsh");
    folder.write("_gdos", folder.done(&["completion", "zsh"]));
    // That it is read without complaint; what it offers takes a terminal.
    let line =
        "fpath=($PWD $fpath); autoload -Uz compinit && compinit -u -D && autoload +X _gdos && print $_comps[gdos]";
    let Some(told) = told(&folder, "zsh", &["-f", "-c", line]) else { return };
    assert_eq!(told, "_gdos\n");
}

#[test]
fn installing() {
    let folder = Folder::new("install");
    let there = |name: &str| folder.path("root/opt/g").join(name);
    let make = |what: &str| {
        let (gdos, root) = (format!("GDOS={GDOS}"), format!("DESTDIR={}", folder.path("root").display()));
        let source = env!("CARGO_MANIFEST_DIR");
        told(&folder, "make", &["-s", "-C", source, what, "PREFIX=/opt/g", &gdos, &root])
    };
    if make("install").is_none() {
        return;
    }
    assert_eq!(fs::read(there("bin/gdos")).unwrap(), fs::read(GDOS).unwrap());
    assert_eq!(fs::read_to_string(there("share/man/man1/gdos.1")).unwrap(), folder.done(&["manual"]));
    let completions = [
        ("bash", "share/bash-completion/completions/gdos"),
        ("zsh", "share/zsh/site-functions/_gdos"),
        ("fish", "share/fish/vendor_completions.d/gdos.fish"),
    ];
    for (shell, name) in completions {
        assert_eq!(fs::read_to_string(there(name)).unwrap(), folder.done(&["completion", shell]));
    }
    let ran = Command::new(there("bin/gdos")).arg("--version").output().unwrap();
    assert!(ran.status.success() && ran.stdout.starts_with(b"gdos "));
    make("uninstall").unwrap();
    assert!(!there("bin/gdos").exists() && completions.iter().all(|(_, name)| !there(name).exists()));
}

/// Noon of 9 October 1983.
fn noon() -> SystemTime {
    SystemTime::UNIX_EPOCH + Duration::from_secs(434_548_800)
}

#[test]
fn a_file_read_out_has_the_disks_date() {
    let folder = Folder::new("times");
    disk(&folder);
    folder.write("leer", []);
    folder.done(&["put", "d.img", "leer", "--date", "none"]);
    folder.done(&["get", "d.img", "*", "-o", "out"]);
    let time = |name: &str| fs::metadata(folder.path(name)).unwrap().modified().unwrap();
    assert_eq!(time("out/PULS01.DAT"), noon());
    assert_eq!(time("out/EICH01.DAT"), noon());
    assert!(time("out/LEER") > noon() + Duration::from_secs(86_400), "the disk states no day");
    // And where it replaces a file.
    folder.write("out/PULS01.DAT", "old");
    folder.done(&["get", "d.img", "PULS01/DAT", "-o", "out", "--force"]);
    assert_eq!((time("out/PULS01.DAT"), folder.read("out/PULS01.DAT").len()), (noon(), 3000));
}

#[test]
fn archives_beside_tar() {
    let folder = Folder::new("tar");
    disk(&folder);
    folder.done(&["tar", "d.img", "-o", "out.tar"]);
    let Some(version) = told(&folder, "tar", &["--version"]) else { return };
    if !version.contains("GNU") {
        println!("left out: there is no GNU tar");
        return;
    }
    // Out: tar takes it, with names, sizes and times.
    let listed = told(&folder, "tar", &["-tvf", "out.tar", "--utc"]).unwrap();
    let lines: Vec<Vec<&str>> = listed.lines().map(|line| line.split_whitespace().skip(2).collect()).collect();
    let line = |size: &'static str, name: &'static str| vec![size, "1983-10-09", "12:00", name];
    assert_eq!(lines, [line("3000", "PULS01.DAT"), line("700", "PULS02.DAT"), line("0", "EICH01.DAT")]);
    fs::create_dir(folder.path("out")).unwrap();
    told(&folder, "tar", &["-xf", "out.tar", "-C", "out"]);
    assert_eq!(folder.read("out/PULS01.DAT"), folder.read("puls01.dat"));
    // In: whatever format it was written in.
    for format in ["v7", "ustar", "gnu", "oldgnu", "pax", "posix"] {
        let format = format!("--format={format}");
        let times = "--mtime=1984-02-29 08:00:00Z";
        told(&folder, "tar", &["-cf", "in.tar", &format, times, "-C", "out", "."]);
        folder.done(&["new", "e.img", "--preset", "sample", "--force"]);
        folder.done(&["tar", "e.img", "--in", "in.tar"]);
        let listing = folder.done(&["ls", "e.img"]);
        assert_eq!(listing.matches("1984-02-29").count(), 3, "{format}: {listing}");
        for (name, host) in [("PULS01/DAT", "puls01.dat"), ("PULS02/DAT", "puls02.dat"), ("EICH01/DAT", "eich01.dat")] {
            assert_eq!(folder.gdos(&["cat", "e.img", name]).out, folder.read(host), "{format}");
        }
    }
    let long = format!("out/a-name-{}.dat", "that-is-too-long-".repeat(9));
    // Names that are too long stand in headers of their own, and are refused as any; nothing is changed.
    folder.write(&long, "x");
    let before = folder.read("e.img");
    for format in ["--format=gnu", "--format=pax"] {
        told(&folder, "tar", &["-cf", "long.tar", format, "-C", "out", "."]);
        let refused = folder.gdos(&["tar", "e.img", "--in", "long.tar", "--force"]);
        assert_eq!(refused.status, 1, "{}", refused.err);
        assert!(
            refused.err.contains("refused: 3") && refused.err.contains("a-name-that-is-too-long-that"),
            "{}",
            refused.err
        );
        assert!(folder.read("e.img") == before);
    }
    // Dates that the disk cannot hold are told.
    fs::remove_file(folder.path(&long)).unwrap();
    told(&folder, "tar", &["-cf", "new.tar", "--mtime=2026-11-16 08:00:00Z", "-C", "out", "."]);
    folder.done(&["rm", "e.img", "*"]);
    let put = folder.gdos(&["tar", "e.img", "--in", "new.tar"]);
    assert_eq!(put.status, 0, "{}", put.err);
    assert!(put.err.contains("(2026-11-16) and of 2 other files is written as the nearest"), "{}", put.err);
    assert_eq!(folder.done(&["ls", "e.img"]).matches("1995-11-16").count(), 3);
}
