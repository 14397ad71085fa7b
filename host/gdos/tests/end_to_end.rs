//! The program as a whole, where a recorded session does not reach: JSON, times, permissions, pipes, several at once.

mod common;

use common::{Done, Folder, Json, GDOS};
use std::fs::{self, File, Permissions};
use std::io::{Read, Write};
use std::os::unix::fs::{chown, symlink, MetadataExt, PermissionsExt};
use std::os::unix::process::CommandExt;
use std::process::{Command, Stdio};
use std::time::{Duration, SystemTime};

const DATE: [&str; 2] = ["--date", "1983-10-09"];
const COMMANDS: [&str; 24] = [
    "check", "mend", "rescue", "ls", "cat", "get", "put", "tar", "rm", "undelete", "trim", "free", "info", "map",
    "dump", "report", "new", "probe", "geometry", "diff", "load", "play", "cp", "find",
];

/// A folder with the small disk of the examples, PULS01/DAT (257 bytes) and LEER on it.
fn sample(name: &str) -> Folder {
    let folder = Folder::new(name);
    folder.write("puls01.dat", [0x55; 257]);
    folder.write("leer", "");
    folder.done(&["new", "d.img", "--preset", "sample"]);
    folder.done(&["put", "d.img", "puls01.dat", "leer", DATE[0], DATE[1]]);
    folder
}

fn is_root() -> bool {
    // A file that this process makes belongs to it.
    let folder = Folder::new("who");
    fs::metadata(folder.root()).unwrap().uid() == 0
}

/// The program as a user who is not root. As root it is run as nobody, from a copy that anybody may read.
fn unprivileged(folder: &Folder, words: &[&str]) -> Result<Done, String> {
    if !is_root() {
        return Ok(folder.gdos(words));
    }
    let home = Folder::new("program");
    fs::copy(GDOS, home.path("gdos")).unwrap();
    fs::set_permissions(home.root(), Permissions::from_mode(0o755)).unwrap();
    let mut command = Command::new(home.path("gdos"));
    command.args(words).current_dir(folder.root()).stdin(Stdio::null()).uid(65534).gid(65534);
    command.output().map(Done::from).map_err(|e| format!("cannot run as another user: {e}"))
}

#[test]
fn help_for_everything() {
    let folder = Folder::new("help");
    let overview = folder.done(&["--help"]);
    assert_eq!(folder.done(&["help"]), overview);
    assert_eq!(folder.done(&["-h"]), overview);
    for command in COMMANDS {
        assert!(overview.contains(&format!("\n  {command} ")), "{command}");
        let help = folder.done(&[command, "--help"]);
        assert_eq!(folder.done(&["help", command]), help);
        assert_eq!(folder.done(&[command, "image", "-h"]), help);
        for part in ["Usage: gdos ", "--blocks", "--open-code", "Presets", "Examples", "Exit status"] {
            assert!(help.contains(part), "{command}: {part}");
        }
        // Every example is a command that exists, with options that exist.
        for example in help.lines().filter_map(|line| line.strip_prefix("  gdos ")) {
            let options = example.split(' ').filter(|word| word.starts_with("--"));
            assert!(example.starts_with(command), "{example}");
            for option in options {
                assert!(help.contains(&format!("{option} ")), "{example}");
            }
        }
        for line in help.lines() {
            assert!(line.chars().count() <= 120, "too long: {line}");
        }
    }
    // These take no image.
    for command in ["completion", "manual"] {
        let help = folder.done(&[command, "--help"]);
        assert!(overview.contains(&format!("\n  {command} ")) && help.starts_with(&format!("gdos {command}: ")));
        assert!(help.lines().all(|line| line.chars().count() <= 120), "{help}");
    }
    let nothing = folder.gdos(&[]);
    assert_eq!((nothing.status, nothing.out.len(), nothing.err), (2, 0, overview));
    assert_eq!(folder.done(&["--version"]), format!("gdos {}\n", env!("CARGO_PKG_VERSION")));
}

/// Good and damaged images in one command: each is told by itself, and the status is the worst.
#[test]
fn check_tells_what_is_wrong_and_where() {
    let folder = sample("faults");
    // GAT at 5000H, HIT at 5100H, the entries of slots 80H (PULS01/DAT) and 81H (LEER) at 5280H and 5380H.
    let damages = [
        ("length.img", 0x511f, 3, 21, None, "directory length"),
        ("hit.img", 0x5181, 0, 22, Some(0x81), "HIT against entry"),
        ("chain.img", 0x529e, 0xfe, 25, Some(0x80), "chain"),
        ("gat.img", 0x5000, 1, 27, Some(0x80), "GAT bit missing"),
        ("directory.img", 0x5008, 0, 30, None, "directory granule"),
    ];
    let mut words = vec!["check", "--preset", "sample", "--json", "d.img"];
    for (image, at, byte, ..) in damages {
        folder.write(image, folder.read("d.img"));
        folder.poke(image, at, &[byte]);
        words.push(image);
    }
    let done = folder.gdos(&words);
    assert_eq!((done.status, done.err.lines().count()), (1, 5));
    let json = done.json();
    assert_eq!((json.at("images").len(), json.at("images.0.image").text()), (1, "d.img"));
    assert_eq!(json.at("failures").len(), 5);
    for (i, (image, _, _, number, slot, kind)) in damages.into_iter().enumerate() {
        let refused = json.at(&format!("failures.{i}.refused"));
        let fault = refused.at("fault");
        assert_eq!(refused.at("image").text(), image);
        assert_eq!((refused.at("number").number(), fault.at("number").number()), (number, number));
        assert_eq!(fault.at("kind").text(), kind);
        let told = |number: Option<u64>| number.map_or(Json::Null, Json::Number);
        assert_eq!(fault.at("slot"), &told(slot));
        assert_eq!(fault.at("sector"), &told(slot.map(|slot| slot % 32 + 2)));
        assert_eq!(fault.at("byte"), &told(slot.map(|slot| slot / 32 * 32)));
        let name = slot.map_or(Json::Null, |slot| Json::Text(["PULS01/DAT", "LEER"][slot as usize - 0x80].to_string()));
        assert_eq!(fault.at("name"), &name);
        // The same in words, by itself and by a command that would change the disk; which it does not.
        let alone = folder.gdos(&["check", "--preset", "sample", image]);
        assert_eq!((alone.status, alone.out.len()), (1, 0));
        assert!(alone.err.starts_with(&format!("gdos: refused: {number} (disk not consistent: {kind}): {image}: ")));
        assert!(alone.err.trim_end().ends_with(fault.at("message").text()), "{}", alone.err);
        let before = folder.everything();
        assert_eq!(folder.gdos(&["rm", image, "LEER", "--preset", "sample"]).err, alone.err);
        assert_eq!(folder.gdos(&["put", image, "leer", "--force", "--preset", "sample"]).err, alone.err);
        assert!(folder.everything() == before);
    }
}

#[test]
fn json_of_every_command() {
    let folder = sample("json");
    let json = |words: &[&str]| {
        let mut words = words.to_vec();
        words.push("--json");
        let done = folder.gdos(&words);
        (done.status, done.json())
    };
    let (status, check) = json(&["check", "d.img"]);
    assert_eq!((status, check.at("images.0.consistent"), check.at("failures").len()), (0, &Json::Bool(true), 0));
    assert_eq!(check.at("images.0.image").text(), "d.img");
    for (member, number) in [("blocks", 16), ("units", 2), ("start", 80), ("open_code", 0x4296)] {
        assert_eq!(check.at(&format!("images.0.geometry.{member}")).number(), number);
    }
    assert_eq!(check.at("images.0.geometry.preset").text(), "sample");

    let (status, ls) = json(&["ls", "d.img"]);
    assert_eq!((status, ls.at("files").len(), ls.at("free").number()), (0, 2, 28));
    let file = ls.at("files.0");
    assert_eq!((file.at("name").text(), file.at("date").text()), ("PULS01/DAT", "1983-10-09"));
    let members =
        [("size", 257), ("granules", 1), ("record_length", 256), ("level", 0), ("main_code", 0x4296), ("slot", 128)];
    for (member, number) in members {
        assert_eq!(file.at(member).number(), number, "{member}");
    }
    for (member, set) in [("worked_on", true), ("system", false), ("password", false), ("invisible", false)] {
        assert_eq!(file.at(member), &Json::Bool(set), "{member}");
    }
    assert_eq!(ls.at("files.1.worked_on"), &Json::Bool(false));

    let (status, info) = json(&["info", "d.img"]);
    assert_eq!(status, 0);
    let members = [("bytes", 40_960), ("granules", 32), ("owned", 1), ("free", 28), ("reserved", 3), ("slots", 64)];
    for (member, number) in members {
        assert_eq!(info.at(member).number(), number, "{member}");
    }
    let (_, info) = json(&["info", "d.img", "PULS01/DAT"]);
    assert_eq!(info.at("files.0.runs.0.first_sector").number(), 5);
    assert_eq!(info.at("files.0.runs.0.last_sector").number(), 9);

    let (status, free) = json(&["free", "d.img"]);
    assert_eq!((status, free.at("free").number(), free.at("free_bytes").number()), (0, 28, 28 * 1280));
    assert_eq!((free.at("longest").number(), free.at("longest_bytes").number()), (14, 14 * 1280));
    assert_eq!(free.at("granules").number(), 32);
    let (status, probe) = json(&["probe", "d.img"]);
    assert_eq!((status, probe.at("geometries").len(), probe.at("tried").number()), (0, 1, 124));
    assert_eq!(probe.at("geometries.0.geometry.start").number(), 80);
    assert_eq!((probe.at("ranking").len(), probe.at("ranking.0.names").number()), (1, 2));
    assert_eq!(probe.at("taken.preset").text(), "sample");
    let (status, geometry) = json(&["geometry", "d.img"]);
    assert_eq!((status, geometry.at("geometry_from").text(), geometry.at("kept")), (0, "file", &Json::Bool(false)));

    let (status, get) = json(&["get", "d.img", "PULS01/DAT", "NICHT/DA"]);
    assert_eq!((status, get.at("files").len(), get.at("failures").len()), (1, 1, 1));
    assert_eq!(get.at("files.0.host").text(), "PULS01.DAT");
    assert_eq!(get.at("failures.0.refused.number").number(), 4);
    assert_eq!(get.at("failures.0.refused.meaning").text(), "name not found");
    assert_eq!(get.at("failures.0.refused.file").text(), "NICHT/DA");
    assert_eq!(get.at("failures.0.refused.image").text(), "d.img");

    let (status, put) = json(&["put", "d.img", "puls01.dat", "--force"]);
    assert_eq!((status, put.at("files.0.overwritten"), put.at("files.0.size").number()), (0, &Json::Bool(true), 257));
    let (status, trim) = json(&["trim", "d.img", "*"]);
    assert_eq!((status, trim.at("files").len(), trim.at("files.0.freed").number()), (0, 2, 0));
    let (status, rm) = json(&["rm", "d.img", "PULS01/DAT"]);
    assert_eq!((status, rm.at("files.0.name").text(), rm.at("files.0.freed").number()), (0, "PULS01/DAT", 1));
    let (status, removed) = json(&["undelete", "d.img"]);
    assert_eq!((status, removed.at("removed").len()), (0, 1));
    let members = [("slot", 0x80), ("size", 257), ("slots", 1), ("granules", 1)];
    for (member, number) in members {
        assert_eq!(removed.at("removed.0").at(member).number(), number, "{member}");
    }
    assert_eq!(removed.at("removed.0.name").text(), "PULS01/DAT");
    assert_eq!(removed.at("removed.0.refused"), &Json::Null);
    let (status, back) = json(&["undelete", "d.img", "puls01/dat"]);
    assert_eq!((status, back.at("file.name").text(), back.at("file.size").number()), (0, "PULS01/DAT", 257));
    for (member, number) in members {
        assert_eq!(back.at("file").at(member).number(), number, "{member}");
    }
    let (status, refused) = json(&["undelete", "d.img", "--slot", "80H"]);
    assert_eq!((status, refused.at("refused.number").number()), (1, 17));
    let (status, new) = json(&["new", "n.img", "--preset", "dd80ds"]);
    assert_eq!((status, new.at("bytes").number(), new.at("free").number()), (0, 737_280, 573));

    // Refused, and wrong.
    let (status, refused) = json(&["rm", "d.img", "NICHT/DA"]);
    assert_eq!((status, refused.at("refused.number").number()), (1, 4));
    let (status, refused) = json(&["ls", "d.img", "--blocks", "17", "--units", "2", "--start", "80"]);
    assert_eq!((status, refused.at("refused.number").number(), refused.at("refused.file")), (1, 1, &Json::Null));
    let (status, wrong) = json(&["ls", "missing.img"]);
    assert_eq!((status, wrong.at("error").text().contains("missing.img")), (2, true));
}

#[test]
fn json_escapes_names() {
    let folder = Folder::new("escapes");
    let odd = "a \"b\"\\ c\n\tü\x01.img";
    folder.done(&["new", odd, "--preset", "sample"]);
    folder.write("x", "1");
    // Backslash and brackets are letters of the machine.
    folder.done(&["put", odd, "x", "--as", "A\\[]", DATE[0], DATE[1]]);
    let ls = folder.gdos(&["ls", odd, "--json"]).json();
    assert_eq!(ls.at("image").text(), odd);
    assert_eq!(ls.at("files.0.name").text(), "A\\[]");
    folder.done(&["get", odd, "A\\*"]);
    assert_eq!(folder.read("A\\[]"), b"1");
}

#[test]
fn refused_and_idle_commands_leave_the_time() {
    let folder = sample("times");
    let long_ago = SystemTime::UNIX_EPOCH + Duration::from_secs(500_000_000);
    File::open(folder.path("d.img")).unwrap().set_modified(long_ago).unwrap();
    let before = folder.read("d.img");
    folder.write("big", vec![1; 40_000]);
    for (words, status) in [
        (&["put", "d.img", "puls01.dat"][..], 2),
        (&["put", "d.img", "big"], 1),
        (&["put", "d.img", "leer", "big", "--force"], 1),
        (&["put", "d.img", "leer", "--force"], 0),
        (&["put", "d.img", "puls01.dat", "--force"], 0),
        (&["put", "d.img", "big", "--as", "a_b"], 1),
        (&["rm", "d.img", "LEER", "NICHT/DA"], 1),
        (&["trim", "d.img", "*"], 0),
        (&["trim", "d.img", "*", "--start", "85"], 1),
        (&["new", "d.img", "--preset", "sample"], 2),
        (&["ls", "d.img"], 0),
        (&["get", "d.img", "*"], 0),
        (&["check", "d.img"], 0),
        (&["check", "--all", "d.img"], 0),
        (&["mend", "d.img", "-o", "copy.img"], 0),
        (&["rescue", "d.img", "-o", "rescued"], 0),
        (&["probe", "d.img"], 0),
    ] {
        assert_eq!(folder.gdos(words).status, status, "{words:?}");
        assert_eq!(fs::metadata(folder.path("d.img")).unwrap().modified().unwrap(), long_ago, "{words:?}");
        assert!(folder.read("d.img") == before, "{words:?}");
    }
    folder.done(&["rm", "d.img", "LEER"]);
    assert_ne!(fs::metadata(folder.path("d.img")).unwrap().modified().unwrap(), long_ago);
}

/// No name of the image is taken for a copy, whatever leads to it.
#[test]
fn a_damaged_image_is_never_written() {
    let folder = sample("never-written");
    folder.poke("d.img", 0x529e, &[7]);
    std::os::unix::fs::symlink("d.img", folder.path("link.img")).unwrap();
    fs::hard_link(folder.path("d.img"), folder.path("hard.img")).unwrap();
    let before = folder.everything();
    for copy in ["d.img", "./d.img", "link.img", "hard.img"] {
        for words in [&["mend", "d.img", "-o", copy][..], &["mend", "d.img", "-o", copy, "--force"]] {
            let done = folder.gdos(words);
            assert_eq!((done.status, done.err.contains("never written")), (2, true), "{words:?}: {}", done.err);
        }
    }
    let done = folder.gdos(&["mend", "link.img", "-o", "hard.img", "--force"]);
    assert_eq!((done.status, done.err.contains("never written")), (2, true), "{}", done.err);
    assert_eq!(folder.gdos(&["mend", "d.img", "-n"]).status, 0);
    assert!(folder.everything() == before);

    // Nor is an image that has the name of one of its files.
    folder.write("LEER", folder.read("d.img"));
    let image = folder.read("LEER");
    let done = folder.gdos(&["rescue", "LEER", "--preset", "sample", "-o", ".", "--force"]);
    assert_eq!((done.status, done.err.contains("never written")), (2, true), "{}", done.err);
    assert!(folder.read("LEER") == image);

    // The copy is whole or not there, also where the file beside it is in the way.
    folder.write("copy.img.gdos", "mine\n");
    assert_eq!(folder.gdos(&["mend", "d.img", "-o", "copy.img"]).status, 2);
    assert!(!folder.path("copy.img").exists());
    assert_eq!(folder.read("copy.img.gdos"), b"mine\n");
    assert_eq!(folder.gdos(&["mend", "d.img", "-o", "copy.img", "--force"]).status, 0);
    folder.done(&["check", "copy.img"]);
}

#[test]
fn a_write_protected_image_stays() {
    let folder = sample("protected");
    fs::set_permissions(folder.path("d.img"), Permissions::from_mode(0o444)).unwrap();
    let before = folder.everything();
    for words in [
        &["put", "d.img", "leer", "--as", "A"][..],
        &["rm", "d.img", "LEER"],
        &["trim", "d.img", "*"],
        &["new", "d.img", "--preset", "sample", "--force"],
    ] {
        let done = folder.gdos(words);
        assert_eq!(done.status, 2, "{words:?}");
        // Root is told the reason by this program, others by the system.
        assert!(done.err.contains("write-protected") || done.err.contains("ermission"), "{}", done.err);
    }
    assert!(folder.everything() == before);
    folder.done(&["ls", "d.img"]);
}

#[test]
fn a_folder_that_cannot_be_written() {
    let folder = sample("unwritable");
    fs::set_permissions(folder.path("d.img"), Permissions::from_mode(0o666)).unwrap();
    fs::create_dir(folder.path("out")).unwrap();
    fs::set_permissions(folder.path("out"), Permissions::from_mode(0o555)).unwrap();
    fs::set_permissions(folder.root(), Permissions::from_mode(0o555)).unwrap();
    let before = folder.everything();
    for words in [
        &["rm", "d.img", "LEER"][..],
        &["put", "d.img", "puls01.dat", "--as", "A"],
        &["new", "n.img", "--preset", "sample"],
        &["get", "d.img", "*", "-o", "out"],
        &["get", "d.img", "*"],
    ] {
        match unprivileged(&folder, words) {
            Ok(done) => {
                assert_eq!(done.status, 2, "{words:?}: {}", done.err);
                assert!(done.err.contains("no copy can be made in its folder"), "{words:?}: {}", done.err);
                assert!(done.err.contains("ermission"), "{words:?}: {}", done.err);
            }
            // Where the user cannot be changed, root can still not make files inside a file: see the session `usage`.
            Err(reason) => {
                println!("skipped: {reason}");
                break;
            }
        }
    }
    // Looking is allowed.
    if let Ok(done) = unprivileged(&folder, &["ls", "d.img", "--listing"]) {
        assert_eq!(done.text(), "FILES 2\nPULS01/DAT 257 1\nLEER 0 0\nFREE 28\n");
    }
    assert!(folder.everything() == before);
    fs::set_permissions(folder.root(), Permissions::from_mode(0o755)).unwrap();
}

#[test]
fn an_unreadable_image() {
    let folder = sample("unreadable");
    fs::set_permissions(folder.root(), Permissions::from_mode(0o755)).unwrap();
    fs::set_permissions(folder.path("d.img"), Permissions::from_mode(0o000)).unwrap();
    match unprivileged(&folder, &["ls", "d.img"]) {
        Ok(done) => assert_eq!((done.status, done.err.contains("cannot read d.img")), (2, true), "{}", done.err),
        Err(reason) => println!("skipped: {reason}"),
    }
}

#[test]
fn a_copy_that_cannot_be_written_whole() {
    // The system allows 8 blocks of 512 bytes a file, so the copy of the image breaks off, as on a full host disk.
    let folder = sample("limit");
    let before = folder.everything();
    for words in ["rm d.img LEER", "new n.img --preset sample", "new d.img --force --preset sample"] {
        let script = format!("trap '' XFSZ; ulimit -S -f 8; exec '{GDOS}' {words}");
        let output = Command::new("sh").args(["-c", &script]).current_dir(folder.root()).output().unwrap();
        let done = Done::from(output);
        assert_eq!(done.status, 2, "{words}: {}", done.err);
        assert!(done.err.contains("too large") || done.err.contains("cannot"), "{}", done.err);
        assert!(folder.everything() == before, "{words}");
    }
}

#[test]
fn permissions_owner_and_links_stay() {
    let folder = sample("modes");
    let image = folder.path("d.img");
    fs::set_permissions(&image, Permissions::from_mode(0o640)).unwrap();
    let owner = if is_root() { 65534 } else { fs::metadata(&image).unwrap().uid() };
    if is_root() {
        chown(&image, Some(owner), Some(owner)).unwrap();
    }
    symlink("d.img", folder.path("link.img")).unwrap();
    let before = folder.read("d.img");
    folder.done(&["rm", "link.img", "LEER"]);
    assert!(folder.read("d.img") != before);
    assert!(fs::symlink_metadata(folder.path("link.img")).unwrap().is_symlink());
    let now = fs::metadata(&image).unwrap();
    assert_eq!((now.mode() & 0o7777, now.uid()), (0o640, owner));

    // The same for a file of the host that is overwritten.
    folder.write("out.dat", "old");
    fs::set_permissions(folder.path("out.dat"), Permissions::from_mode(0o600)).unwrap();
    symlink("out.dat", folder.path("PULS01.DAT")).unwrap();
    assert_eq!(folder.gdos(&["get", "d.img", "PULS01/DAT"]).status, 2);
    assert_eq!(folder.read("out.dat"), b"old");
    folder.done(&["get", "d.img", "PULS01/DAT", "--force"]);
    assert_eq!(folder.read("out.dat"), [0x55; 257]);
    assert!(fs::symlink_metadata(folder.path("PULS01.DAT")).unwrap().is_symlink());
    assert_eq!(fs::metadata(folder.path("out.dat")).unwrap().mode() & 0o7777, 0o600);

    // A link that leads nowhere is there all the same.
    symlink("nowhere", folder.path("LEER")).unwrap();
    folder.done(&["put", "d.img", "leer", DATE[0], DATE[1]]);
    assert_eq!(folder.gdos(&["get", "d.img", "LEER"]).status, 2);
    assert!(folder.left_over().is_empty());
}

#[test]
fn a_reader_that_stops_is_no_fault() {
    let folder = Folder::new("pipe");
    folder.write("big", vec![7; 600_000]);
    folder.done(&["new", "d.img", "--preset", "dd80ds"]);
    folder.done(&["put", "d.img", "big", DATE[0], DATE[1]]);
    for words in [&["cat", "d.img", "BIG"][..], &["get", "d.img", "BIG", "-o", "-"]] {
        let mut child = folder.command(words).stdout(Stdio::piped()).stderr(Stdio::piped()).spawn().unwrap();
        let mut out = child.stdout.take().unwrap();
        let mut few = [0; 10];
        out.read_exact(&mut few).unwrap();
        drop(out);
        let done = Done::from(child.wait_with_output().unwrap());
        assert_eq!((done.status, done.err.as_str()), (0, ""), "{words:?}");
    }
    // Nobody reads at all.
    let mut child = folder.command(&["--help"]).stdout(Stdio::piped()).stderr(Stdio::piped()).spawn().unwrap();
    drop(child.stdout.take());
    let done = Done::from(child.wait_with_output().unwrap());
    assert_eq!((done.status, done.err.as_str()), (0, ""));
}

/// Whether the command was carried out is told of those only that did more than to write.
#[test]
fn output_that_cannot_be_written() {
    let full = || File::options().write(true).open("/dev/full");
    if full().is_err() {
        println!("skipped: no /dev/full here");
        return;
    }
    let folder = sample("full");
    for (words, did_more) in [
        (&["ls", "d.img"][..], false),
        (&["cat", "d.img", "PULS01/DAT"], false),
        (&["get", "d.img", "PULS01/DAT", "-o", "-"], false),
        (&["geometry", "d.img"], false),
        (&["undelete", "d.img"], false),
        (&["get", "d.img", "PULS01/DAT"], true),
        (&["geometry", "d.img", "--set", "--preset", "sample"], true),
        (&["new", "n.img", "--preset", "sample"], true),
        (&["rm", "d.img", "LEER"], true),
    ] {
        let output = folder.command(words).stdout(full().unwrap()).output().unwrap();
        let err = String::from_utf8(output.stderr).unwrap();
        assert_eq!(output.status.code(), Some(2), "{words:?}");
        assert!(err.contains("cannot write to standard output"), "{err}");
        assert_eq!(err.contains("apart from its report the command was carried out"), did_more, "{words:?}: {err}");
    }
    assert!(folder.path("PULS01.DAT").exists() && folder.path("n.img").exists());
}

/// A device or a pipe is no place for a file, whatever --force says.
#[test]
fn only_regular_files_are_replaced() {
    let folder = sample("devices");
    fs::create_dir(folder.path("out")).unwrap();
    let made = |program: &str, words: &[&str]| {
        let status = Command::new(program).args(words).current_dir(folder.root()).stderr(Stdio::null()).status();
        status.is_ok_and(|status| status.success())
    };
    let mut nodes = Vec::new();
    if made("mkfifo", &["pipe", "out/PULS01.DAT", "d.img.pipe"]) {
        nodes.push("pipe");
    }
    if made("mknod", &["null", "c", "1", "3"]) {
        nodes.push("null");
    }
    assert!(!nodes.is_empty() || !is_root(), "root can make them");
    for node in nodes {
        let before = fs::symlink_metadata(folder.path(node)).unwrap();
        for words in [
            &["new", node, "--preset", "sample", "--force"][..],
            &["put", node, "leer", "--preset", "sample"],
            &["rm", node, "LEER", "--preset", "sample"],
        ] {
            let done = folder.gdos(words);
            assert_eq!((done.status, done.err.contains("not a regular file")), (2, true), "{words:?}: {}", done.err);
        }
        let now = fs::symlink_metadata(folder.path(node)).unwrap();
        assert_eq!((now.ino(), now.mode(), now.rdev()), (before.ino(), before.mode(), before.rdev()));
    }
    if folder.path("out/PULS01.DAT").exists() {
        let done = folder.gdos(&["get", "d.img", "PULS01/DAT", "-o", "out", "--force"]);
        assert_eq!((done.status, done.err.contains("not a regular file")), (2, true), "{}", done.err);
        assert!(!fs::symlink_metadata(folder.path("out/PULS01.DAT")).unwrap().is_file());
    }
}

/// Another name of the same file keeps the old disk, and that is said.
#[test]
fn hard_links_are_told() {
    let folder = sample("hard");
    fs::hard_link(folder.path("d.img"), folder.path("h.img")).unwrap();
    let before = folder.read("h.img");
    let done = folder.gdos(&["rm", "d.img", "LEER"]);
    assert_eq!(done.status, 0);
    assert!(done.err.contains("d.img had 1 other name (hard links): the disk there is as it was"), "{}", done.err);
    assert!(folder.read("h.img") == before && folder.read("d.img") != before);
    assert_eq!(folder.gdos(&["put", "d.img", "leer", DATE[0], DATE[1]]).err, "", "one name is left");
}

#[test]
fn a_file_longer_than_any_image() {
    let folder = Folder::new("long");
    File::create(folder.path("long.img")).unwrap().set_len(5_000_000_000).unwrap();
    let done = folder.gdos(&["check", "long.img"]);
    assert_eq!(done.status, 1);
    assert!(done.err.contains("no geometry fits its length of more than 7864320 bytes"), "{}", done.err);
    let done = folder.gdos(&["check", "long.img", "--preset", "dd40"]);
    assert!(done.err.contains("has 184320 bytes, the image more than 7864320"), "{}", done.err);
    folder.done(&["new", "d.img", "--preset", "largest"]);
    let done = folder.gdos(&["put", "d.img", "long.img", "--as", "LANG"]);
    assert!(done.err.contains("it has more than 7864320 bytes, which no disk can hold"), "{}", done.err);
}

/// A file of the host that is overwritten keeps its owner.
#[test]
fn an_overwritten_file_keeps_its_owner() {
    if !is_root() {
        println!("skipped: only root can give files away");
        return;
    }
    let folder = sample("owner");
    folder.write("PULS01.DAT", "old");
    chown(folder.path("PULS01.DAT"), Some(65534), Some(65534)).unwrap();
    folder.done(&["get", "d.img", "PULS01/DAT", "--force"]);
    let now = fs::metadata(folder.path("PULS01.DAT")).unwrap();
    assert_eq!((now.uid(), now.gid(), now.len()), (65534, 65534, 257));
}

/// The copy's name is cut where the image's is long.
#[test]
fn long_names() {
    let folder = sample("names");
    for length in [230, 250, 255] {
        let image = "i".repeat(length - 4) + ".img";
        let done = folder.gdos(&["new", &image, "--preset", "sample"]);
        assert_eq!(done.status, 0, "{length}: {}", done.err);
        assert_eq!(done.err.contains("too long for a file beside it"), length > 250, "{length}: {}", done.err);
        folder.done(&["put", &image, "puls01.dat", "--preset", "sample", DATE[0], DATE[1]]);
        assert_eq!(folder.gdos(&["cat", &image, "PULS01/DAT"]).out, [0x55; 257], "{length}");
        assert!(folder.left_over().is_empty());
    }
}

/// Who replaces an image waits for who changes it.
#[test]
fn a_new_image_waits_for_the_lock() {
    let folder = sample("lock");
    let held = File::open(folder.path("d.img")).unwrap();
    held.lock().unwrap();
    let mut child =
        folder.command(&["new", "d.img", "--preset", "sample", "--force"]).stdout(Stdio::null()).spawn().unwrap();
    std::thread::sleep(Duration::from_millis(300));
    assert!(child.try_wait().unwrap().is_none(), "it did not wait");
    held.unlock().unwrap();
    assert!(child.wait().unwrap().success());
}

/// The file beside the image belongs to the file itself, whatever link it is reached by; it is whole or not written.
#[test]
fn the_geometry_beside_an_image() {
    let folder = sample("beside");
    assert_eq!(
        String::from_utf8(folder.read("d.img.gdos")).unwrap(),
        "# The geometry of d.img, as gdos heeds it.\nblocks = 16\nunits = 2\nstart = 80\nopen_code = 4296H\n"
    );
    symlink("d.img", folder.path("link.img")).unwrap();
    let told = folder.gdos(&["geometry", "link.img", "--json"]).json();
    assert_eq!((told.at("geometry_from").text(), told.at("geometry.start").number()), ("file", 80));
    // Through the link it is replaced where it stands.
    folder.done(&["geometry", "link.img", "--set", "--preset", "sample", "--open-code", "7"]);
    assert!(!folder.path("link.img.gdos").exists());
    assert!(String::from_utf8(folder.read("d.img.gdos")).unwrap().ends_with("open_code = 0007H\n"));
    // What is no file is neither read nor replaced; what is no text states nothing.
    fs::remove_file(folder.path("d.img.gdos")).unwrap();
    fs::create_dir(folder.path("d.img.gdos")).unwrap();
    assert_eq!(folder.gdos(&["ls", "d.img"]).status, 2);
    assert_eq!(folder.gdos(&["geometry", "d.img", "--set", "--preset", "sample"]).status, 2);
    assert_eq!(folder.gdos(&["ls", "d.img", "--preset", "sample"]).status, 0);
    fs::remove_dir(folder.path("d.img.gdos")).unwrap();
    for (bytes, why) in [(vec![0xff; 10], "is no text"), (vec![b'#'; 5000], "is too long")] {
        folder.write("d.img.gdos", bytes);
        let done = folder.gdos(&["ls", "d.img"]);
        assert_eq!((done.status, done.err.contains(why)), (2, true), "{}", done.err);
    }
    // Where the copy breaks off, the old one stays.
    folder.write("d.img.gdos", "sample");
    let before = folder.everything();
    let script = format!("trap '' XFSZ; ulimit -S -f 0; exec '{GDOS}' geometry d.img --set --preset sample");
    let output = Command::new("sh").args(["-c", &script]).current_dir(folder.root()).output().unwrap();
    assert_eq!(output.status.code(), Some(2));
    assert!(folder.everything() == before && folder.left_over().is_empty());
}

#[test]
fn standard_input() {
    let folder = sample("stdin");
    let put = |words: &[&str], bytes: &[u8]| {
        let mut child =
            folder.command(words).stdin(Stdio::piped()).stdout(Stdio::piped()).stderr(Stdio::piped()).spawn().unwrap();
        child.stdin.take().unwrap().write_all(bytes).unwrap();
        Done::from(child.wait_with_output().unwrap())
    };
    let done = put(&["put", "d.img", "-", "--as", "eich01/dat", DATE[0], DATE[1]], &[9; 1281]);
    assert_eq!(
        (done.status, done.text()),
        (0, "standard input to EICH01/DAT, 1281 bytes, 2 granules\n"),
        "{}",
        done.err
    );
    assert_eq!(folder.gdos(&["cat", "d.img", "EICH01/DAT"]).out, [9; 1281]);
    // An image may come from a pipe where it is only looked at.
    let image = folder.read("d.img");
    let done = put(&["ls", "--listing", "/dev/stdin"], &image);
    assert_eq!(done.text(), "FILES 3\nPULS01/DAT 257 1\nLEER 0 0\nEICH01/DAT 1281 2\nFREE 26\n", "{}", done.err);
}

#[test]
fn today_is_clamped_and_said() {
    let folder = sample("today");
    folder.write("a", "1");
    let done = folder.gdos(&["put", "d.img", "a"]);
    assert_eq!(done.status, 0);
    // Nobody's clock shows a year before 1996.
    assert!(done.err.starts_with("gdos: note: the disk's dates go from 1980 to 1995: today, "), "{}", done.err);
    let ls = folder.gdos(&["ls", "d.img", "A", "--json"]).json();
    assert!(ls.at("files.0.date").text().starts_with("1995-"));
    // An old file keeps its date, so there is nothing to note.
    assert_eq!(folder.gdos(&["put", "d.img", "a", "--force"]).err, "");
}

#[test]
fn every_byte_comes_back() {
    // Sizes about the edges of sectors, granules and runs, on disks of different shapes; every file is read back.
    let folder = Folder::new("sizes");
    let sizes = [0, 1, 255, 256, 257, 1279, 1280, 1281, 2559, 2560, 2561, 40_959, 40_960, 40_961, 42_241];
    for preset in ["sd80", "dd80", "dd80ds", "largest"] {
        folder.done(&["new", "d.img", "--preset", preset, "--directory", "30", "--force"]);
        let names: Vec<String> = sizes.iter().map(|size| format!("f{size}.bin")).collect();
        for (size, name) in sizes.iter().zip(&names) {
            folder.write(name, (0..*size).map(|i| (i % 253 + i / 256) as u8).collect::<Vec<_>>());
        }
        let mut words = vec!["put", "d.img", DATE[0], DATE[1]];
        words.extend(names.iter().map(String::as_str));
        folder.done(&words);
        fs::create_dir_all(folder.path("out")).unwrap();
        folder.done(&["get", "d.img", "*", "-o", "out", "--force"]);
        for name in &names {
            let (name, host) = (name.as_str(), format!("out/{}", name.to_uppercase()));
            assert!(folder.read(name) == folder.read(&host), "{preset} {name}");
        }
        let listing = folder.done(&["ls", "--listing", "d.img"]);
        let lines = sizes.iter().map(|size| format!("F{size}/BIN {size} {}\n", usize::div_ceil(*size, 1280)));
        let free = listing.lines().last().unwrap();
        assert_eq!(listing, format!("FILES {}\n{}{free}\n", sizes.len(), lines.collect::<String>()));
    }
}

#[test]
fn several_at_once_lose_nothing() {
    let folder = sample("several");
    let names: Vec<String> = (0..12).map(|i| format!("f{i}")).collect();
    for name in &names {
        folder.write(name, name);
    }
    let children: Vec<_> = names
        .iter()
        .map(|name| folder.command(&["put", "d.img", name, DATE[0], DATE[1]]).stdout(Stdio::null()).spawn().unwrap())
        .collect();
    for mut child in children {
        assert!(child.wait().unwrap().success());
    }
    for name in &names {
        assert_eq!(folder.gdos(&["cat", "d.img", name]).out, name.as_bytes());
    }
    assert!(folder.left_over().is_empty());
}

#[test]
fn an_interrupted_change_is_whole_or_not_made() {
    let folder = Folder::new("killed");
    folder.done(&["new", "d.img", "--preset", "largest"]);
    folder.write("a", vec![1; 300_000]);
    folder.write("b", vec![2; 500_000]);
    folder.done(&["put", "d.img", "a", "--as", "X", DATE[0], DATE[1]]);
    let one = folder.read("d.img");
    folder.done(&["put", "d.img", "b", "--as", "X", "--force"]);
    let other = folder.read("d.img");
    for i in 0..40u64 {
        folder.write("d.img", &one);
        let mut child =
            folder.command(&["put", "d.img", "b", "--as", "X", "--force"]).stdout(Stdio::null()).spawn().unwrap();
        std::thread::sleep(Duration::from_micros(i * 500));
        child.kill().unwrap();
        child.wait().unwrap();
        let now = folder.read("d.img");
        assert!(now == one || now == other, "half a change after {i}");
    }
}

#[test]
fn probing_is_quick() {
    // The largest image, and one whose length has the most geometries, filled so that no check can stop early on the
    // directory's length.
    let folder = Folder::new("quick");
    for (name, bytes) in [("large.img", 1_966_080), ("many.img", 168 * 8 * 1280), ("hard.img", 7_864_320)] {
        for filler in [0, 0xff, 5] {
            folder.write(name, vec![filler; bytes]);
            let begun = SystemTime::now();
            assert_eq!(folder.gdos(&["probe", name]).status, 1);
            assert!(begun.elapsed().unwrap() < Duration::from_secs(5), "{name} of {filler}");
        }
    }
}

#[test]
fn differences_as_json() {
    let folder = sample("diff");
    let json = |words: &[&str]| {
        let done = folder.gdos(words);
        (done.status, done.json())
    };
    let (status, alike) = json(&["diff", "--json", "d.img", "d.img"]);
    assert_eq!((status, alike.at("alike"), alike.at("differences").len()), (0, &Json::Bool(true), 0));
    assert_eq!((alike.at("first.image").text(), alike.at("second.image").text()), ("d.img", "d.img"));

    // On another kind of disk, with a byte more, another day, and a file less and one more.
    folder.write("puls01.dat", [0x55; 258]);
    folder.done(&["new", "e.img", "--preset", "dd80ds"]);
    folder.done(&["put", "e.img", "puls01.dat", "--date", "1983-10-10"]);
    folder.done(&["put", "e.img", "leer", "--as", "NEU", "--date", "1983-10-10"]);
    let (status, json) = json(&["diff", "--json", "d.img", "e.img"]);
    assert_eq!((status, json.at("alike"), json.at("differences").len()), (1, &Json::Bool(false), 3));
    assert_eq!(
        (json.at("first.geometry.preset").text(), json.at("second.geometry.preset").text()),
        ("sample", "dd80ds")
    );
    let told = |number: usize, member: &str| json.at(&format!("differences.{number}.{member}")).clone();
    for (number, name, kind) in
        [(0, "LEER", "only_in_first"), (1, "NEU", "only_in_second"), (2, "PULS01/DAT", "unlike")]
    {
        assert_eq!((told(number, "name").text(), told(number, "kind").text()), (name, kind));
    }
    for (member, set) in [("contents", true), ("size", true), ("date", true), ("attributes", false)] {
        assert_eq!(told(2, member), Json::Bool(set), "{member}");
        assert_eq!(told(0, member), Json::Bool(false), "{member}");
    }
    assert_eq!((told(2, "position"), told(0, "position")), (Json::Number(257), Json::Null));
    assert_eq!((told(2, "first.size").number(), told(2, "second.size").number()), (257, 258));
    assert_eq!(told(2, "second.date").text(), "1983-10-10");
    assert_eq!((told(0, "second"), told(1, "first")), (Json::Null, Json::Null));
    assert_eq!(told(1, "second.name").text(), "NEU");
}

/// What was read out of a disk and put back on another of any kind makes no difference; a change of one byte is found.
#[test]
fn a_copy_of_a_disk_has_no_difference() {
    let folder = Folder::new("copy");
    folder.done(&["new", "a.img", "--preset", "sd35"]);
    let mut names = Vec::new();
    for (i, size) in [0, 1, 255, 256, 257, 1279, 1280, 1281, 5000].into_iter().enumerate() {
        let name = format!("f{i}.dat");
        folder.write(&name, (0..size).map(|k| (k * 31 + i) as u8).collect::<Vec<_>>());
        folder.done(&["put", "a.img", &name, DATE[0], DATE[1]]);
        names.push(name);
    }
    names.reverse();
    for preset in ["sd35", "sd80ds", "dd80ds", "largest"] {
        folder.done(&["new", "b.img", "--preset", preset, "--force"]);
        for name in &names {
            folder.done(&["put", "b.img", name, DATE[0], DATE[1]]);
        }
        let done = folder.gdos(&["diff", "a.img", "b.img"]);
        assert_eq!((done.status, done.text(), done.err.as_str()), (0, "", ""), "{preset}");
    }
    let mut bytes = folder.read("f8.dat");
    bytes[4321] ^= 1;
    folder.write("f8.dat", bytes);
    folder.done(&["put", "b.img", "f8.dat", "--force"]);
    let done = folder.gdos(&["diff", "a.img", "b.img"]);
    assert_eq!((done.status, done.text()), (1, "F8/DAT: differs from byte 4321\n"));
    // Neither image is touched, a write-protected one can be compared.
    fs::set_permissions(folder.path("a.img"), Permissions::from_mode(0o444)).unwrap();
    let before = folder.everything();
    assert_eq!(folder.gdos(&["diff", "a.img", "b.img"]).status, 1);
    assert!(folder.everything() == before);
}
