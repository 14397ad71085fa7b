//! What `dump`, `map` and `report` show: the byte that a dump marks is the one that `check` names; the picture in the terminal has a
//! cell for each granule, in colours and without; the page is well formed and needs nothing else.

mod common;
#[path = "../../rust/tests/common/markup.rs"]
mod markup;

use common::{Done, Folder, Json};
use markup::elements;
use std::collections::BTreeMap;
use std::io::Write;

/// The program within this process, which is quicker; the words name files in full.
fn gdos(words: &[&str]) -> Done {
    let (mut out, mut err) = (Vec::new(), Vec::new());
    let status = gdos::run(words.iter().map(Into::into), &mut out, &mut err);
    Done { status: status.into(), out, err: String::from_utf8(err).unwrap() }
}

/// A disk with files of one run, one of five with an extension, and a removed one. GAT at 5000H, HIT at 5100H.
fn scattered(name: &str) -> Folder {
    let folder = Folder::new(name);
    folder.done(&["new", "d.img", "--preset", "sample"]);
    let names: Vec<String> = (b'a'..=b'i').map(|letter| format!("{}.dat", char::from(letter))).collect();
    for name in &names {
        folder.write(name, [0x55; 1280]);
    }
    let mut words = vec!["put", "d.img", "--date", "1983-10-09"];
    words.extend(names.iter().map(String::as_str));
    folder.done(&words);
    folder.done(&["rm", "d.img", "A/DAT", "C/DAT", "E/DAT", "G/DAT", "I/DAT"]);
    folder.write("lang.dat", [0x66; 9000]);
    folder.done(&["put", "d.img", "lang.dat", "--date", "1983-10-16"]);
    folder
}

/// The bytes of the image that a message of `check` names: an image byte in so many words, else a byte of the entry by its
/// number there. None where it names a pair, a run, the size or the name as a whole.
fn named(message: &str, entry: Option<usize>) -> Vec<usize> {
    let numbers = |mark: &str, radix: u32, digits: fn(char) -> bool| -> Vec<usize> {
        let rests = message.match_indices(mark).map(|(at, _)| &message[at + mark.len()..]);
        let number = |rest: &str| {
            let end = rest.find(|c: char| !digits(c)).unwrap_or(rest.len());
            usize::from_str_radix(&rest[..end], radix).ok()
        };
        rests.filter_map(number).collect()
    };
    let in_image = numbers("image byte ", 10, |c| c.is_ascii_digit());
    if !in_image.is_empty() {
        return in_image;
    }
    let capital = |c: char| c.is_ascii_digit() || ('A'..='F').contains(&c);
    let in_entry = numbers("byte ", 16, capital);
    let entry = entry.into_iter().flat_map(|entry| in_entry.iter().map(move |byte| entry + byte));
    entry.filter(|_| !message.contains("end byte")).collect()
}

/// The bytes that a dump marks.
fn marked(image: &str, what: &[&str]) -> Vec<usize> {
    let mut words = vec!["dump", image, "--preset", "sample", "--json"];
    words.extend(what);
    let done = gdos(&words);
    assert_eq!(done.status, 0, "{words:?}: {}", done.err);
    let dump = done.json();
    let mut marked = Vec::new();
    for section in 0..dump.at("sections").len() {
        let fields = dump.at(&format!("sections.{section}.fields"));
        for field in 0..fields.len() {
            let of_field = fields.at(&format!("{field}.marked"));
            marked.extend((0..of_field.len()).map(|byte| of_field.at(&byte.to_string()).number() as usize));
        }
    }
    marked
}

#[test]
fn the_marked_byte_is_the_one_that_check_names() {
    let folder = scattered("marked");
    let (path, sound) = (folder.path("d.img"), folder.read("d.img"));
    let image = path.to_str().unwrap();
    let entries = [0x80, 0x81, 0x82].map(|slot| (82 + slot % 32) * 256 + 32 * (slot / 32));
    let in_entries = entries.iter().flat_map(|entry| *entry..entry + 32);
    let in_hit = [0x00, 0x1f, 0x80, 0x81, 0x82, 0x84].map(|slot| 81 * 256 + slot);
    let in_gat = (0..16).map(|block| 80 * 256 + block);
    let mut damages: Vec<Vec<(usize, u8)>> = Vec::new();
    for at in in_entries.chain(in_hit).chain(in_gat) {
        let values = [0x00, 0x07, 0xfe, sound[at] ^ 0x20];
        damages.extend(values.map(|value| vec![(at, value)]));
    }
    // D/DAT becomes a second B/DAT.
    damages.push(vec![(0x5585, b'B'), (0x5183, sound[0x5181])]);
    let mut met: BTreeMap<u64, usize> = BTreeMap::new();
    for damage in damages {
        let mut damaged = sound.clone();
        for &(at, value) in &damage {
            damaged[at] = value;
        }
        folder.write("d.img", damaged);
        let checked = gdos(&["check", image, "--preset", "sample", "--json"]);
        if checked.status == 0 {
            continue;
        }
        let told = checked.json();
        let fault = told.at("failures.0.refused.fault");
        let (number, message) = (fault.at("number").number(), fault.at("message").text());
        *met.entry(number).or_default() += 1;
        let slot = match fault.at("slot") {
            Json::Number(slot) => Some(*slot as usize),
            _ => None,
        };
        let entry = slot.map(|_| fault.at("image_byte").number() as usize);
        let mut shown = slot.map(|slot| marked(image, &["--slot", &slot.to_string()])).unwrap_or_default();
        if number == 27 || slot.is_none() {
            shown.extend(marked(image, &["--gat"]));
            shown.extend(marked(image, &["--hit"]));
        }
        let what = format!("{damage:?}: {number}: {message}: {shown:?}");
        for byte in named(message, entry) {
            assert!(shown.contains(&byte), "{what}");
        }
        // Whatever it names, a byte of the entry, of its HIT byte or of the GAT is marked.
        assert!(!shown.is_empty(), "{what}");
        if let (Some(entry), true) = (entry, named(message, entry).is_empty()) {
            assert!(shown.iter().any(|byte| (entry..entry + 32).contains(byte)), "{what}");
        }
    }
    writeln!(std::io::stderr(), "faults whose bytes were marked, by number: {met:?}").unwrap();
    assert!((21..=30).all(|number| met.contains_key(&number)), "{met:?}");
}

/// The cells of a picture in the terminal.
fn cells(text: &str) -> Vec<String> {
    let lines = text.lines().filter(|line| line.len() > 6 && line.ends_with('|') && line.as_bytes()[5] == b'|');
    lines.flat_map(|line| line[6..].split([' ', '|']).filter(|cell| !cell.is_empty()).map(String::from)).collect()
}

#[test]
fn the_picture_has_a_cell_for_each_granule() {
    let folder = scattered("picture");
    for damage in [None, Some((0x529f, 0x81)), Some((0x5001, 0)), Some((0x5396, 0)), Some((0x511f, 9))] {
        if let Some((at, byte)) = damage {
            folder.poke("d.img", at, &[byte]);
        }
        let plain = folder.done(&["map", "d.img"]);
        let json = folder.gdos(&["map", "d.img", "--json"]).json();
        let cells = cells(&plain);
        assert_eq!((cells.len(), json.at("cells").len()), (32, 32), "{plain}");
        for (granule, cell) in cells.iter().enumerate() {
            let told = json.at(&format!("cells.{granule}"));
            assert_eq!(cell.ends_with('!'), told.at("faults").len() > 0, "{plain}");
            let label = cell.trim_end_matches('!');
            let holds = match label {
                "." => "free",
                "#" => "reserved",
                "DIR" => "directory",
                label if label.starts_with('?') => "nobody",
                label if label.contains('*') => "shared",
                _ => "file",
            };
            assert_eq!(told.at("holds").text(), holds, "granule {granule}\n{plain}");
        }
        // In colours the same stands there.
        let coloured = folder.done(&["map", "d.img", "--color", "always"]);
        let mut stripped = String::new();
        for (number, part) in coloured.split("\x1b[").enumerate() {
            stripped += if number == 0 { part } else { part.split_once('m').unwrap().1 };
        }
        assert!(coloured.contains("\x1b[") && stripped == plain, "{coloured}");
        assert!(!plain.contains('\x1b'));
        assert!(plain.lines().filter(|line| line.ends_with('|')).all(|line| line.len() <= 80), "{plain}");
    }
}

#[test]
fn pictures_are_files_of_their_own() {
    let folder = scattered("svg");
    folder.done(&["map", "d.img", "--svg", "d.svg"]);
    folder.done(&["map", "d.img", "--svg", "way.svg", "--file", "LANG/DAT"]);
    for (file, ways) in [("d.svg", 0), ("way.svg", 1)] {
        let svg = String::from_utf8(folder.read(file)).unwrap();
        let all = elements(&svg);
        assert_eq!(all[0].attribute("xmlns"), Some("http://www.w3.org/2000/svg"));
        assert_eq!(all.iter().filter(|element| element.attribute("class") == Some("cell")).count(), 32);
        assert_eq!(all.iter().filter(|element| element.attribute("class") == Some("way")).count(), ways);
    }
}

/// A page, read strictly; it must need nothing else.
fn page(folder: &Folder, file: &str) -> (String, Vec<markup::Element>) {
    let text = String::from_utf8(folder.read(file)).unwrap();
    let body = text.strip_prefix("<!DOCTYPE html>\n").expect("a page");
    for outside in ["http", "//", "<script", "<link", "<iframe", "<img", "@import", "src=", "href="] {
        assert!(!text.contains(outside), "{outside}");
    }
    assert!(text.match_indices("url(").all(|(at, _)| text[at..].starts_with("url(#")));
    let all = elements(body);
    assert_eq!(all.iter().filter(|element| element.attribute("class") == Some("cell")).count(), 32);
    (text.clone(), all)
}

fn texts(all: &[markup::Element], name: &str) -> Vec<String> {
    all.iter().filter(|element| element.name == name).map(|element| element.text.clone()).collect()
}

#[test]
fn the_page_of_a_consistent_disk() {
    let folder = scattered("page");
    folder.done(&["report", "d.img", "-o", "d.html"]);
    let (_, all) = page(&folder, "d.html");
    assert_eq!(texts(&all, "h1"), ["Report on d.img"]);
    assert_eq!(texts(&all, "h2"), ["The disk", "Files", "Faults", "What can be brought back", "Map of the granules"]);
    let cells = texts(&all, "td");
    for told in
        ["d.img, 40960 bytes", "16 blocks of 2 units (preset sample)", "d.img.gdos", "sectors 80 to 89", "LANG/DAT"]
    {
        assert!(cells.iter().any(|cell| cell == told), "{told}: {cells:?}");
    }
    // What undelete and ls tell stands there too.
    let removed = folder.gdos(&["undelete", "d.img", "--json"]).json();
    assert_ne!(removed.at("removed").len(), 0);
    for place in 0..removed.at("removed").len() {
        let name = removed.at(&format!("removed.{place}.name")).text();
        assert!(cells.iter().any(|cell| cell == name), "{name}");
    }
    let listed = folder.gdos(&["ls", "--all", "--json", "d.img"]).json();
    for place in 0..listed.at("files").len() {
        let name = listed.at(&format!("files.{place}.name")).text();
        assert!(cells.iter().any(|cell| cell == name), "{name}");
    }
}

#[test]
fn the_page_of_a_damaged_disk() {
    let folder = scattered("damaged-page");
    // A name that is markup, a marker and a bit of the GAT.
    folder.poke("d.img", 0x5385, b"<B>&\"'");
    folder.poke("d.img", 0x559e, &[7]);
    folder.poke("d.img", 0x5001, &[0]);
    folder.done(&["report", "d.img", "-o", "d.html", "--preset", "sample"]);
    let (text, all) = page(&folder, "d.html");
    assert!(!text.contains("<B>"));
    let told = folder.gdos(&["check", "--all", "d.img", "--json"]).json();
    let faults = told.at("images.0.faults");
    let items = texts(&all, "li");
    assert_eq!((items.len(), faults.len() > 2), (faults.len(), true));
    for (place, item) in items.iter().enumerate() {
        let message = faults.at(&format!("{place}.message")).text();
        assert!(item.contains(message), "{item}: {message}");
    }
    let rescued = folder.gdos(&["rescue", "d.img", "-o", "out", "--json"]).json();
    let cells = texts(&all, "td");
    for list in ["files", "missing"] {
        for place in 0..rescued.at(list).len() {
            let name = rescued.at(&format!("{list}.{place}.name")).text();
            assert!(cells.iter().any(|cell| cell == name), "{name}: {cells:?}");
        }
    }
    assert_ne!(rescued.at("missing").len(), 0);
    assert!(cells.iter().any(|cell| cell == "the options"), "{cells:?}");
}
