//! The map of a disk: every granule of random consistent disks held against the library's own calls and against the model; on
//! damaged ones what the faults mark; and the picture, read strictly.

#[path = "common/markup.rs"]
mod markup;

use genie_dos::*;
use genie_model::damage::{random_flips, DAMAGES};
use genie_model::directory::{directory_granules, directory_sectors, files, owned, taken};
use genie_model::disks::{random_disk, Disk as Made};
use genie_model::random::Random;
use genie_model::space::reserved_granules;
use markup::{elements, Element};
use std::collections::BTreeMap;
use std::io::Write;

const DISKS: usize = 300;

fn geometry(g: &genie_model::geometry::Geometry) -> Geometry {
    Geometry::new(g.blocks, g.units, g.start, g.open_code).with_granule_sectors(g.granule_sectors)
}

/// What the library's own calls tell of a consistent disk's granules: which file's each is, by its place in that file. The
/// runs are those of the entries; where the size reaches, the sectors that the library hands back must lie there.
fn told(disk: &Disk<&[u8]>) -> BTreeMap<usize, (u8, usize, usize)> {
    let mut told = BTreeMap::new();
    for entry in disk.entries().unwrap() {
        let handle = disk.open(&entry.name(), 256, Password::Unchecked).unwrap();
        assert_eq!(handle.slot(), entry.slot());
        let sectors = entry.size().div_ceil(Geometry::SECTOR_BYTES);
        let mut nth = 0;
        for (number, run) in (1..).zip(entry.runs()) {
            for index in 0..run.granules {
                let granule = run.first + index;
                let k = nth * disk.geometry().granule_sectors;
                if k < sectors {
                    let part = disk.read_sector(&handle, k).unwrap();
                    let at = part.as_ptr() as usize - disk.image().as_ptr() as usize;
                    assert_eq!(at, granule * disk.geometry().granule_bytes(), "sector {k} of {}", entry.name());
                }
                assert_eq!(told.insert(granule, (entry.slot(), number, index)), None);
                nth += 1;
            }
        }
    }
    told
}

#[test]
fn every_granule_of_consistent_disks() {
    let mut random = Random::new(37);
    let mut met: BTreeMap<&str, usize> = BTreeMap::new();
    for number in 0..DISKS {
        let made = random_disk(&mut random);
        let (image, g) = (made.image.as_slice(), made.g);
        let disk = Disk::new(image, geometry(&g));
        let map = disk.map().unwrap();
        let what = format!("disk {number} of seed 37: {g:?}");
        assert_eq!((map.faults.len(), map.cells.len()), (0, g.granules()), "{what}");
        let told = told(&disk);
        let d = directory_sectors(image, &g).unwrap();
        assert_eq!(map.directory_sectors, d);
        let directory = directory_granules(&g, d);
        let reserved = reserved_granules(image, &g, d);
        for (granule, cell) in map.cells.iter().enumerate() {
            assert_eq!((cell.granule, g.granule(cell.block, cell.unit)), (granule, granule), "{what}");
            assert!(cell.unit < g.units && cell.faults.is_empty());
            assert_eq!(cell.taken, taken(image, &g, granule), "{what}: granule {granule}");
            let parts: Vec<_> = cell.parts.iter().map(|part| (part.file.unwrap(), part.run, part.index)).collect();
            assert_eq!(parts, told.get(&granule).copied().into_iter().collect::<Vec<_>>(), "{what}: granule {granule}");
            let holds = match (directory.contains(&granule), parts.is_empty(), cell.taken) {
                (true, ..) => Holds::Directory,
                (_, false, _) => Holds::File,
                (_, true, true) => Holds::Reserved,
                (_, true, false) => Holds::Free,
            };
            assert_eq!(cell.holds, holds, "{what}: granule {granule}");
            if holds == Holds::Reserved {
                assert!(reserved.contains(&granule), "{what}: granule {granule}");
            }
            *met.entry(holds.word()).or_default() += 1;
        }
        // The listing's numbers are the map's.
        let counts = disk.count().unwrap();
        assert_eq!(map.counted(Holds::Free), counts.free, "{what}");
        assert_eq!(map.files.len(), files(image, &g, d).len());
        for file in &map.files {
            let granules: Vec<usize> = file.runs.iter().flat_map(|run| run.first..run.first + run.granules).collect();
            assert_eq!(granules, owned(image, &g, d, file.slot), "{what}: slot {:02X}H", file.slot);
            assert!(!file.touched);
        }
    }
    writeln!(std::io::stderr(), "cells of {DISKS} consistent disks: {met:?}").unwrap();
    assert!(["free", "reserved", "directory", "file"].iter().all(|holds| met.get(holds) > Some(&1_000)), "{met:?}");
}

/// What must hold of any map.
fn marks(map: &Map, len: usize, what: &str) {
    let width = map.geometry.granule_bytes();
    for (place, fault) in map.faults.iter().enumerate() {
        assert!(!fault.bytes.is_empty(), "{what}: {} has no byte", fault.told);
        let directory = map.geometry.start * 256..(map.geometry.start + 30) * 256;
        assert!(fault.bytes.iter().all(|byte| directory.contains(byte) && *byte < len), "{what}: {}", fault.told);
        for granule in fault.granules.iter().copied().chain(fault.bytes.iter().map(|byte| byte / width)) {
            assert!(map.cells[granule].faults.contains(&place), "{what}: granule {granule} of {}", fault.told);
        }
    }
    for cell in &map.cells {
        let own = |&place: &usize| {
            let fault = &map.faults[place];
            fault.granules.contains(&cell.granule) || fault.bytes.iter().any(|byte| byte / width == cell.granule)
        };
        assert!(cell.faults.iter().all(own), "{what}: granule {}", cell.granule);
        let shared = map
            .faults
            .iter()
            .any(|fault| fault.told.fault.kind == FaultKind::GranuleShared && fault.granules.contains(&cell.granule));
        assert_eq!(cell.parts.len() > 1, shared, "{what}: granule {}", cell.granule);
        assert!(map.label(cell).len() <= 9);
    }
}

#[test]
fn what_faults_mark() {
    let mut random = Random::new(38);
    let mut met: BTreeMap<u8, usize> = BTreeMap::new();
    for number in 0..60 {
        let whole = random_disk(&mut random);
        let mut judge = |title: &str, made: &Made| {
            let what = format!("disk {number} of seed 38, {title}: {:?}", made.g);
            let map = Disk::new(made.image.as_slice(), geometry(&made.g)).map().unwrap();
            marks(&map, made.image.len(), &what);
            for fault in &map.faults {
                *met.entry(fault.told.fault.kind.number()).or_default() += 1;
            }
            map.faults.len()
        };
        for damage in DAMAGES {
            let mut made = whole.clone();
            if damage.apply(&mut made, &mut random) {
                assert_ne!(judge(damage.title, &made), 0, "disk {number} of seed 38, {}", damage.title);
            }
        }
        let mut flipped = whole.clone();
        random_flips(&mut flipped, &mut random, 16);
        judge("flips", &flipped);
    }
    writeln!(std::io::stderr(), "faults on maps, by number: {met:?}").unwrap();
    assert!((21..=30).all(|number| met.contains_key(&number)), "{met:?}");
}

/// The cells of a picture.
fn cells(svg: &str) -> Vec<Element> {
    elements(svg).into_iter().filter(|element| element.attribute("class") == Some("cell")).collect()
}

#[test]
fn the_picture_is_well_formed_and_tells_what_the_map_does() {
    let mut random = Random::new(39);
    for number in 0..40 {
        let mut made = random_disk(&mut random);
        if number % 2 == 0 {
            random_flips(&mut made, &mut random, 6);
        }
        let map = Disk::new(made.image.as_slice(), geometry(&made.g)).map().unwrap();
        let way = map.files.first().map(|file| file.slot).filter(|_| number % 3 == 0);
        let title = "a<b> & \"c\" \u{1b}";
        let svg = map.svg(&match number % 2 {
            1 => Drawing::new(title).with_way(way),
            _ => Drawing::new(title).within_page("p1").with_way(way),
        });
        assert_eq!(svg.contains("http"), number % 2 == 1);
        assert!(!svg.contains("<script") && !svg.contains("<style") && !svg.contains("href"));
        let all = elements(&svg);
        assert_eq!((all[0].name.as_str(), all[0].attribute("role")), ("svg", Some("img")));
        assert_eq!(all[1].text, "a<b> & \"c\" \u{fffd}");
        assert_eq!(all[2].text, map.summary());
        let drawn = cells(&svg);
        assert_eq!(drawn.len(), map.cells.len());
        for (element, cell) in drawn.iter().zip(&map.cells) {
            assert_eq!(element.attribute("data-granule"), Some(cell.granule.to_string().as_str()));
            assert_eq!(element.attribute("data-holds"), Some(cell.holds.word()));
            assert_eq!(element.attribute("data-fault").is_some(), !cell.faults.is_empty());
        }
        // A cell's sentence and its label stand in it.
        let titles = all.iter().filter(|element| element.name == "title").skip(1);
        assert!(titles.map(|title| title.text.clone()).eq(map.cells.iter().map(|cell| map.words(cell))));
    }
}

#[test]
fn by_hand() {
    let g = Geometry::new(16, 2, 80, 0x4296);
    let mut disk = Disk::blank(g, 10, &[0]).unwrap();
    let new = NewFile::open(g, Date::new(1983, 10, 9));
    // Two files by turns: A has granules 1, 3, 5, 7, 9 and an extension in slot 82H, B has 2, 4, 6, 8.
    for nth in 0..5 {
        for name in ["A", "B"] {
            let handle = disk.create(&name.parse().unwrap(), &new).unwrap().handle;
            if name == "A" || nth < 4 {
                disk.allot(&handle, 5 * nth).unwrap();
            }
        }
    }
    let labels = |image: &[u8]| -> String {
        let map = Disk::new(image, g).map().unwrap();
        let label = |cell: &Cell| format!("{}{}", map.label(cell), if cell.faults.is_empty() { "" } else { "!" });
        map.cells.iter().map(label).collect::<Vec<_>>().join(" ")
    };
    let image = disk.into_image();
    let rest = ". . . . . . DIR DIR . . . . . . . . . . . . . .";
    assert_eq!(labels(&image), format!("# A1 B1 A2 B2 A3 B3 A4 B4 A5 {rest}"));
    let entry_at = |slot: usize| (80 + 2 + slot % 32) * 256 + 32 * (slot / 32);
    let with = |at: usize, bytes: &[u8]| {
        let mut image = image.clone();
        image[at..at + bytes.len()].copy_from_slice(bytes);
        labels(&image)
    };
    let marked = rest.replacen("DIR", "DIR!", 1);
    // 28: B's first run is A's; and a run over the disk's end (26), of which one granule is on the disk.
    assert_eq!(with(entry_at(0x81) + 0x16, &[0x00, 0x20]), format!("# A*B! # A2 B2 A3 B3 A4 B4 A5 {marked}"));
    let past = marked.strip_suffix('.').unwrap().to_string() + "A2!";
    assert_eq!(with(entry_at(0x80) + 0x18, &[0x0f, 0x21]), format!("# A1 B1 # B2 A3 B3 A4 B4 A5 {past}"));
    // 27: the GAT has granules 2 and 3 free.
    assert_eq!(with(80 * 256 + 1, &[0x00]), format!("# A1 B1! A2! B2 A3 B3 A4 B4 A5 {marked}"));
    // 25: A's link leads to B, so that its extension in slot 82H is nobody's.
    assert_eq!(with(entry_at(0x80) + 0x1f, &[0x81]), format!("# A1 B1 A2 B2 A3 B3 A4 B4 ?1 {marked}"));
    // 22: the HIT byte of slot 80H is 0. The directory alone is marked.
    assert_eq!(with(81 * 256 + 0x80, &[0x00]), format!("# A1 B1 A2 B2 A3 B3 A4 B4 A5 {marked}"));
    // 30: the directory's second granule is free in the GAT, whose byte stands in the first.
    let both = rest.replace("DIR", "DIR!");
    assert_eq!(with(80 * 256 + 8, &[0x01]), format!("# A1 B1 A2 B2 A3 B3 A4 B4 A5 {both}"));
}
