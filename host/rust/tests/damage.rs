//! Ten thousand disks with 1, 4 and 16 flips in the directory: each is mended, and what is rescued is held against what the disk
//! held before. The figures stand in the output.

mod common;

use common::*;
use genie_dos::*;
use std::io::Write;

const IMAGES: usize = 10_000;
const FLIPS: [usize; 3] = [1, 4, 16];

/// Counted over many images.
#[derive(Clone, Copy, Default)]
struct Figures {
    images: usize,
    consistent: usize,
    faults: usize,
    steps: usize,
    most_steps: usize,
    files: usize,
    untouched: usize,
    untouched_lost: usize,
    untouched_doubtful: usize,
    rescued: usize,
    as_before: usize,
    size_changed: usize,
    silent_name: usize,
    silent_runs: usize,
    doubtful: usize,
    doubtful_as_before: usize,
    dropped: usize,
    dropped_had_otherwise: usize,
}

type Row = (&'static str, fn(&Figures) -> usize);

const ROWS: [Row; 18] = [
    ("images", |f| f.images),
    ("of these consistent by the rules", |f| f.consistent),
    ("faults found", |f| f.faults),
    ("steps of mending", |f| f.steps),
    ("most steps on one image", |f| f.most_steps),
    ("files before the damage", |f| f.files),
    ("of these with no byte of theirs changed", |f| f.untouched),
    ("... dropped, but rescued from another copy, doubtful", |f| f.untouched_lost),
    ("... kept as doubtful", |f| f.untouched_doubtful),
    ("rescued without doubt", |f| f.rescued),
    ("... name and bytes as before", |f| f.as_before),
    ("... size changed by their own entry", |f| f.size_changed),
    ("... name changed by it to one of the same hash", |f| f.silent_name),
    ("... runs changed by it, no rule broken", |f| f.silent_runs),
    ("rescued as doubtful", |f| f.doubtful),
    ("... name and bytes as before", |f| f.doubtful_as_before),
    ("dropped", |f| f.dropped),
    ("... to be had in another copy", |f| f.dropped_had_otherwise),
];

impl Figures {
    fn add(&mut self, other: &Figures) {
        self.images += other.images;
        self.consistent += other.consistent;
        self.faults += other.faults;
        self.steps += other.steps;
        self.most_steps = self.most_steps.max(other.most_steps);
        self.files += other.files;
        self.untouched += other.untouched;
        self.untouched_lost += other.untouched_lost;
        self.untouched_doubtful += other.untouched_doubtful;
        self.rescued += other.rescued;
        self.as_before += other.as_before;
        self.size_changed += other.size_changed;
        self.silent_name += other.silent_name;
        self.silent_runs += other.silent_runs;
        self.doubtful += other.doubtful;
        self.doubtful_as_before += other.doubtful_as_before;
        self.dropped += other.dropped;
        self.dropped_had_otherwise += other.dropped_had_otherwise;
    }
}

/// A byte of the directory: any, or one that means something.
fn place(sound: &Sound, random: &mut Random, used: bool) -> usize {
    let g = sound.disk.geometry();
    if !used {
        return g.start * 256 + random.below(sound.sectors * 256);
    }
    let entries: Vec<u8> = sound.files.iter().flat_map(|file| file.slots.iter().copied()).collect();
    let hits: Vec<u8> = slots(sound.sectors).collect();
    // As often as there are such bytes.
    let at = random.below(g.blocks + hits.len() + 1 + 32 * entries.len());
    if at < g.blocks {
        return g.start * 256 + at;
    }
    match at - g.blocks {
        0 => length_at(g),
        at if at <= hits.len() => hit_at(g, hits[at - 1]),
        at => {
            let at = at - hits.len() - 1;
            entry_at(g, entries[at / 32]) + at % 32
        }
    }
}

fn flip(image: &mut [u8], at: usize, random: &mut Random) {
    let before = image[at];
    while image[at] == before {
        image[at] = match random.below(5) {
            0 | 1 => before ^ (1 << random.below(8)),
            2 | 3 => random.byte(),
            _ => *random.pick(&[0x00, 0xff, 0xfe, 0x90, 0x10, 0x80]),
        };
    }
}

fn gat_bit(image: &[u8], g: Geometry, granule: usize) -> bool {
    image[g.start * 256 + granule / g.units] >> (granule % g.units) & 1 == 1
}

/// Whether nothing of a file was changed: its entries, their HIT bytes, the GAT bits of its granules; nor the directory's length.
fn untouched(file: &Known, before: &[u8], after: &[u8], g: Geometry) -> bool {
    let entry = |image: &[u8], slot: u8| image[entry_at(g, slot)..entry_at(g, slot) + 32].to_vec();
    let same =
        |slot: &u8| entry(before, *slot) == entry(after, *slot) && before[hit_at(g, *slot)] == after[hit_at(g, *slot)];
    file.slots.iter().all(same)
        && file.granules.iter().all(|&granule| gat_bit(before, g, granule) == gat_bit(after, g, granule))
        && before[length_at(g)] == after[length_at(g)]
}

/// Whether a fault names an entry of the file or a granule.
fn names(found: &FaultFound, file: &Known) -> bool {
    let entry = |slot: &u8| file.slots.contains(slot);
    found.told.fault.slot.as_ref().is_some_and(entry)
        || match &found.detail {
            Detail::AlsoIn { granules, .. } => granules.iter().any(|granule| file.granules.contains(granule)),
            Detail::SameName { lower } => entry(lower),
            _ => false,
        }
}

/// One damaged image, with everything that is promised of it.
fn one(sound: &Sound, random: &mut Random, flips: usize, used: bool) -> Figures {
    let (g, before) = (sound.disk.geometry(), sound.disk.image());
    let mut image = before.to_vec();
    for _ in 0..flips {
        let at = place(sound, random, used);
        flip(&mut image, at, random);
    }
    let as_damaged = image.clone();
    let damaged = Disk::new(image, g);

    // The first fault found is the library's.
    let faults = damaged.faults().unwrap();
    let told = damaged.check().err().map(|refusal| refusal.fault().unwrap());
    assert_eq!(faults.found.first().map(|found| found.told.fault), told);

    let mended = damaged.mend().unwrap();
    assert_eq!(damaged.image(), as_damaged, "the image is as it was");
    assert_eq!(mended.disk.check(), Ok(()));
    // The report has every byte that was changed, and the copy is the image with these changes. Before each step the first fault
    // found was the one that the library told: so the faults behind the first are held against the library too.
    let mut replayed = as_damaged.clone();
    for step in &mended.steps {
        let now = Disk::new(replayed.as_slice(), g).faults().unwrap();
        assert_eq!(now.found.first().map(|found| &found.told), Some(&step.told));
        for change in &step.changes {
            assert_eq!(replayed[change.image_byte], change.before);
            replayed[change.image_byte] = change.after;
        }
    }
    assert!(replayed == mended.disk.image(), "the copy is the image with the changes told");
    assert_eq!(mended.steps.is_empty(), told.is_none());

    let rescued = mended.rescue().unwrap();
    let mut figures = Figures {
        images: 1,
        consistent: told.is_none().into(),
        faults: faults.found.len(),
        steps: mended.steps.len(),
        most_steps: mended.steps.len(),
        files: sound.files.len(),
        dropped: mended.dropped.len(),
        ..Figures::default()
    };
    for file in sound.files.iter().filter(|file| untouched(file, before, damaged.image(), g)) {
        figures.untouched += 1;
        let slot = file.slots[0];
        match rescued.iter().find(|rescued| rescued.entry.slot() == slot) {
            Some(had) => {
                assert_eq!((had.entry.name(), &had.bytes), (file.name, &file.bytes));
                figures.untouched_doubtful += usize::from(!had.doubts.is_empty());
            }
            None => {
                let named = faults.found.iter().any(|found| names(found, file));
                assert!(named, "{} is lost, and no fault names it", file.name);
                let dropped = mended.dropped.iter().find(|dropped| dropped.slot == slot).expect("told as dropped");
                let other = Mended::with(&damaged, dropped).unwrap().expect("a copy in which it stays");
                let had = other.rescue().unwrap().into_iter().find(|had| had.entry.slot() == slot).unwrap();
                assert!(!had.doubts.is_empty() && had.bytes == file.bytes, "{} from another copy", file.name);
                figures.untouched_lost += 1;
            }
        }
    }
    for had in &rescued {
        let file = sound.files.iter().find(|file| file.name == had.entry.name());
        let same = file.is_some_and(|file| file.bytes == had.bytes);
        if !had.doubts.is_empty() {
            figures.doubtful += 1;
            figures.doubtful_as_before += usize::from(same);
            continue;
        }
        figures.rescued += 1;
        if same {
            figures.as_before += 1;
            continue;
        }
        let slot = had.entry.slot();
        let size_bytes = [0x03, 0x14, 0x15].map(|byte| entry_at(g, slot) + byte);
        let size_changed = size_bytes.iter().any(|&at| before[at] != as_damaged[at]);
        let common = file.map_or(0, |file| file.bytes.len().min(had.bytes.len()));
        if file.is_some_and(|file| size_changed && file.bytes[..common] == had.bytes[..common]) {
            figures.size_changed += 1;
            continue;
        }
        // Its own entries were changed so that no rule is broken: nothing on the disk tells it.
        let was = sound.files.iter().find(|file| file.slots[0] == slot);
        let own = was.map_or(vec![slot], |file| file.slots.clone());
        let changed = |slots: &[u8], mut bytes: std::ops::Range<usize>| {
            let differs =
                |slot: u8, byte: usize| before[entry_at(g, slot) + byte] != as_damaged[entry_at(g, slot) + byte];
            bytes.any(|byte| slots.iter().any(|&slot| differs(slot, byte)))
        };
        let told = faults.files.iter().any(|file| file.slot == slot && file.touched);
        let (name, runs) = (changed(&[slot], 0x05..0x10), changed(&own, 0x16..0x20));
        assert!((name || runs) && !told, "{} is not as before, without a doubt: {:?}", had.entry.name(), faults.found);
        match was.is_some_and(|file| file.bytes == had.bytes) {
            true => figures.silent_name += 1,
            false => figures.silent_runs += 1,
        }
    }
    for dropped in &mended.dropped {
        let Some(other) = Mended::with(&damaged, dropped).unwrap() else { continue };
        figures.dropped_had_otherwise += 1;
        assert_eq!(other.disk.check(), Ok(()));
        let doubtful = other.doubtful.iter().any(|doubtful| doubtful.slot == dropped.slot);
        assert!(doubtful, "{} was dropped for another file, and stays without a doubt", dropped.name);
    }
    figures
}

#[test]
fn ten_thousand_damaged_disks() {
    let columns: Vec<(usize, bool)> = FLIPS.into_iter().flat_map(|flips| [(flips, false), (flips, true)]).collect();
    let each = IMAGES.div_ceil(columns.len());
    let sounds: Vec<Sound> =
        (0..40).map(|seed| Sound::new(SHAPES[seed % SHAPES.len()], &mut Random::new(seed as u64))).collect();
    let scattered = sounds.iter().flat_map(|sound| &sound.files).filter(|file| file.slots.len() > 1).count();
    assert!(scattered > 40, "{scattered} files with extensions");
    let workers = 2;
    let mut totals = vec![Figures::default(); columns.len()];
    std::thread::scope(|scope| {
        let running: Vec<_> = (0..workers)
            .map(|worker| {
                let (columns, sounds) = (&columns, &sounds);
                scope.spawn(move || {
                    let mut figures = vec![Figures::default(); columns.len()];
                    for (column, &(flips, used)) in columns.iter().enumerate() {
                        for number in (worker..each).step_by(workers) {
                            let mut random = Random::new((number * columns.len() + column) as u64 ^ 0x6d65_6e64);
                            let sound = &sounds[number % sounds.len()];
                            figures[column].add(&one(sound, &mut random, flips, used));
                        }
                    }
                    figures
                })
            })
            .collect();
        for worker in running {
            for (total, figures) in totals.iter_mut().zip(worker.join().expect("no image fails")) {
                total.add(&figures);
            }
        }
    });
    let mut table =
        String::from("\ndamaged disks: flips in the directory, of any byte or of one that means something\n");
    table += &format!("{:54}", "");
    for (flips, used) in &columns {
        table += &format!("{:>9}", format!("{} {flips}", if *used { "used" } else { "any" }));
    }
    let mut all = Figures::default();
    totals.iter().for_each(|total| all.add(total));
    table += &format!("{:>9}\n", "all");
    for (words, figure) in ROWS {
        table += &format!("{words:54}");
        for total in totals.iter().chain([&all]) {
            table += &format!("{:>9}", figure(total));
        }
        table.push('\n');
    }
    // Past the capture of the test's output, so that the figures are seen in each run.
    std::io::stdout().write_all(table.as_bytes()).unwrap();
    assert!(all.images >= IMAGES);
    assert!(
        all.consistent < all.images / 2 && all.as_before > all.files / 2,
        "the damage is neither too little nor too much"
    );
}
