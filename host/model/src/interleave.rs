//! Demand 3: two lists of calls on two files, in any order of the two. Whenever all calls are accepted,
//! the named files are the same in the end, and so is what each call read; and if nothing is taken or
//! given back, the image is the same byte for byte.

use crate::calls::{Birth, Number, ACCEPTED};
use crate::directory::{directory_sectors, entry, files};
use crate::disks::{in_small_letters, random_name, Disk};
use crate::geometry::{Geometry, SECTOR_BYTES};
use crate::handle::{Handle, HANDLE_BYTES};
use crate::library::Library;
use crate::model::Model;
use crate::names::Name;
use crate::pairs::tell_all;
use crate::plain::{files_of, Files};
use crate::random::Random;

/// A call of a list. Handles are named by their number in the list: the list itself opened or created
/// them. "its positions and the bytes it writes are the list's own, fixed beforehand."
#[derive(Clone, Debug)]
pub enum Step {
    Open {
        length: usize,
        checking: bool,
        code: u16,
    },
    Create {
        birth: Birth,
    },
    LookUp,
    /// A position, if the caller sets one before the call.
    Read {
        by: usize,
        at: Option<u32>,
    },
    ReadSector {
        by: usize,
        k: usize,
    },
    Write {
        by: usize,
        at: Option<u32>,
        sequential: bool,
        bytes: Vec<u8>,
    },
    Allot {
        by: usize,
        k: usize,
    },
    Trim {
        by: usize,
    },
    Kill {
        by: usize,
    },
}

#[derive(Clone, Debug)]
pub struct List {
    /// As the caller gives it: "'Different names' in the third demand means different after folding" (02 §7).
    pub name: Name,
    pub steps: Vec<Step>,
}

/// How far a list has come.
#[derive(Clone, Debug, Default)]
struct Progress {
    handles: Vec<[u8; HANDLE_BYTES]>,
    /// What each call told of the file itself: level, bytes read; not slots, places, counts.
    told: Vec<Vec<u8>>,
}

impl Progress {
    fn handle(&mut self, by: usize, at: Option<u32>) -> &mut [u8; HANDLE_BYTES] {
        let handle = &mut self.handles[by];
        if let Some(position) = at {
            handle[4..8].copy_from_slice(&position.to_le_bytes());
        }
        handle
    }

    fn step(&mut self, library: &dyn Library, image: &mut [u8], g: &Geometry, name: &Name, step: &Step) -> Number {
        let mut told = Vec::new();
        let number = match step {
            Step::Open { length, checking, code } => {
                let mut handle = [0; HANDLE_BYTES];
                let number = library.open(image, g, name, *length, *checking, *code, &mut handle, &mut 0, &mut 0);
                told.push(handle[1]);
                self.handles.push(handle);
                number
            }
            Step::Create { birth } => {
                let (mut handle, mut old) = ([0; HANDLE_BYTES], 0);
                let number = library.create(image, g, name, birth, &mut old, &mut handle, &mut 0, &mut 0);
                told.extend([handle[1], old as u8]);
                self.handles.push(handle);
                number
            }
            Step::LookUp => library.look_up(image, g, name, &mut 0, &mut 0, &mut 0, &mut 0),
            Step::Read { by, at } => {
                let handle = self.handle(*by, *at);
                told = vec![0; Handle::read(handle).expect("19 bytes").length()];
                library.read_record(image, g, handle, &mut told, &mut 0)
            }
            Step::ReadSector { by, k } => {
                let (mut from, mut to) = (0, 0);
                let number = library.read_sector(image, g, self.handle(*by, None), *k, &mut from, &mut to, &mut 0);
                told.extend(&image[from..to]);
                number
            }
            Step::Write { by, at, sequential, bytes } => {
                library.write_record(image, g, self.handle(*by, *at), *sequential, bytes, &mut 0)
            }
            Step::Allot { by, k } => library.allot(image, g, self.handle(*by, None), *k, &mut 0),
            Step::Trim { by } => library.trim(image, g, self.handle(*by, None), &mut 0),
            Step::Kill { by } => library.kill(image, g, self.handle(*by, None), &mut 0),
        };
        self.told.push(told);
        number
    }
}

/// What an interleaving came to.
pub struct Outcome {
    /// All calls were accepted.
    pub accepted: bool,
    /// No call changed the GAT or the HIT: nothing was taken or given back.
    pub quiet: bool,
    pub image: Vec<u8>,
    pub files: Option<Files>,
    pub told: [Vec<Vec<u8>>; 2],
    /// The number of each call up to the first refusal.
    pub numbers: Vec<Number>,
}

/// Performs two lists in an order: false takes the next call of the first list, true of the second.
pub fn interleaved(library: &dyn Library, disk: &Disk, lists: [&List; 2], order: &[bool]) -> Outcome {
    let g = disk.g;
    let mut image = disk.image.clone();
    let mut progress = [Progress::default(), Progress::default()];
    let (mut quiet, mut numbers) = (true, Vec::new());
    let maps = g.start * SECTOR_BYTES..(g.start + 2) * SECTOR_BYTES;
    for &second in order {
        let (list, own) = (lists[second as usize], &mut progress[second as usize]);
        let step = &list.steps[own.told.len()];
        let before = image[maps.clone()].to_vec();
        let number = own.step(library, &mut image, &g, &list.name, step);
        quiet &= before == image[maps.clone()];
        numbers.push(number);
        if number != ACCEPTED {
            break;
        }
    }
    let accepted = numbers.iter().all(|&number| number == ACCEPTED);
    let [first, second] = progress;
    let files = accepted.then(|| files_of(&image, &g));
    Outcome { accepted, quiet, image, files, told: [first.told, second.told], numbers }
}

/// An order of the two lists.
pub fn random_order(random: &mut Random, lists: [&List; 2]) -> Vec<bool> {
    let mut order = vec![false; lists[0].steps.len()];
    order.extend(vec![true; lists[1].steps.len()]);
    random.shuffle(&mut order);
    order
}

/// A list on one file that is accepted if it runs alone: most orders then accept it too. `quiet` leaves
/// out what takes or gives back.
pub fn random_list(random: &mut Random, disk: &Disk, name: Name, steps: usize, quiet: bool) -> List {
    let g = disk.g;
    let mut image = disk.image.clone();
    let mut list = List { name, steps: Vec::new() };
    let mut progress = Progress::default();
    let maps = g.start * SECTOR_BYTES..(g.start + 2) * SECTOR_BYTES;
    for _ in 0..40 * steps {
        if list.steps.len() == steps {
            break;
        }
        let step = random_step(random, &image, &g, disk, &progress);
        let (mut trial, mut after) = (image.clone(), progress.clone());
        let number = after.step(&Model, &mut trial, &g, &name, &step);
        if number == ACCEPTED && !(quiet && trial[maps.clone()] != image[maps.clone()]) {
            list.steps.push(step);
            (image, progress) = (trial, after);
        }
    }
    list
}

fn random_step(random: &mut Random, image: &[u8], g: &Geometry, disk: &Disk, progress: &Progress) -> Step {
    let handles = progress.handles.len();
    if handles == 0 || random.percent(12) {
        return match random.within(0, 5) {
            0 => Step::LookUp,
            1 | 2 => {
                let length = random.within(1, 256);
                Step::Open { length, checking: random.percent(50), code: *random.pick(&disk.codes) }
            }
            _ => Step::Create {
                birth: Birth {
                    day: random.within(0, 31),
                    month: random.within(0, 15),
                    year: random.within(0, 15),
                    length: random.within(1, 256),
                    main_code: *random.pick(&disk.codes),
                    worker_code: *random.pick(&disk.codes),
                    checking: random.percent(50),
                },
            },
        };
    }
    let by = random.within(0, handles - 1);
    let handle = Handle::read(&progress.handles[by]).expect("19 bytes");
    let d = directory_sectors(image, g).expect("a consistent disk");
    let size = if handle.is_stale(image, g, d) { 0 } else { entry(image, g, handle.slot).size().unwrap_or(0) };
    let at = |random: &mut Random, most: usize| match random.percent(70) {
        true => Some(random.within(0, most) as u32),
        false => None,
    };
    match random.within(0, 9) {
        0 | 1 => Step::Read { by, at: at(random, size) },
        2 => Step::ReadSector { by, k: random.within(0, size / SECTOR_BYTES) },
        3..=6 => Step::Write {
            by,
            at: at(random, size + 2 * g.granule_bytes()),
            sequential: random.percent(50),
            bytes: (0..handle.length()).map(|_| random.byte()).collect(),
        },
        7 => Step::Allot { by, k: size / SECTOR_BYTES + random.within(0, 30) },
        8 => Step::Trim { by },
        _ => match random.percent(40) {
            true => Step::Kill { by },
            false => Step::Trim { by },
        },
    }
}

/// What many interleavings came to.
#[derive(Debug, Default)]
pub struct Tally {
    pub pairs: usize,
    pub accepted: usize,
    pub refused: usize,
    /// Accepted interleavings in which nothing was taken or given back.
    pub quiet: usize,
    /// Accepted interleavings whose image differs from the first one's: the files agree all the same.
    pub other_image: usize,
}

const ORDERS: usize = 5;

/// Two random lists on a random disk in several orders, performed by a library.
pub fn demand_three(library: &dyn Library, seed: u64, tally: &mut Tally) -> Result<(), String> {
    let mut random = Random::new(seed);
    let disk = loop {
        let disk = crate::disks::random_disk(&mut random);
        if disk.g.granules() <= 400 {
            break disk;
        }
    };
    let d = directory_sectors(&disk.image, &disk.g).expect("a consistent disk");
    let mut names: Vec<Name> = files(&disk.image, &disk.g, d)
        .iter()
        .map(|&slot| entry(&disk.image, &disk.g, slot))
        .filter(|e| !e.is_system())
        .map(|e| e.name())
        .collect();
    random.shuffle(&mut names);
    names.truncate(random.within(0, 2));
    let system = |name: &Name| {
        files(&disk.image, &disk.g, d).iter().any(|&slot| {
            let e = entry(&disk.image, &disk.g, slot);
            e.is_system() && e.name() == *name
        })
    };
    while names.len() < 2 {
        let name = random_name(&mut random);
        if !names.contains(&name) && !system(&name) {
            names.push(name);
        }
    }
    // The files are those of the names above, however the lists give them.
    for name in &mut names {
        in_small_letters(&mut random, name);
    }
    let quiet = random.percent(30);
    let (first_steps, second_steps) = (random.within(1, 12), random.within(1, 12));
    let first = random_list(&mut random, &disk, names[0], first_steps, quiet);
    let second = random_list(&mut random, &disk, names[1], second_steps, quiet);
    let lists = [&first, &second];
    tally.pairs += 1;

    let mut orders = vec![
        [vec![false; first.steps.len()], vec![true; second.steps.len()]].concat(),
        [vec![true; second.steps.len()], vec![false; first.steps.len()]].concat(),
    ];
    for _ in 0..ORDERS {
        orders.push(random_order(&mut random, lists));
    }
    let mut agreed: Option<Outcome> = None;
    for order in &orders {
        let outcome = interleaved(library, &disk, lists, order);
        if !outcome.accepted {
            tally.refused += 1;
            continue;
        }
        tally.accepted += 1;
        tally.quiet += outcome.quiet as usize;
        let Some(before) = &agreed else {
            agreed = Some(outcome);
            continue;
        };
        let wrong = |what: &str| {
            Err(format!(
                "seed {seed}: {what} in the order {order:?} of\n  {first:02X?}\nand\n  {second:02X?}\non {:?}",
                disk.g
            ))
        };
        if outcome.files != before.files {
            return wrong("other files");
        }
        if outcome.told != before.told {
            return wrong("other answers");
        }
        // Request 02, §1: a disk whose calls were made in another order has no difference.
        let compared = tell_all(library, (&before.image, &disk.g), (&outcome.image, &disk.g));
        if compared != Ok(Vec::new()) {
            return wrong(&format!("compare tells {compared:02X?}"));
        }
        if outcome.quiet != before.quiet {
            return wrong("something is taken or given back");
        }
        if outcome.image != before.image {
            if outcome.quiet {
                return wrong("another image, though nothing was taken or given back");
            }
            tally.other_image += 1;
        }
    }
    Ok(())
}
