//! Random calls on two drives (02 §9): each is made of the model and of the library under test, and all that they answer and
//! leave must be alike.

use crate::caller::wild;
use crate::calls::{Birth, Number, ACCEPTED};
use crate::disks::{in_small_letters, random_name, Disk};
use crate::drives::{DRIVE_HANDLE_BYTES, NO_SUCH_DRIVE};
use crate::geometry::Geometry;
use crate::handle::HANDLE_BYTES;
use crate::library::Library;
use crate::model::Model;
use crate::plain::files_of;
use crate::random::Random;

/// Two images with their geometries, drive 0 first.
#[derive(Clone)]
pub struct Bench {
    pub images: [Vec<u8>; 2],
    pub g: [Geometry; 2],
}

/// All that a call answers, with the handle and the buffer as it leaves them.
#[derive(Clone, Debug, PartialEq, Eq)]
pub struct Answer {
    pub number: Number,
    pub outgoing: [usize; 6],
    pub handle: Vec<u8>,
    pub buffer: Vec<u8>,
}

/// A call with what it is given.
#[derive(Clone, Debug)]
pub struct Asked {
    pub operation: usize,
    pub drive: Option<usize>,
    pub name: Vec<u8>,
    pub birth: Birth,
    pub handle: Vec<u8>,
    pub sequential: bool,
    pub buffer: Vec<u8>,
    pub k: usize,
}

pub const OPERATIONS: usize = 9;

/// Makes a call; the two images are left in the bench.
pub fn made(library: &dyn Library, bench: &mut Bench, asked: &Asked) -> Answer {
    let (mut handle, mut buffer) = (asked.handle.clone(), asked.buffer.clone());
    let [mut a, mut b, mut c, mut d, mut e, mut f] = [usize::MAX; 6];
    let (numbered, drive) = (asked.drive.is_some(), asked.drive.unwrap_or(7));
    let [g0, g1] = &bench.g;
    let [image0, image1] = &mut bench.images;
    let (name, birth, k) = (&asked.name, &asked.birth, asked.k);
    let number = match asked.operation {
        0 => library.drives_look_up(
            image0, g0, image1, g1, numbered, drive, name, &mut a, &mut b, &mut c, &mut d, &mut e, &mut f,
        ),
        1 => library.drives_open(
            image0,
            g0,
            image1,
            g1,
            numbered,
            drive,
            name,
            birth.length,
            birth.checking,
            birth.main_code,
            &mut handle,
            &mut d,
            &mut e,
            &mut f,
        ),
        2 => library.drives_create(
            image0,
            g0,
            image1,
            g1,
            numbered,
            drive,
            name,
            birth,
            &mut a,
            &mut handle,
            &mut d,
            &mut e,
            &mut f,
        ),
        3 => library.drives_read_record(image0, g0, image1, g1, &mut handle, &mut buffer, &mut e, &mut f),
        4 => library.drives_read_sector(image0, g0, image1, g1, &handle, k, &mut a, &mut b, &mut c, &mut e, &mut f),
        5 => library.drives_write_record(
            image0,
            g0,
            image1,
            g1,
            &mut handle,
            asked.sequential,
            &buffer,
            &mut e,
            &mut f,
        ),
        6 => library.drives_allot(image0, g0, image1, g1, &handle, k, &mut e, &mut f),
        7 => library.drives_trim(image0, g0, image1, g1, &handle, &mut e, &mut f),
        _ => library.drives_kill(image0, g0, image1, g1, &handle, &mut e, &mut f),
    };
    Answer { number, outgoing: [a, b, c, d, e, f], handle, buffer }
}

/// So many random calls on two disks, on the model and the library; how many were accepted of each operation, and how many
/// named no drive.
pub fn random_calls(
    library: &dyn Library,
    random: &mut Random,
    disks: [&Disk; 2],
    calls: usize,
) -> Result<([usize; OPERATIONS], usize), String> {
    let g = disks.map(|disk| disk.g);
    let mut mine = Bench { images: disks.map(|disk| disk.image.clone()), g };
    let mut theirs = mine.clone();
    let names: Vec<Vec<u8>> = disks
        .iter()
        .flat_map(|disk| files_of(&disk.image, &disk.g).into_keys())
        .map(|name| name.to_vec())
        .collect();
    let (mut handles, mut accepted, mut no_drive) = (Vec::<Vec<u8>>::new(), [0; OPERATIONS], 0);
    for number in 0..calls {
        let mut name = match random.within(0, 5) {
            0 | 1 if !names.is_empty() => random.pick(&names).clone(),
            2 => vec![b'A' + random.within(0, 3) as u8; 11],
            3 => (0..random.within(9, 12)).map(|_| random.byte()).collect(),
            _ => random_name(random).to_vec(),
        };
        if random.percent(20) {
            in_small_letters(random, &mut name);
        }
        let mut handle: Vec<u8> = match handles.is_empty() || random.percent(20) {
            true => (0..DRIVE_HANDLE_BYTES + random.within(0, 3)).map(|_| random.byte()).collect(),
            false => random.pick(&handles).clone(),
        };
        match random.within(0, 19) {
            0 => handle.truncate(random.within(0, HANDLE_BYTES)),
            1 if handle.len() > HANDLE_BYTES => handle[HANDLE_BYTES] = random.within(0, 3) as u8,
            _ => {}
        }
        let birth = Birth {
            day: random.within(0, 32),
            month: random.within(0, 15),
            year: random.within(0, 15),
            length: *random.pick(&[1, 100, 256, 256, 257]),
            main_code: g[random.within(0, 1)].open_code,
            worker_code: 0,
            checking: random.percent(50),
        };
        let drive = match random.within(0, 9) {
            0..=4 => None,
            5..=8 => Some(random.within(0, 1)),
            _ => Some(wild(random)),
        };
        let buffer = (0..*random.pick(&[0, 100, 256, 256, 256])).map(|_| random.byte()).collect();
        let (operation, sequential) = (random.within(0, OPERATIONS - 1), random.percent(50));
        let asked = Asked { operation, drive, name, birth, handle, sequential, buffer, k: random.within(0, 12) };
        let (ours, other) = (made(&Model, &mut mine, &asked), made(library, &mut theirs, &asked));
        if ours != other || mine.images != theirs.images {
            return Err(format!("two drives, call {number}: {asked:02X?}\n  model {ours:?}\n  library {other:?}"));
        }
        if ours.number == ACCEPTED {
            accepted[operation] += 1;
            if matches!(operation, 1..=3 | 5) {
                handles.push(ours.handle);
            }
        }
        no_drive += usize::from(ours.number == NO_SUCH_DRIVE);
    }
    Ok((accepted, no_drive))
}
