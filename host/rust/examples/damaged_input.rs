//! One input of a fuzzer, read as a damaged disk: `damaged_input FILE`, or standard input; `damaged_input --seeds FOLDER` writes inputs
//! to begin with. The first byte picks a disk's shape, the others are its directory from the GAT on. `host/rust/fuzz/run` has AFL++ use it.

#[path = "../tests/common/mod.rs"]
mod common;

use common::{feed, Random, Sound, SHAPES};
use genie_dos::{Disk, Geometry};
use std::io::Read;
use std::path::Path;

fn main() {
    let words: Vec<String> = std::env::args().skip(1).collect();
    match words.iter().map(String::as_str).collect::<Vec<_>>().as_slice() {
        ["--seeds", folder] => seeds(Path::new(folder)),
        [file] => one(&std::fs::read(file).expect("an input")),
        _ => {
            let mut input = Vec::new();
            std::io::stdin().read_to_end(&mut input).expect("an input");
            one(&input);
        }
    }
}

fn one(input: &[u8]) {
    let Some((&shape, directory)) = input.split_first() else { return };
    let (geometry, _) = SHAPES[usize::from(shape) % SHAPES.len()];
    let mut image = vec![0; geometry.image_len().expect("a good geometry")];
    let place = &mut image[geometry.start * Geometry::SECTOR_BYTES..];
    let length = directory.len().min(place.len());
    place[..length].copy_from_slice(&directory[..length]);
    feed(&Disk::new(image.as_slice(), geometry), true);
}

/// Sound directories, as they are and with a few bytes changed.
fn seeds(folder: &Path) {
    for (number, shape) in SHAPES.into_iter().enumerate() {
        for damage in 0..4 {
            let mut random = Random::new((4 * number + damage) as u64);
            let sound = Sound::new(shape, &mut random);
            let from = shape.0.start * Geometry::SECTOR_BYTES;
            let mut input = vec![number as u8];
            input.extend(&sound.disk.image()[from..from + sound.sectors * Geometry::SECTOR_BYTES]);
            for _ in 0..4 * damage {
                let at = 1 + random.below(input.len() - 1);
                input[at] = random.byte();
            }
            std::fs::write(folder.join(format!("{number}-{damage}")), input).expect("written");
        }
    }
}
