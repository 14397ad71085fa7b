//! Anything at all, read as a damaged disk: nothing panics, everything ends, and a copy that is called mended passes the library's
//! check. `GENIE_RANDOM_SECONDS` lets it run longer than usual.

mod common;

use common::*;
use genie_dos::*;
use std::io::Write;
use std::time::{Duration, Instant};

/// A directory of bytes that mean something more often than chance would have it.
fn directory(image: &mut [u8], g: Geometry, random: &mut Random) {
    let sectors = *random.pick(&[10, 15, 20, 25, 30]);
    if !random.one_in(8) {
        image[length_at(g)] = (sectors - 10) as u8;
    }
    let density = 1 + random.below(8);
    let granules = g.blocks * g.units;
    for slot in slots(sectors) {
        let at = entry_at(g, slot);
        if at + 32 > image.len() {
            break;
        }
        let entry = &mut image[at..at + 32];
        if !random.one_in(density) {
            entry[0] &= !0x10;
            image[hit_at(g, slot)] = if random.one_in(20) { random.byte() } else { 0 };
            continue;
        }
        entry[0] = *random.pick(&[0x10, 0x10, 0x10, 0x90, 0x90, 0x50, 0x30, 0xd0]);
        let number = random.below(20);
        entry[5..16].copy_from_slice(format!("N{number:02}     DAT").as_bytes());
        let pairs = random.below(5);
        entry[0x16..0x20].fill(0xff);
        for pair in 0..pairs {
            let granule = random.below(granules);
            entry[0x16 + 2 * pair] = (granule / g.units) as u8;
            entry[0x17 + 2 * pair] =
                ((granule % g.units) << 5) as u8 | if random.one_in(4) { random.byte() & 3 } else { 0 };
        }
        entry[0x14] = random.below((g.granule_sectors * pairs + 2).min(256)) as u8;
        entry[0x15] = 0;
        entry[0x03] = if entry[0x14] > 0 { random.byte() } else { 0 };
        let link = *random.pick(&slots(sectors).collect::<Vec<u8>>());
        if pairs == 4 && !random.one_in(4) {
            entry[0x1e] = 0xfe;
            entry[0x1f] = link;
        }
        if entry[0] & 0x80 != 0 {
            entry[1] = *random.pick(&slots(sectors).collect::<Vec<u8>>());
        }
        if random.one_in(10) {
            entry[random.below(32)] = random.byte();
        }
        let name = Name::from_bytes(entry[5..16].try_into().unwrap());
        image[hit_at(g, slot)] = if random.one_in(10) { random.byte() } else { name.hash() };
    }
    // Links to extensions that point back, now that it is known which there are.
    for slot in slots(sectors) {
        let at = entry_at(g, slot);
        if at + 32 > image.len() || image[at + 0x1e] != 0xfe || random.one_in(3) {
            continue;
        }
        let back = entry_at(g, image[at + 0x1f]);
        if back + 32 <= image.len() && image[back] & 0x90 == 0x90 {
            image[back + 1] = slot;
        }
    }
}

fn geometry(random: &mut Random) -> (Geometry, usize) {
    let most = if random.one_in(6) { Geometry::MOST_BLOCKS } else { 30 };
    let (blocks, units) = (1 + random.below(most), 1 + random.below(8));
    let granules = blocks * units;
    let size = if random.one_in(2) { 5 } else { *random.pick(&Geometry::GRANULE_SIZES) };
    let start = size * random.below(granules);
    let odd = |random: &mut Random| *random.pick(&[0, 1, 5, 7, 193, 9999, usize::MAX, usize::MAX / 256, 1 << 60]);
    let mut g = Geometry::new(blocks, units, start, 0x4296).with_granule_sectors(size);
    let mut length = granules * size * 256;
    if random.one_in(20) {
        match random.below(5) {
            4 => g.granule_sectors = odd(random),
            0 => g.blocks = odd(random),
            1 => g.units = odd(random),
            2 => g.start = odd(random),
            _ => length = random.below(5000),
        }
    }
    (g, length)
}

#[test]
fn any_bytes_are_read_and_mended() {
    let seconds = std::env::var("GENIE_RANDOM_SECONDS").ok().and_then(|seconds| seconds.parse().ok());
    let end = Instant::now() + Duration::from_secs(seconds.unwrap_or(0));
    let seed = std::env::var("GENIE_RANDOM_SEED").ok().and_then(|seed| seed.parse().ok()).unwrap_or(1);
    let mut random = Random::new(seed);
    let (mut images, mut mended) = (0usize, 0usize);
    while images < 300 || Instant::now() < end {
        let (g, length) = geometry(&mut random);
        let mut image = match random.below(4) {
            0 => random.bytes(length),
            1 => vec![*random.pick(&[0x00, 0xff, 0xe5, 0x10, 0x90]); length],
            _ => vec![0; length],
        };
        let whole = g.image_len() == Some(length) && length / 256 >= g.start.saturating_add(10);
        if whole && !random.one_in(4) {
            directory(&mut image, g, &mut random);
            let gat = g.start * 256..g.start * 256 + g.blocks;
            match random.below(3) {
                0 => image[gat].fill(0xff),
                1 => image[gat].iter_mut().for_each(|byte| *byte = random.byte()),
                _ => {}
            }
        }
        let disk = Disk::new(image.as_slice(), g);
        for _ in 0..4 {
            let fault = Fault::new(*random.pick(&FaultKind::ALL), random.one_in(2).then(|| random.byte()));
            assert!(!disk.explain(fault).to_string().is_empty());
        }
        mended += usize::from(feed(&disk, random.one_in(8)));
        images += 1;
    }
    let figures = format!("\nany bytes: {images} images, of which {mended} had something to mend\n");
    std::io::stdout().write_all(figures.as_bytes()).unwrap();
    assert!(mended > images / 2);
}
