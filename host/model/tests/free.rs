//! Free space from the GAT alone (02 §5): cases by hand, on the model and on the linked library.

use genie_model::binding::libraries;
use genie_model::calls::Number;
use genie_model::fault::Kind;
use genie_model::geometry::{Geometry, SECTOR_BYTES};

/// An image of zeros but for these bytes of the GAT, and a HIT byte of an entry that is not in use: no consistent disk.
fn with_gat(g: &Geometry, gat: &[u8]) -> Vec<u8> {
    let mut image = vec![0; g.blocks * g.units * 1280];
    image[g.start * SECTOR_BYTES..][..gat.len()].copy_from_slice(gat);
    image[(g.start + 1) * SECTOR_BYTES] = 1;
    image
}

fn told(g: &Geometry, gat: &[u8], free: usize, longest: usize) {
    let image = with_gat(g, gat);
    for library in libraries() {
        let (mut a, mut b, mut c) = (7, 7, 7);
        assert_eq!(library.free(&image, g, &mut a, &mut b), 0, "{}", library.title());
        assert_eq!((a, b), (free, longest), "{}: {g:?} {gat:02X?}", library.title());
        let number = library.count(&image, g, &mut a, &mut b, &mut c);
        assert_eq!((number, c), (Kind::HitAgainstEntry as Number, 0), "{}: not consistent", library.title());
    }
}

fn three() -> Geometry {
    Geometry { blocks: 4, units: 3, start: 5, open_code: 0, system_disk: true, granule_sectors: 5 }
}

#[test]
fn all_and_nothing() {
    told(&three(), &[0, 0, 0, 0], 12, 12);
    told(&three(), &[7, 7, 7, 7], 0, 0);
    told(
        &Geometry { blocks: 192, units: 8, start: 0, open_code: 0, system_disk: true, granule_sectors: 5 },
        &[0],
        1536,
        1536,
    );
    told(
        &Geometry { blocks: 192, units: 8, start: 7670, open_code: 0, system_disk: true, granule_sectors: 5 },
        &[0xFF; 192],
        0,
        0,
    );
    told(
        &Geometry { blocks: 192, units: 1, start: 0, open_code: 0, system_disk: true, granule_sectors: 5 },
        &[0xFE; 192],
        192,
        192,
    );
}

#[test]
fn bits_past_the_last_unit_do_not_count() {
    // Bits 3 to 7 stand for no granule: neither clear nor set do they matter, nor do they cut a stretch.
    told(&three(), &[0xF8, 0xF8, 0xF8, 0xF8], 12, 12);
    told(&three(), &[0x07, 0xFF, 0x07, 0xFF], 0, 0);
    told(&three(), &[0xF9, 0x06, 0x00, 0x02], 8, 4);
}

#[test]
fn bytes_past_the_last_block_do_not_count() {
    told(&three(), &[7, 7, 7, 3, 0, 0, 0, 0], 1, 1);
    told(&three(), &[7, 7, 7, 3, 0xFF, 0xFF], 1, 1);
}

#[test]
fn a_stretch_goes_over_blocks() {
    // Granules 2 to 9: the last of block 0, blocks 1 and 2, the first of block 3.
    told(&three(), &[3, 0, 0, 6], 8, 8);
    // Granules 2 and 3, two blocks' edge.
    told(&three(), &[3, 6, 7, 7], 2, 2);
}

#[test]
fn the_first_and_the_last_stretch() {
    // At the beginning, at the end, and both alike.
    told(&three(), &[0, 7, 7, 7], 3, 3);
    told(&three(), &[7, 7, 7, 0], 3, 3);
    told(&three(), &[6, 7, 7, 1], 3, 2);
    told(&three(), &[4, 7, 7, 1], 4, 2);
    // The longest in the middle.
    told(&three(), &[2, 1, 4, 2], 8, 4);
}

#[test]
fn every_place_and_length() {
    // One stretch, wherever it lies, for every number of units.
    for units in 1..=8 {
        let g = Geometry { blocks: 16, units, start: 0, open_code: 0, system_disk: true, granule_sectors: 5 };
        for first in 0..16 * units {
            for end in first..=16 * units {
                let mut gat = [0xFF; 16];
                for granule in first..end {
                    gat[granule / units] &= !(1 << (granule % units));
                }
                let image = with_gat(&g, &gat);
                for library in libraries().into_iter().take(if first % 5 == 0 && end % 7 == 0 { 2 } else { 1 }) {
                    let (mut a, mut b) = (7, 7);
                    assert_eq!(library.free(&image, &g, &mut a, &mut b), 0);
                    assert_eq!((a, b), (end - first, end - first), "{}: {units} {first} {end}", library.title());
                }
            }
        }
    }
}

#[test]
fn refused() {
    let g = three();
    let image = with_gat(&g, &[0]);
    for library in libraries() {
        for (blocks, units, start) in
            [(3, 3, 5), (4, 3, 6), (4, 3, 55), (0, 3, 5), (4, 0, 5), (4, 9, 5), (6, 2, 60)]
        {
            let (mut a, mut b) = (7, 7);
            let g = Geometry { blocks, units, start, open_code: 0, system_disk: true, granule_sectors: 5 };
            assert_eq!(library.free(&image, &g, &mut a, &mut b), 1, "{}: {g:?}", library.title());
            assert_eq!((a, b), (0, 0));
        }
        assert_eq!(library.free(&image[1..], &g, &mut 7, &mut 7), 1);
    }
}
