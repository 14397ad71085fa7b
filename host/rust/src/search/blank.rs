//! Whether the place of a known kind of disk looks like a directory without files: no name can speak for that one.

use super::slot::Slots;
use crate::{Geometry, Preset};
use core::ops::Range;

/// Slots that may be out of order, as one damaged byte leaves them.
const ODD: usize = 1;

/// A known kind of disk of the image's length whose directory, outside these sectors, seems to be there and empty: HIT and
/// entries are blank, but for one slot at most, and the GAT is not.
pub fn blank_elsewhere(image: &[u8], own: &Range<usize>) -> Option<Geometry> {
    let presets = Preset::ALL.iter().map(|preset| preset.geometry);
    let mut fitting = presets.filter(|geometry| geometry.image_len() == Some(image.len()));
    fitting.find(|geometry| {
        let apart = geometry.start + 10 <= own.start || own.end <= geometry.start;
        apart && looks_blank(image, *geometry)
    })
}

fn looks_blank(image: &[u8], geometry: Geometry) -> bool {
    let gat = geometry.start * Geometry::SECTOR_BYTES;
    let slots = Slots::at(image, geometry.start);
    let odd = (0..256).filter(|slot| slot % 32 < 8 && !slots.is_blank(*slot)).count();
    odd <= ODD && image[gat..gat + geometry.blocks].iter().any(|&byte| byte != 0)
}

#[cfg(test)]
mod tests {
    use super::*;
    use crate::Disk;

    #[test]
    fn an_empty_directory_is_seen() {
        for preset in Preset::ALL {
            let image = Disk::blank(preset.geometry, 15, &[0]).unwrap().into_image();
            let (start, found) = (preset.geometry.start, |own| blank_elsewhere(&image, &own).map(|g| g.start));
            assert_eq!(found(0..5), Some(start));
            assert_eq!(found(start..start + 15), None);
            for filler in [0, 0xe5, 0xff, 0x55] {
                assert_eq!(blank_elsewhere(&vec![filler; image.len()], &(0..5)), None);
            }
        }
    }

    #[test]
    fn one_damaged_byte_does_not_hide_it() {
        let geometry = Geometry::new(16, 2, 80, 0x4296);
        let image = Disk::blank(geometry, 10, &[0]).unwrap().into_image();
        for at in 80 * 256..90 * 256 {
            for damage in [0x01, 0x10, 0x77, 0xff] {
                let mut image = image.clone();
                image[at] ^= damage;
                assert_eq!(blank_elsewhere(&image, &(0..5)), Some(geometry), "byte {at}");
            }
        }
    }
}
