//! A geometry in words, as options to type and for `--json`.

use crate::json::Json;
use crate::text::counted;
use genie_dos::{Geometry, Preset};

/// The name of the preset that a geometry is of.
pub fn preset_of(geometry: Geometry) -> Option<&'static str> {
    Preset::of(geometry).map(|preset| preset.name)
}

/// The geometry of a preset's name.
pub fn named(name: &str) -> Result<Geometry, String> {
    let names = || Preset::ALL.iter().map(|preset| preset.name).collect::<Vec<_>>().join(", ");
    let found = Preset::named(name).map(|preset| preset.geometry);
    found.ok_or_else(|| format!("there is no preset {name:?}; there are {}", names()))
}

/// The options that state a geometry, with the preset that it is of: `--blocks 48 --units 3 --start 360 (preset dd40)`.
/// Those of a second image end in a suffix.
pub fn options(geometry: Geometry, suffix: &str) -> String {
    let preset = preset_of(geometry).map(|name| format!(" (preset {name})")).unwrap_or_default();
    options_alone(geometry, suffix) + &preset
}

/// The options alone.
pub fn options_alone(geometry: Geometry, suffix: &str) -> String {
    let Geometry { blocks, units, start, system_disk, granule_sectors, .. } = geometry;
    let data = if system_disk { String::new() } else { format!(" --data-disk{suffix}") };
    let granule = match is_usual(geometry) {
        true => String::new(),
        false => format!(" --granule{suffix} {granule_sectors}"),
    };
    format!("--blocks{suffix} {blocks} --units{suffix} {units} --start{suffix} {start}{granule}{data}")
}

/// Whether a granule has 5 sectors, which nobody has to say.
fn is_usual(geometry: Geometry) -> bool {
    geometry.granule_sectors == Geometry::GRANULE_SIZES[0]
}

/// What has to be said of its granules where they have not 5 sectors: ` with granules of 20 sectors`.
pub fn sized(geometry: Geometry) -> String {
    match is_usual(geometry) {
        true => String::new(),
        false => format!(" with granules of {} sectors", geometry.granule_sectors),
    }
}

/// So many granules in words; where they have not 5 sectors, how many they have: `1536 granules of 20 sectors`.
pub fn granules(geometry: Geometry, number: usize) -> String {
    let sized = match is_usual(geometry) {
        true => String::new(),
        false => format!(" of {} sectors", geometry.granule_sectors),
    };
    counted(number, "granule") + &sized
}

/// A geometry for `--json`.
pub fn json(geometry: Geometry) -> Json {
    Json::object([
        ("blocks", geometry.blocks.into()),
        ("units", geometry.units.into()),
        ("start", geometry.start.into()),
        ("open_code", geometry.open_code.into()),
        ("system_disk", geometry.system_disk.into()),
        ("granule_sectors", geometry.granule_sectors.into()),
        ("preset", preset_of(geometry).into()),
    ])
}

/// An image's length as it can be told: no more of it is read than one byte more than the largest has.
pub fn length(image_len: usize) -> String {
    match image_len > Geometry::MOST_BYTES {
        true => format!("more than {}", Geometry::MOST_BYTES),
        false => image_len.to_string(),
    }
}

/// What is wrong with a geometry that the library refuses for an image of this length.
pub fn fault(geometry: Geometry, image_len: usize) -> String {
    let Geometry { blocks, units, start, granule_sectors, .. } = geometry;
    let needed = match geometry.image_len() {
        Some(needed) => needed,
        None if !Geometry::GRANULE_SIZES.contains(&granule_sectors) => {
            return format!("a granule has 5, 10 or 20 sectors, not {granule_sectors}");
        }
        None => {
            let (most_blocks, most_units) = (Geometry::MOST_BLOCKS, Geometry::MOST_UNITS);
            return format!("a disk has 1 to {most_blocks} blocks of 1 to {most_units} units, not {blocks} of {units}");
        }
    };
    let disk = format!("a disk of {} of {}{}", counted(blocks, "block"), counted(units, "unit"), sized(geometry));
    match (needed / Geometry::SECTOR_BYTES).checked_sub(10) {
        None => format!("{disk} has no room for a directory of 10 sectors"),
        Some(last) if start % granule_sectors != 0 || start > last => {
            format!(
                "the directory of {disk} begins at a sector from 0 to {last} that is a multiple of {granule_sectors}, \
                 not at {start}"
            )
        }
        Some(_) => {
            let fits = |&size: &usize| geometry.with_granule_sectors(size).image_len() == Some(image_len);
            let other = Geometry::GRANULE_SIZES.into_iter().find(fits);
            let hint = other.map(|size| format!("; granules of {size} sectors would fit (--granule {size})"));
            format!("{disk} has {needed} bytes, the image {}{}", length(image_len), hint.unwrap_or_default())
        }
    }
}

#[cfg(test)]
mod tests {
    use super::*;

    #[test]
    fn says_what_is_wrong_with_a_geometry() {
        let fault = |blocks, units, start| fault(Geometry::new(blocks, units, start, 0), 40_960);
        assert_eq!(fault(193, 2, 80), "a disk has 1 to 192 blocks of 1 to 8 units, not 193 of 2");
        assert_eq!(fault(1, 1, 0), "a disk of 1 block of 1 unit has no room for a directory of 10 sectors");
        let start =
            "the directory of a disk of 16 blocks of 2 units begins at a sector from 0 to 150 that is a multiple of 5";
        assert_eq!(fault(16, 2, 81), format!("{start}, not at 81"));
        assert_eq!(fault(16, 2, 155), format!("{start}, not at 155"));
        assert_eq!(fault(16, 3, 80), "a disk of 16 blocks of 3 units has 61440 bytes, the image 40960");
        let hint = "; granules of 10 sectors would fit (--granule 10)";
        assert_eq!(fault(8, 2, 40), format!("a disk of 8 blocks of 2 units has 20480 bytes, the image 40960{hint}"));
    }

    #[test]
    fn says_what_is_wrong_with_larger_granules() {
        let fault = |start, size| fault(Geometry::new(8, 2, start, 0).with_granule_sectors(size), 40_960);
        assert_eq!(fault(40, 15), "a granule has 5, 10 or 20 sectors, not 15");
        assert_eq!(fault(40, 0), "a granule has 5, 10 or 20 sectors, not 0");
        let disk = "a disk of 8 blocks of 2 units with granules of 10 sectors";
        let start = format!("the directory of {disk} begins at a sector from 0 to 150 that is a multiple of 10");
        assert_eq!(fault(45, 10), format!("{start}, not at 45"));
        let disk = "a disk of 8 blocks of 2 units with granules of 20 sectors";
        let hint = "granules of 10 sectors would fit (--granule 10)";
        assert_eq!(fault(40, 20), format!("{disk} has 81920 bytes, the image 40960; {hint}"));
    }

    #[test]
    fn no_length_is_told_that_was_not_read() {
        let fault = |len| fault(Geometry::new(16, 2, 80, 0), len);
        assert_eq!(fault(7_864_320), "a disk of 16 blocks of 2 units has 40960 bytes, the image 7864320");
        assert_eq!(fault(7_864_321), "a disk of 16 blocks of 2 units has 40960 bytes, the image more than 7864320");
    }

    #[test]
    fn as_typed() {
        assert_eq!(options(Geometry::new(48, 3, 360, 0), ""), "--blocks 48 --units 3 --start 360 (preset dd40)");
        assert_eq!(options(Geometry::new(48, 3, 5, 0), "2"), "--blocks2 48 --units2 3 --start2 5");
        let hard = Geometry::new(192, 8, 15_360, 0).with_granule_sectors(20);
        assert_eq!(options(hard, ""), "--blocks 192 --units 8 --start 15360 --granule 20 (preset hd20)");
        let data = hard.with_granule_sectors(10).with_system_disk(false);
        assert_eq!(options(data, "2"), "--blocks2 192 --units2 8 --start2 15360 --granule2 10 --data-disk2");
    }
}
