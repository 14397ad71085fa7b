//! A geometry written down: the file beside an image and the environment's variable.
//!
//! Words `key = value`, blanks and ends of lines between them; `#` begins a remark. A word alone is a preset's name. A key
//! that is not known is an error that names it: it may say something that this program would have to heed.

use super::words::named;
use crate::args::number;
use genie_dos::Geometry;

/// How a geometry is written, a line a key.
pub fn written(geometry: Geometry) -> String {
    let Geometry { blocks, units, start, open_code, system_disk, granule_sectors, .. } = geometry;
    // What a system disk's file says is what it said before there were data disks; and so of granules of 5 sectors.
    let data_disk = if system_disk { "" } else { "system_disk = no\n" };
    let granule = match granule_sectors == Geometry::GRANULE_SIZES[0] {
        true => String::new(),
        false => format!("{GRANULE} = {granule_sectors}\n"),
    };
    format!("blocks = {blocks}\nunits = {units}\nstart = {start}\nopen_code = {open_code:04X}H\n{data_disk}{granule}")
}

/// Keys that state a number.
const KEYS: [&str; 5] = ["blocks", "units", "start", "open_code", GRANULE];

/// The key that states how many sectors a granule has; without it, they are the preset's or 5.
const GRANULE: &str = "granule_sectors";

/// The key that states whether it is a system disk, `yes` or `no`; without it, it is.
const SYSTEM_DISK: &str = "system_disk";

/// The geometry that is written here, or what is wrong.
pub fn parse(text: &str) -> Result<Geometry, String> {
    let mut preset = None;
    let mut numbers = [None; KEYS.len()];
    let mut system_disk = None;
    let mut unknown = Vec::new();
    for (key, value) in pairs(text)? {
        let place = match key.as_str() {
            "preset" if preset.is_some() => return Err("it states the preset twice".to_string()),
            "preset" => {
                preset = Some(named(&value)?);
                continue;
            }
            SYSTEM_DISK if system_disk.is_some() => return Err(format!("it states {SYSTEM_DISK} twice")),
            SYSTEM_DISK => {
                system_disk = Some(match value.as_str() {
                    "yes" => true,
                    "no" => false,
                    _ => return Err(format!("{SYSTEM_DISK} is yes or, of a data disk, no, not {value:?}")),
                });
                continue;
            }
            key => KEYS.iter().position(|known| *known == key),
        };
        match place {
            None => unknown.push(key),
            Some(place) if numbers[place].is_some() => return Err(format!("it states {key} twice")),
            Some(place) => {
                let wrong = || format!("{key} wants a number, as 1440 or 5A0H, not {value:?}");
                numbers[place] = Some(number(&value).ok_or_else(wrong)?);
            }
        }
    }
    if !unknown.is_empty() {
        let known = KEYS.join(", ");
        return Err(format!(
            "this program does not know {}; it knows {known}, {SYSTEM_DISK} and preset",
            unknown.join(", ")
        ));
    }
    let [blocks, units, start, open_code, granule] = numbers;
    let missing = |key: &str| format!("it does not state {key}");
    let open_code = match open_code {
        None => Geometry::OPEN_CODE,
        Some(code) => u16::try_from(code).map_err(|_| "open_code has 16 bits, at most FFFFH".to_string())?,
    };
    let geometry = Geometry::new(
        blocks.or(preset.map(|p| p.blocks)).ok_or_else(|| missing("blocks"))?,
        units.or(preset.map(|p| p.units)).ok_or_else(|| missing("units"))?,
        start.or(preset.map(|p| p.start)).ok_or_else(|| missing("start"))?,
        open_code,
    );
    let granule = granule.or(preset.map(|p| p.granule_sectors)).unwrap_or(geometry.granule_sectors);
    Ok(geometry.with_system_disk(system_disk.unwrap_or(true)).with_granule_sectors(granule))
}

/// Keys and values as they stand there.
fn pairs(text: &str) -> Result<Vec<(String, String)>, String> {
    let lines = text.lines().map(|line| line.split('#').next().unwrap_or_default());
    let spaced: String = lines.map(|line| line.replace('=', " = ") + " ").collect();
    let mut words = spaced.split_whitespace().peekable();
    let mut pairs = Vec::new();
    while let Some(word) = words.next() {
        if word == "=" {
            return Err("a = stands without a key before it".to_string());
        }
        match words.next_if_eq(&"=") {
            None => pairs.push(("preset".to_string(), word.to_string())),
            Some(_) => match words.next().filter(|value| *value != "=") {
                Some(value) => pairs.push((word.to_string(), value.to_string())),
                None => return Err(format!("{word} has no value")),
            },
        }
    }
    Ok(pairs)
}

#[cfg(test)]
mod tests {
    use super::*;

    #[test]
    fn what_is_written_is_read() {
        for geometry in [Geometry::new(48, 3, 360, 0x4296), Geometry::new(1, 2, 0, 0), Geometry::new(192, 8, 3840, 7)] {
            assert_eq!(parse(&written(geometry)), Ok(geometry));
        }
        let data = Geometry::new(48, 3, 360, 7).with_system_disk(false);
        assert_eq!(parse(&written(data)), Ok(data));
        assert!(written(data).ends_with("\nsystem_disk = no\n"));
        assert_eq!(parse("dd40 system_disk=yes"), parse("dd40"));
        let hard = data.with_granule_sectors(20);
        assert_eq!(parse(&written(hard)), Ok(hard));
        assert!(written(hard).ends_with("\nsystem_disk = no\ngranule_sectors = 20\n"));
        assert_eq!(parse("dd40 granule_sectors=5"), parse("dd40"));
        assert_eq!(parse("hd20").map(|g| (g.start, g.granule_sectors)), Ok((15360, 20)));
        assert_eq!(parse("hd20 granule_sectors=10 start=0").map(|g| (g.start, g.granule_sectors)), Ok((0, 10)));
        assert_eq!(written(Geometry::new(48, 3, 360, 7)), "blocks = 48\nunits = 3\nstart = 360\nopen_code = 0007H\n");
    }

    #[test]
    fn other_ways_to_write_it() {
        let dd40 = Geometry::new(48, 3, 360, Geometry::OPEN_CODE);
        for text in [
            "dd40",
            "DD40\n",
            "preset=dd40",
            "preset = dd40 # of the shelf\n",
            "blocks=48 units=3 start=360",
            "start=168H\nunits =3\r\nblocks= 0x30\n",
            "# a remark = none\n\nblocks = 48\nunits = 3\nstart = 360\nopen_code = 4296H\n",
        ] {
            assert_eq!(parse(text), Ok(dd40), "{text}");
        }
        assert_eq!(parse("dd40 start=5 open_code=1"), Ok(Geometry::new(48, 3, 5, 1)));
    }

    #[test]
    fn what_is_wrong_is_named() {
        for (text, wrong) in [
            ("", "it does not state blocks"),
            ("blocks=48 start=5", "it does not state units"),
            ("blocks=48 units=3", "it does not state start"),
            ("dd40 color=5 granules=10", "this program does not know color, granules; "),
            ("dd40 system_disk=0", "system_disk is yes or, of a data disk, no, not \"0\""),
            ("dd40 system_disk=no system_disk=no", "it states system_disk twice"),
            (
                "dd40 Blocks=4",
                "this program does not know Blocks; it knows blocks, units, start, open_code, granule_sectors, system_disk and preset",
            ),
            ("dd40 sd40", "it states the preset twice"),
            ("blocks=1 blocks=1", "it states blocks twice"),
            ("dd40 granule_sectors=5 granule_sectors=5", "it states granule_sectors twice"),
            ("blocks=x", "blocks wants a number, as 1440 or 5A0H, not \"x\""),
            ("blocks=", "blocks has no value"),
            ("blocks = = 5", "blocks has no value"),
            ("= 5", "a = stands without a key before it"),
            ("dd40 open_code=10000H", "open_code has 16 bits"),
            ("floppy", "there is no preset \"floppy\""),
        ] {
            let told = parse(text).unwrap_err();
            assert!(told.starts_with(wrong), "{text}: {told}");
        }
    }
}
