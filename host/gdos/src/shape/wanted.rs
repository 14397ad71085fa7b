//! What the options say of a geometry.

use super::words::named;
use crate::args::{Args, Spec};
use genie_dos::search::Known;

/// What the help calls these options.
pub const TITLE: &str = "Geometry";

/// Options that state the geometry.
pub const OPTIONS: &[Spec] = &[
    Spec {
        long: "preset",
        short: Some(b'p'),
        value: Some("NAME"),
        help: "blocks, units and start of a known kind of disk (below)",
    },
    Spec { long: "blocks", short: None, value: Some("N"), help: "blocks of the disk, 1 to 192" },
    Spec { long: "units", short: None, value: Some("N"), help: "units (granules) in a block, 1 to 8" },
    Spec {
        long: "start",
        short: None,
        value: Some("SECTOR"),
        help: "the directory's first sector, a multiple of a granule's sectors",
    },
    Spec {
        long: "open-code",
        short: None,
        value: Some("CODE"),
        help: "the password code that stands for \"no password\" (4296H)",
    },
    Spec {
        long: "data-disk",
        short: None,
        value: None,
        help: "a data disk: only slots 00H and 01H are kept, so that it takes 30 files more",
    },
    Spec {
        long: "granule",
        short: None,
        value: Some("SECTORS"),
        help: "sectors in a granule, 5, 10 or 20 (5; of a hard disk 10 or 20)",
    },
];

/// The same for two images: the second's own options end in 2.
pub const OPTIONS_OF_TWO: &[Spec] = &[
    OPTIONS[0],
    OPTIONS[1],
    OPTIONS[2],
    OPTIONS[3],
    OPTIONS[4],
    OPTIONS[5],
    OPTIONS[6],
    Spec {
        long: "preset2",
        short: None,
        value: Some("NAME"),
        help: "of the second image: its own numbers, where they are others",
    },
    Spec { long: "blocks2", short: None, value: Some("N"), help: "of the second image" },
    Spec { long: "units2", short: None, value: Some("N"), help: "of the second image" },
    Spec { long: "start2", short: None, value: Some("SECTOR"), help: "of the second image" },
    Spec { long: "open-code2", short: None, value: Some("CODE"), help: "of the second image" },
    Spec { long: "data-disk2", short: None, value: None, help: "of the second image" },
    Spec { long: "granule2", short: None, value: Some("SECTORS"), help: "of the second image" },
];

/// The option of those commands that change an image.
pub const SEARCH: Spec =
    Spec { long: "search", short: None, value: None, help: "change the disk under the geometry that the search finds" };

/// What the user says of the geometry by options; what is left open is stated elsewhere or searched.
#[derive(Clone, Copy, Debug)]
pub struct Wanted {
    /// What is said.
    pub known: Known,
    /// What the options that state it end in.
    pub suffix: &'static str,
}

impl Wanted {
    /// From the options. A single option goes before the preset's number.
    pub fn from_args(args: &Args) -> Result<Wanted, String> {
        Wanted { known: Known::default(), suffix: "" }.stated(args)
    }

    /// Of the second of two images: from its own options, which end in 2; where they say nothing the others hold for both.
    pub fn second_from_args(args: &Args) -> Result<Wanted, String> {
        Wanted { suffix: "2", ..Wanted::from_args(args)? }.stated(args)
    }

    /// What the options with the suffix say, and otherwise what is said already.
    fn stated(self, args: &Args) -> Result<Wanted, String> {
        let option = |name: &str| format!("{name}{}", self.suffix);
        let mut known = self.known;
        if let Some(name) = args.value(&option("preset")) {
            let preset = named(&name.to_string_lossy())?;
            known.blocks = Some(preset.blocks);
            known.units = Some(preset.units);
            known.start = Some(preset.start);
            known.granule_sectors = Some(preset.granule_sectors);
        }
        known.blocks = args.number(&option("blocks"))?.or(known.blocks);
        known.units = args.number(&option("units"))?.or(known.units);
        known.start = args.number(&option("start"))?.or(known.start);
        known.granule_sectors = args.number(&option("granule"))?.or(known.granule_sectors);
        known.open_code = args.code(&option("open-code"))?.or(known.open_code);
        known.data_disk |= args.has(&option("data-disk"));
        Ok(Wanted { known, ..self })
    }
}
