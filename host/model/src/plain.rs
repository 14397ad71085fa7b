//! A disk as a plain list of named files.

use crate::directory::{directory_granules, directory_sectors, entry, files, owned};
use crate::geometry::Geometry;
use crate::names::Name;
use std::collections::BTreeMap;

/// "A file's attributes are its entry bytes 00, 01, 02, 04 and 10 to 13."
pub type Attributes = [u8; 8];
const ATTRIBUTE_PLACES: [usize; 8] = [0x00, 0x01, 0x02, 0x04, 0x10, 0x11, 0x12, 0x13];

#[derive(Clone, Debug, PartialEq, Eq)]
pub struct File {
    pub attributes: Attributes,
    pub bytes: Vec<u8>,
    pub granules: usize,
}

pub type Files = BTreeMap<Name, File>;

/// The files of a consistent disk. "the directory may itself be a file": the bytes of a system file
/// that owns directory granules are left out, since every call that writes the directory changes them.
pub fn files_of(image: &[u8], g: &Geometry) -> Files {
    let d = directory_sectors(image, g).expect("a consistent disk");
    let width = g.granule_bytes();
    let mut all = Files::new();
    for slot in files(image, g, d) {
        let e = entry(image, g, slot);
        let granules = owned(image, g, d, slot);
        let mut bytes: Vec<u8> =
            granules.iter().flat_map(|&at| &image[at * width..(at + 1) * width]).copied().collect();
        bytes.truncate(e.size().expect("a consistent disk"));
        if granules.iter().any(|granule| directory_granules(g, d).contains(granule)) {
            bytes.fill(0);
        }
        let file = File { attributes: ATTRIBUTE_PLACES.map(|place| e.0[place]), bytes, granules: granules.len() };
        all.insert(e.name(), file);
    }
    all
}
