//! make_disk IMAGE    makes a small disk with a series of pulse readings on it
//!
//!     cargo run --offline -p genie-dos --example make_disk -- sample.img

use genie_dos::{Date, Disk, Kind, NewFile, Preset, Refusal};
use std::error::Error;

/// The image of a disk with one file, PULS01/DAT, of 300 readings of two bytes.
pub fn disk() -> Result<Vec<u8>, Refusal> {
    let preset = Preset::named("sample").expect("a preset");
    let mut disk = Disk::blank(preset.geometry, 10, &[0])?;
    let new = NewFile::open(preset.geometry, Date::new(1983, 10, 9)).with_record_length(2);
    let mut handle = disk.create(&"PULS01/DAT".parse().expect("a name"), &new)?.handle;
    for reading in 0..300u16 {
        let pulse = 72 + reading % 40;
        disk.write_record(&mut handle, Kind::Sequential, &pulse.to_le_bytes())?;
    }
    Ok(disk.into_image())
}

#[allow(dead_code)] // The tests have their own.
fn main() -> Result<(), Box<dyn Error>> {
    let image = std::env::args_os().nth(1).ok_or("make_disk IMAGE")?;
    std::fs::write(image, disk()?)?;
    Ok(())
}
