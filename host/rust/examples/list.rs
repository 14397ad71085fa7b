//! list IMAGE [PRESET]    lists the files of a disk, under the geometry of a preset or the one that the search takes
//!
//!     cargo run --offline -p genie-dos --example list -- examples/series.img

use genie_dos::search::{Known, Search};
use genie_dos::{Disk, Preset};
use std::error::Error;

/// The list; or why there is none.
pub fn list(image: &[u8], preset: Option<&str>) -> Result<String, Box<dyn Error>> {
    let geometry = match preset {
        Some(name) => Preset::named(name).ok_or_else(|| format!("there is no preset {name}"))?.geometry,
        None => {
            let search = Search::new(image, &Known::default());
            search.geometry().ok_or_else(|| format!("say which preset it is: {:?}", search.verdict))?
        }
    };
    let disk = Disk::new(image, geometry);
    let mut text = String::new();
    for entry in disk.entries()?.iter().filter(|entry| !entry.is_system()) {
        text += &format!("{:<12} {:>7} bytes  {}\n", entry.name().to_string(), entry.size(), entry.date());
    }
    let space = disk.free_space()?;
    Ok(text + &format!("{} granules free, {} in the longest stretch\n", space.free, space.longest))
}

#[allow(dead_code)] // The tests have their own.
fn main() -> Result<(), Box<dyn Error>> {
    let mut words = std::env::args().skip(1);
    let image = words.next().ok_or("list IMAGE [PRESET]")?;
    print!("{}", list(&std::fs::read(image)?, words.next().as_deref())?);
    Ok(())
}
