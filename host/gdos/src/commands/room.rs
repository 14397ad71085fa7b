//! What is left on a disk for files: how many more its directory takes, and why one does not fit.

use crate::text::counted;
use genie_dos::{Disk, Geometry, Name, Refusal, Slots};
use std::fmt;

/// How many files more a directory takes.
#[derive(Clone, Copy, Debug, PartialEq, Eq)]
pub struct More {
    /// As that of a system disk.
    pub system: usize,
    /// As that of a data disk.
    pub data: usize,
}

impl More {
    /// Of a consistent disk.
    pub fn of(disk: &Disk) -> Result<More, Refusal> {
        Ok(More { system: slots_as(disk, true)?.free, data: slots_as(disk, false)?.free })
    }

    /// Under the geometry stated first, then as the other kind of disk.
    pub fn told(self, geometry: Geometry) -> String {
        let More { system, data } = self;
        match geometry.system_disk {
            true => format!("room for {system} more (as a data disk {data})"),
            false => format!("room for {data} more (as a system disk {system})"),
        }
    }
}

/// How many slots there are for files and how many of them are free, where a file found none.
pub fn slots_left(disk: &Disk) -> String {
    let system_disk = disk.geometry().system_disk;
    let (Slots { all, free, .. }, More { data, .. }) = match (disk.slots(), More::of(disk)) {
        (Ok(slots), Ok(more)) => (slots, more),
        _ => return "no slot for files is free".to_string(),
    };
    let left = format!("of {all} slots for files {free} {} free", if free == 1 { "is" } else { "are" });
    match system_disk && free < data {
        true => format!("{left}; of a data disk (--data-disk) {data} would be"),
        false => left,
    }
}

/// Slots that files may have on that kind of disk.
fn slots_as(disk: &Disk, system_disk: bool) -> Result<Slots, Refusal> {
    Disk::new(disk.image(), disk.geometry().with_system_disk(system_disk)).slots()
}

/// A growth that was refused for want of slots: how many runs it wants and how many there is room for.
#[derive(Clone, Copy, Debug, PartialEq, Eq)]
pub struct Runs {
    pub needed: usize,
    pub room: usize,
    /// The file has runs already.
    more: bool,
}

impl Runs {
    /// Of a file that wants so many granules more; none where fewer are free.
    pub fn of(disk: &Disk, name: &Name, granules: usize) -> Option<Runs> {
        let growth = disk.growth(name).ok()?;
        let more = disk.entries().ok()?.iter().any(|entry| entry.name() == *name && entry.granules() > 0);
        Some(Runs { needed: growth.runs_needed(granules)?, room: growth.room, more })
    }
}

impl fmt::Display for Runs {
    fn fmt(&self, f: &mut fmt::Formatter<'_>) -> fmt::Result {
        let what = if self.more { "more run" } else { "run" };
        write!(f, "it wants {} at least, and there is room for {}", counted(self.needed, what), self.room)
    }
}

#[cfg(test)]
mod tests {
    use super::*;
    use genie_dos::{Date, NewFile};

    fn counted(disk: &Disk, system: bool) -> Result<(usize, usize), Refusal> {
        slots_as(disk, system).map(|slots| (slots.all, slots.free))
    }

    #[test]
    fn slots_of_a_directory() {
        let geometry = Geometry::new(40, 2, 200, 0);
        for (sectors, all) in [(10, 32), (15, 72), (20, 112), (25, 152), (30, 192)] {
            let mut disk = Disk::blank(geometry, sectors, &[0]).unwrap();
            assert_eq!(counted(&disk, true), Ok((all, all)));
            assert_eq!(counted(&disk, false), Ok((all + 30, all + 30)));
            let new = NewFile::open(geometry, Date::new(1983, 10, 9));
            disk.create(&"A".parse().unwrap(), &new).unwrap();
            assert_eq!(counted(&disk, true), Ok((all, all - 1)));
            assert_eq!(More::of(&disk), Ok(More { system: all - 1, data: all + 30 - 1 }));
        }
    }
}
