use super::mend::{mend, Unmended};
use super::{Doubt, Dropped, Mended};
use crate::{Disk, Entry, Password, Refusal};
use alloc::vec::Vec;

/// A file that could be had of a damaged disk, read by the library from a mended copy.
#[derive(Clone, Debug, PartialEq, Eq)]
#[non_exhaustive]
pub struct Rescued {
    /// Its entry in the copy.
    pub entry: Entry,
    /// Its bytes.
    pub bytes: Vec<u8>,
    /// Why it may not be what it was; nothing of a file about which there is no doubt.
    pub doubts: Vec<Doubt>,
}

impl Mended {
    /// The files of the copy, system files included, by rising slot, read by the library.
    ///
    /// ```
    /// # use genie_dos::*;
    /// # let geometry = Geometry::new(16, 2, 80, 0x4296);
    /// # let mut disk = Disk::blank(geometry, 10, &[0])?;
    /// # let new = NewFile::open(geometry, Date::new(1983, 10, 9)).with_record_length(3);
    /// # for name in ["PULS01/DAT", "PULS02/DAT"] {
    /// #     let mut handle = disk.create(&name.parse().unwrap(), &new)?.handle;
    /// #     disk.write_record(&mut handle, Kind::Sequential, b"ABC")?;
    /// # }
    /// # let mut image = disk.into_image();
    /// image[82 * 256 + 128 + 0x1E] = 7; // the marker of slot 80H
    /// let files = Disk::new(image, geometry).mend()?.rescue()?;
    /// assert_eq!((files[0].entry.name().to_string(), files[0].bytes.as_slice()), ("PULS02/DAT".into(), &b"ABC"[..]));
    /// assert!(files[0].doubts.is_empty());
    /// # Ok::<(), Box<dyn std::error::Error>>(())
    /// ```
    pub fn rescue(&self) -> Result<Vec<Rescued>, Refusal> {
        let read = |entry: Entry| {
            let handle = self.disk.open(&entry.name(), 1, Password::Unchecked)?;
            let bytes = self.disk.contents(&handle)?;
            let doubtful = self.doubtful.iter().find(|doubtful| doubtful.slot == entry.slot());
            Ok(Rescued { entry, bytes, doubts: doubtful.map(|doubtful| doubtful.doubts.clone()).unwrap_or_default() })
        };
        self.disk.entries()?.into_iter().map(read).collect()
    }

    /// Another copy of the damaged disk, in which a dropped file stays where the choice was between it and another file. None if it
    /// cannot stay either way. Its own doubts then stand in the other copy.
    ///
    /// `damaged` is the disk that this copy was mended from.
    pub fn with<B: AsRef<[u8]>>(damaged: &Disk<B>, dropped: &Dropped) -> Result<Option<Mended>, Unmended> {
        let other = mend(damaged.image(), damaged.geometry(), Some(dropped.slot))?;
        Ok(other.dropped.iter().all(|again| again.slot != dropped.slot).then_some(other))
    }
}
