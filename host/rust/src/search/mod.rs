//! The search for an image's geometry. It judges by evidence: where a directory may begin, what speaks for it and what
//! against it; and it takes a geometry by itself only where nothing speaks for another.
//!
//! Nothing on a disk says how it is organized, and a disk may have been formatted twice, or keep a copy of a directory as a
//! file: that it is consistent under a geometry is not enough to read it so. [`Search::new`] weighs what the image shows, and
//! [`Search::geometry`] is the one that may be taken. Where there is none, the [verdict](Search::verdict) says why and the
//! [ranking](Search::ranking) what was found; then somebody has to state it. What is known already is told by [`Known`].
//!
//! ```
//! use genie_dos::search::{Known, Search, Verdict};
//! use genie_dos::{Date, Disk, NewFile, Preset};
//!
//! let preset = Preset::named("sample").unwrap();
//! let mut disk = Disk::blank(preset.geometry, 10, &[0])?;
//! // An empty disk: nothing speaks for it.
//! assert_eq!(Search::new(disk.image(), &Known::default()).geometry(), None);
//!
//! let name = "PULS01/DAT".parse().unwrap();
//! let mut handle = disk.create(&name, &NewFile::open(preset.geometry, Date::new(1983, 10, 9)))?.handle;
//! disk.write_record(&mut handle, genie_dos::Kind::Sequential, &[7; 256])?;
//! let search = Search::new(disk.image(), &Known::default());
//! assert_eq!(search.geometry(), Some(preset.geometry));
//! assert_eq!(search.ranking[0].evidence.names, 1);
//!
//! // A byte of the directory damaged: nothing is guessed.
//! let mut image = disk.into_image();
//! image[81 * 256 + 0x80] ^= 0xff;
//! assert_eq!(Search::new(&image, &Known::default()).verdict, Verdict::Damaged);
//! # Ok::<(), genie_dos::Refusal>(())
//! ```

mod blank;
mod evidence;
mod fit;
mod known;
mod ranking;
mod slot;
mod verdict;

pub use evidence::Evidence;
pub use known::Known;
pub use ranking::{Candidate, Reading};
pub use verdict::{stronger_elsewhere, Search, Verdict};
