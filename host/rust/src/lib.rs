//! Genie-DOS disks (TRSDOS family, 1983) for Rust programs: a safe wrapper over the proved library.
//!
//! A [`Disk`] is the bytes of an image together with its [`Geometry`]. Each call answers as the library does: done, or
//! refused with a [`Refusal`], and a refused call has changed nothing. Any bytes and any numbers may be given; the
//! library tests them in each call.
//!
//! The listing of a disk of 16 blocks of 2 units with two files:
//!
//! ```
//! use genie_dos::{Date, Disk, Geometry, Kind, NewFile, Password};
//!
//! let geometry = Geometry::new(16, 2, 80, 0x4296);
//! let mut disk = Disk::blank(geometry, 10, &[0])?;
//! let new = NewFile::open(geometry, Date::new(1983, 10, 9));
//!
//! // 257 bytes: a record of 256, then one of 1 byte through a second handle.
//! let name = "PULS01/DAT".parse().unwrap();
//! let mut handle = disk.create(&name, &new)?.handle;
//! disk.write_record(&mut handle, Kind::Sequential, &[0x55; 256])?;
//! let mut rest = disk.open(&name, 1, Password::Unchecked)?;
//! rest.set_position(handle.position());
//! disk.write_record(&mut rest, Kind::Sequential, &[0x55])?;
//!
//! disk.create(&"LEER".parse().unwrap(), &new)?;
//! assert_eq!(disk.listing()?, "FILES 2\nPULS01/DAT 257 1\nLEER 0 0\nFREE 28\n");
//! # Ok::<(), genie_dos::Refusal>(())
//! ```
//!
//! Two disks, in the drives 0 and 1, are [`Drives`]: its calls find which drive has a file.
//!
//! # Threads
//!
//! The library keeps nothing between calls and no call touches anything but what it is lent. So every type here is [`Send`] and
//! [`Sync`] (a `Disk<B>` as far as its bytes are): any number of threads may look at one disk, and change disks of their own. Two
//! threads that change one disk need a lock, which the compiler asks for: a change borrows the disk mutably.
//!
//! # Without the standard library
//!
//! The crate needs `core` and `alloc`. The feature `std`, on by default, makes the refusals errors of [`std::error::Error`] and brings
//! [`File`], a file as a stream; with `default-features = false` these are left out, and nothing else.
//!
//! # What may come
//!
//! Structs and enums of answers and refusals are `non_exhaustive`: a later library may tell more. What is handed in is made by a
//! function and altered by `with_...` ([`Geometry`], [`NewFile`], [`Drawing`]). What the documents close stays as it is: [`Date`], [`Run`],
//! [`Difference`], the records of a program ([`Loaded`], [`Piece`]) and the calls of a session ([`Trace`], [`Recorded`], [`Call`],
//! [`TracePlace`]).

#![no_std]
#![warn(missing_docs)]

#[macro_use]
extern crate alloc;
#[cfg(feature = "std")]
extern crate std;

// What `sys` declares, where the archive is not asked for (build.rs).
#[cfg(not(genie_archive))]
extern crate genie_source as _;

mod call;
mod damaged;
mod difference;
mod disk;
mod drives;
mod entry;
mod explain;
mod fault;
mod file;
mod geometry;
mod handle;
mod map;
mod name;
mod preset;
mod program;
mod refusal;
mod room;
pub mod search;
mod sys;
mod trace;

pub use damaged::{
    ByteChange, Detail, Doubt, Doubtful, Dropped, FaultFound, Faults, FileFound, Mended, Remedy, Rescued, Step,
    Unmended,
};
pub use difference::{Difference, Differences, RefusedImage, Which};
pub use disk::{BroughtBack, Counts, Created, Disk, FreeSpace, Kind, Listed, LookUp, NewFile, Password};
pub use drives::{DriveCreated, DriveHandle, DriveLookUp, DriveSector, DriveSlot, Drives, RefusedDrive};
pub use entry::{Date, Entry, Run};
pub use explain::Explained;
pub use fault::{Fault, FaultKind};
#[cfg(feature = "std")]
pub use file::File;
pub use geometry::Geometry;
pub use handle::Handle;
pub use map::{markup_text, Cell, Drawing, Holds, Map, MappedFile, Part};
pub use name::{BadName, Name};
pub use preset::Preset;
pub use program::{Loaded, Piece, Program, RefusedLoad, LOAD_BYTES};
pub use refusal::{Refusal, TracePlace};
pub use room::{Growth, Slots};
pub use trace::{Call, Recorded, Trace, Unpackable};
