//! A disk that is not consistent: what is wrong with it, a mended copy, and the files that can be had.
//!
//! The library refuses such a disk. So everything here is read off the image outside the proved calls, and this is the one
//! module that does it: plain Rust, which could read wrongly. It holds to the library's word where it has one: the first
//! fault that is found here is the one that the library tells, a copy is mended only when the library's check accepts it,
//! and the files of the copy are read by the library.
//!
//! Any bytes and any geometry may be given; no place of the image is looked up that is not there.

mod choice;
mod detail;
mod doubt;
mod entry;
mod evidence;
mod faults;
mod length;
mod mend;
mod reading;
mod remedy;
mod rescue;
mod walks;

pub use detail::Detail;
pub use doubt::{Doubt, Doubtful};
pub use faults::{FaultFound, Faults, FileFound};
pub use mend::{Dropped, Mended, Step, Unmended};
pub use remedy::{ByteChange, Remedy};
pub use rescue::Rescued;

pub(crate) use faults::{first, read};
pub(crate) use reading::{place, Reading};
