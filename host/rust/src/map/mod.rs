//! The granules of a disk as a picture: one cell a granule.
//!
//! # Interface
//!
//! - [`Disk::map`] gives a [`Map`] of any image under a geometry that the library allows, consistent or not. It is pure: image in,
//!   values out, no file is touched, so it serves the command line and the browser alike.
//! - [`Map::cells`] has a [`Cell`] for each granule, in the order of their numbers: `cells[n]` is granule n, in block
//!   n / units. A cell says what the granule [holds](Cell::holds), every [`Part`] of a run that names it (the file's slot, the
//!   run's number in the file, the place in the run), whether its GAT bit is set, and which faults mark it.
//! - [`Map::files`] has the files, each with a tag of one or two letters (A, B, .., AA) under which the cells show it.
//! - [`Map::faults`] has every fault, as [`Disk::faults`] finds them. A fault marks the granules that it names, and those
//!   of the directory in which its bytes stand ([`FaultFound::bytes`](crate::FaultFound::bytes)). [`Cell::faults`] are places in it.
//! - [`Map::label`] is what stands in a cell: `.` free, `#` reserved, `DIR` the directory, `A1` run 1 of the file with the tag A, `A*B`
//!   shared, `?1` run 1 of an extension in no file's chain. [`Map::words`] says a cell in a sentence.
//! - [`Map::svg`] draws it, as a [`Drawing`] asks: title, description and legend are in it; every cell is a
//!   `<g class="cell" data-granule="53" data-holds="file">` with a `<title>`, and has `data-fault="28"` (the kinds' numbers) where faults
//!   mark it. Nothing is told by colour alone, colours are light and text is dark, and no style or script is needed. What
//!   stands in it is escaped.
//! - [`markup_text`] escapes any text for XML and HTML.
//!
//! What is read off the image here is what the damaged reader reads ([`Disk::faults`]); on a consistent disk tests hold it
//! against the library's own calls.

mod cell;
mod svg;
mod words;

pub use cell::{Cell, Holds, Map, MappedFile, Part};
pub use svg::{markup_text, Drawing};

#[cfg(doc)]
use crate::Disk;
