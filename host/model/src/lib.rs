//! Documents 01 and 02 as a plain model, and the tests that hold the library against it.
//!
//! The model is written from the documents alone, slowly and readably, one module a concept: it is a
//! second opinion on what they say, so it shares no line with the library or its proofs.
//! Beside it stand random disks, ways to damage them, random calls, and the binding of the library.

// The model: document 01, and the requests of document 02 that have landed.
pub mod bring_back;
pub mod calls;
pub mod consistency;
pub mod directory;
pub mod fault;
pub mod geometry;
pub mod handle;
pub mod names;
pub mod space;

// The model: request 02.
pub mod differences;
pub mod drives;
pub mod load;
pub mod plain;
pub mod play;

// The library under test: the table of its exports, which is the wrapper's and laid out under that crate's width of lines;
// the interface made of it; the model, the library and a recorder behind that interface.
#[rustfmt::skip]
#[macro_use]
#[path = "../../rust/src/sys.rs"]
mod sys;
#[macro_use]
pub mod library;
pub mod binding;
pub mod model;
pub mod record;

// Disks made by hand; disks and calls made up at random, and the comparison.
pub mod by_hand;
pub mod call;
pub mod caller;
pub mod compare;
pub mod damage;
pub mod disks;
pub mod effect;
pub mod interleave;
pub mod pairs;
pub mod random;
pub mod two_drives;
