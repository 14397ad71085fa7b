//! `gdos`: Genie-DOS disk images on the command line, over the proved library.
//!
//! [`run`] is the whole program; the binary hands it its words and its two streams. Where there is no file system, as in a
//! browser, `run_on` hands it its files too (`host/web`). That build is by rustc 1.63, so what is not in `host` keeps to it.

mod args;
mod colour;
mod command;
mod commands;
mod damage;
mod date;
mod dump;
mod failure;
mod fault;
#[cfg(unix)]
pub mod held;
mod help;
#[cfg(unix)]
mod host;
mod json;
mod manual;
#[cfg(any(test, not(unix)))]
mod memory;
mod memory_image;
mod names;
mod page;
mod places;
mod program;
mod recording;
mod search;
mod shape;
mod shells;
mod stated;
mod tar;
mod text;

#[cfg(not(unix))]
use memory as host;
#[cfg(not(unix))]
pub use memory::{run_on, Answer};
pub use program::run;
