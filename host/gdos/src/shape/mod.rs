//! The geometry of an image: the kinds of disk that are known, what the options say of it, and how it is written down.

mod form;
mod wanted;
mod words;

pub use form::{parse, written};
pub use wanted::{Wanted, OPTIONS, OPTIONS_OF_TWO, SEARCH, TITLE};
pub use words::{fault, granules, json, length, options, options_alone, preset_of, sized};
