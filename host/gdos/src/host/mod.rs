//! The host's files. None is ever left half written: a change goes to a copy beside the file, which is synced and then put
//! in its place by one renaming.

mod copy;
mod lock;
mod read;
mod same;
mod terminal;
mod words;
mod write;

pub use lock::Locked;
pub use read::{read, read_part, read_standard_input, read_text};
pub use same::same_file;
pub use terminal::is_terminal;
pub use words::{bytes_of, word_of};
pub use write::{make_folder, write, write_dated, Prepared};
