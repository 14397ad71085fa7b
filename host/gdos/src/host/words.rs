//! The command line's words as the host has them: bytes, text or not.

use std::ffi::{OsStr, OsString};
use std::os::unix::ffi::{OsStrExt, OsStringExt};

/// A word's bytes.
pub fn bytes_of(word: &OsStr) -> &[u8] {
    word.as_bytes()
}

/// The word of these bytes.
pub fn word_of(bytes: &[u8]) -> OsString {
    OsString::from_vec(bytes.to_vec())
}
