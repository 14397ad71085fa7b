//! What the page calls: two functions over numbers. A string of bytes is passed by its place and its length. No room is given back: the
//! page has an instance of the module, and its memory, for one run.

use crate::{asked, packed};
use std::alloc::{alloc, Layout};

/// Room for so many bytes, which the page then writes and hands to [`run`].
#[no_mangle]
pub extern "C" fn room(length: usize) -> *mut u8 {
    match Layout::array::<u8>(length.max(1)) {
        // SAFETY: the layout has at least one byte.
        Ok(layout) => unsafe { alloc(layout) },
        Err(_) => std::ptr::null_mut(),
    }
}

/// Runs a command: takes a question, and answers with the place of four bytes, the answer's length, behind which the answer stands.
/// A question that is none is answered by no part at all.
///
/// # Safety
///
/// `at` and `length` are of one call of [`room`], whose bytes were written.
#[no_mangle]
pub unsafe extern "C" fn run(at: *const u8, length: usize) -> *mut u8 {
    let question = std::slice::from_raw_parts(at, length);
    let answer = asked(question).map(|asked| gdos::run_on(&asked.words, asked.files));
    let parts = answer.map(|answer| {
        let mut parts = vec![answer.status.to_string().into_bytes(), answer.out, answer.err];
        parts.extend(answer.written.into_iter().flat_map(|(name, bytes)| [name.into_bytes(), bytes]));
        parts
    });
    let whole = packed(&[packed(&parts.unwrap_or_default())]);
    let left = room(whole.len());
    if !left.is_null() {
        std::ptr::copy_nonoverlapping(whole.as_ptr(), left, whole.len());
    }
    left
}
