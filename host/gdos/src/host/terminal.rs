//! What standard output is.

use std::io::{stdout, IsTerminal};

/// Whether standard output is a terminal.
pub fn is_terminal() -> bool {
    stdout().is_terminal()
}
