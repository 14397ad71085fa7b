//! `gdos`: Genie-DOS disk images on the command line, over the proved library.

use std::io;
use std::process::ExitCode;

fn main() -> ExitCode {
    ExitCode::from(gdos::run(std::env::args_os().skip(1), &mut io::stdout().lock(), &mut io::stderr()))
}
