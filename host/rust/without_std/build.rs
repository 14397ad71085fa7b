//! What genie-dos tells a package that stands on it (its `links` key): where `genie.h` is. The program starts in C's way.

use std::path::PathBuf;

fn main() {
    println!("cargo::rerun-if-changed=build.rs");
    let include = PathBuf::from(std::env::var_os("DEP_GENIE_INCLUDE").expect("genie-dos tells where the header is"));
    assert!(include.join("genie.h").is_file(), "{} has no genie.h", include.display());
    println!("cargo::rustc-link-lib=c");
}
