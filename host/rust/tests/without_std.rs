//! That the crate needs no standard library: a program that has none is built over it, and run.

use std::path::Path;
use std::process::Command;

#[test]
fn a_program_without_std() {
    let folder = Path::new(env!("CARGO_MANIFEST_DIR")).join("without_std");
    let target = Path::new(env!("CARGO_TARGET_TMPDIR")).join("without_std");
    let cargo = std::env::var_os("CARGO").unwrap_or("cargo".into());
    let mut build = Command::new(cargo);
    build.args(["build", "--offline", "--locked", "--quiet", "--target-dir"]).arg(&target).current_dir(&folder);
    // The source is built, whatever this test was built with: the archive has been tried by all others.
    build.env_remove("GENIE_LIB_DIR").env_remove("CARGO_TARGET_DIR").env_remove("CARGO_BUILD_TARGET_DIR");
    let built = build.output().unwrap();
    assert!(built.status.success(), "{}", String::from_utf8_lossy(&built.stderr));
    let ran = Command::new(target.join("debug/genie-dos-without-std")).status().unwrap();
    assert_eq!(ran.code(), Some(0), "{ran:?}");
}
