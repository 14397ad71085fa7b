//! The library under test is `genie-source`, unless the archive that Rattle made is asked for (`../rust/archive.rs` says
//! how). Where that is for another processor than this build, the bridge in `host/rust/bridge` is built around it and takes
//! its place.

#[path = "../rust/archive.rs"]
mod archive;

use std::path::{Path, PathBuf};
use std::process::Command;

const BRIDGE: &str = "../rust/bridge";

/// Builds the bridge around an archive of another processor; the text says what went wrong.
fn bridge(around: &Path, to: &Path) -> Result<(), String> {
    let done = Command::new("make")
        .args(["-s", "-C", BRIDGE])
        .arg(format!("DIR={}", to.display()))
        .arg(format!("LIBRARY={}", around.display()))
        .output()
        .map_err(|why| format!("make: {why}"))?;
    if done.status.success() {
        Ok(())
    } else {
        Err(String::from_utf8_lossy(&done.stderr).replace('\n', " "))
    }
}

fn main() {
    println!("cargo::rerun-if-changed=build.rs");
    println!("cargo::rerun-if-changed=../rust/archive.rs");
    println!("cargo::rerun-if-changed={BRIDGE}");
    let Some(mut dir) = archive::folder() else { return };
    let library = dir.join("libgenie.a");
    let Ok(content) = std::fs::read(&library) else {
        println!(
            "cargo::error=no archive to compare with at {}: `make -C host/c archive` writes it",
            library.display()
        );
        return;
    };
    let told = |name: &str| std::env::var(name).expect("set by cargo");
    if archive::processor(&content) != Some(told("CARGO_CFG_TARGET_ARCH").as_str()) {
        dir = PathBuf::from(told("OUT_DIR")).join("bridge");
        if let Err(why) = bridge(&library, &dir) {
            println!("cargo::error=no bridge to {}, nothing to compare with: {why}", library.display());
            return;
        }
    }
    archive::link(&dir);
}
