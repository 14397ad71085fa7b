//! Where the archive is that Rattle made, for the build scripts that link it: `libgenie.a` in the folder that the
//! environment's GENIE_LIB_DIR names, else, with the feature `archive`, in `target/staticlib` of the repository. Otherwise
//! the library is `genie-source`, and no archive is looked for.

use std::env;
use std::path::PathBuf;

/// The folder of the archive; none if it is not asked for.
pub fn folder() -> Option<PathBuf> {
    println!("cargo::rustc-check-cfg=cfg(genie_archive)");
    println!("cargo::rerun-if-env-changed=GENIE_LIB_DIR");
    let crate_dir = PathBuf::from(env::var_os("CARGO_MANIFEST_DIR").expect("cargo tells the crate's folder"));
    // A relative GENIE_LIB_DIR counts from the crate's folder, as the default does.
    let dir = match env::var_os("GENIE_LIB_DIR") {
        Some(given) if !given.is_empty() => crate_dir.join(given),
        _ if env::var_os("CARGO_FEATURE_ARCHIVE").is_some() => crate_dir.join("../../target/staticlib"),
        _ => return None,
    };
    let dir = dir.canonicalize().unwrap_or(dir);
    println!("cargo::rerun-if-changed={}", dir.join("libgenie.a").display());
    Some(dir)
}

/// Has the archive in a folder linked in place of `genie-source`.
pub fn link(dir: &std::path::Path) {
    println!("cargo::rustc-link-search=native={}", dir.display());
    println!("cargo::rustc-link-lib=static=genie");
    println!("cargo::rustc-cfg=genie_archive");
}

/// The processor that an archive's first object is for, by cargo's name, if it is one of those two.
pub fn processor(archive: &[u8]) -> Option<&'static str> {
    let mut rest = archive.strip_prefix(b"!<arch>\n")?;
    loop {
        // A member: a header of 60 bytes with its size in decimal at 48, then its content, padded to an even length.
        let size: usize = std::str::from_utf8(rest.get(48..58)?).ok()?.trim().parse().ok()?;
        let content = rest.get(60..60 + size)?;
        if content.starts_with(b"\x7fELF") {
            return match content.get(18..20)? {
                [62, 0] => Some("x86_64"),
                [183, 0] => Some("aarch64"),
                _ => None,
            };
        }
        rest = rest.get(60 + size + size % 2..)?;
    }
}
