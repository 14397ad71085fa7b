//! The library is `genie-source`, unless the archive that Rattle made is asked for: then it is found and linked.

mod archive;

fn main() {
    println!("cargo::rerun-if-changed=build.rs");
    println!("cargo::rerun-if-changed=archive.rs");
    // For packages with C of their own that stand on this one (DEP_GENIE_INCLUDE): where genie.h is.
    let folder = std::env::var("CARGO_MANIFEST_DIR").expect("cargo tells the crate's folder");
    println!("cargo::metadata=include={folder}/../include");
    let Some(dir) = archive::folder() else { return };
    let library = dir.join("libgenie.a");
    let Ok(content) = std::fs::read(&library) else {
        println!("cargo::error=the archive of the proved library is not at {}", library.display());
        println!("cargo::error=build it by `make -C host/c archive` in the repository's root, or name its folder in GENIE_LIB_DIR");
        println!("cargo::error=without the feature `archive` and GENIE_LIB_DIR no archive is needed: rustc compiles the source");
        return;
    };
    let target = std::env::var("CARGO_CFG_TARGET_ARCH").expect("cargo tells the target");
    match archive::processor(&content) {
        Some(processor) if processor != target => {
            println!("cargo::error={} is for {processor}, but this build is for {target}", library.display());
            println!("cargo::error=leave out the feature `archive` and GENIE_LIB_DIR: rustc compiles the source for {target}");
        }
        _ => archive::link(&dir),
    }
}
