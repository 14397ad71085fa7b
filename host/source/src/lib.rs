//! The proved sources of `crates/`, compiled by rustc: those that `genie` stands on, with their contracts left out.
//!
//! The build script reads them and writes what this file includes; `README.md` says what it leaves out and adds. For Rust
//! programs `genie-dos` is the crate to use, for programs in C the library that `make -C host/c install` builds.

#![no_std]
// This file's only demands on the caller are those of `genie.h`.
#![allow(clippy::missing_safety_doc)]

// What the sources name by `std` is in `core` too; erase.rs knows which names.
extern crate core as std;

#[cfg(not(any(target_pointer_width = "64", all(target_pointer_width = "32", feature = "no-proof-covers-32-bits"))))]
compile_error!(
    "the proofs are of a usize of 64 bits, and this target has another: with 32 bits the feature \
     `no-proof-covers-32-bits` of genie-source compiles it all the same"
);

/// A module for each crate: the lines left.
#[cfg(any(target_pointer_width = "64", feature = "no-proof-covers-32-bits"))]
// What only programs call is dead here, and a parameter may be there for a contract alone.
#[allow(clippy::all, dead_code, improper_ctypes_definitions, non_snake_case, unused_imports, unused_variables)]
mod proved {
    include!(concat!(env!("OUT_DIR"), "/proved.rs"));
}

/// The exports under their C names, as `host/include/genie.h` declares them: a slice is a pointer and a length. What the
/// header asks of its callers is asked here.
#[cfg(any(target_pointer_width = "64", feature = "no-proof-covers-32-bits"))]
#[allow(clippy::too_many_arguments)]
mod exports {
    use super::proved::genie;
    include!(concat!(env!("OUT_DIR"), "/exports.rs"));
}

#[cfg(any(target_pointer_width = "64", feature = "no-proof-covers-32-bits"))]
pub use exports::*;
