//! Writes the proved sources that `genie` stands on, their contracts left out, as Rust: `erase.rs` says what that is.
//!
//! To OUT_DIR go, for each crate, `NAME.rs`, the lines that are left, and `NAME.left-out`, the others with their numbers;
//! `proved.rs`, a module for each crate with what has to be added; and `exports.rs`, the exports under their C names.

mod erase;

use std::env;
use std::fmt::Write;
use std::fs;
use std::path::{Path, PathBuf};
use std::process::exit;

/// The crate with the exports.
const TOP: &str = "genie";

fn main() {
    let told = |name: &str| PathBuf::from(env::var_os(name).expect("set by cargo"));
    let project = told("CARGO_MANIFEST_DIR").join("../..");
    let project = project.canonicalize().unwrap_or(project);
    match generate(&project, &told("OUT_DIR")) {
        Ok(looked_at) => {
            for path in ["build.rs", "erase.rs"].iter().map(PathBuf::from).chain(looked_at) {
                println!("cargo:rerun-if-changed={}", path.display());
            }
        }
        Err(why) => {
            eprintln!("{why}");
            exit(1);
        }
    }
}

fn read(path: &Path) -> Result<String, String> {
    fs::read_to_string(path).map_err(|why| format!("{}: {why}", path.display()))
}

fn write(path: &Path, text: &str) -> Result<(), String> {
    fs::write(path, text).map_err(|why| format!("{}: {why}", path.display()))
}

/// The one source file of a folder. Another beside it would be left unread.
fn source_in(folder: &Path) -> Result<PathBuf, String> {
    let found = fs::read_dir(folder).map_err(|why| format!("{}: {why}", folder.display()))?;
    for file in found {
        let path = file.map_err(|why| format!("{}: {why}", folder.display()))?.path();
        if path.file_name() != Some("lib.rt".as_ref()) {
            return Err(format!("{}:1: a source file beside lib.rt is not known", path.display()));
        }
    }
    Ok(folder.join("lib.rt"))
}

/// Writes all that is included, and tells what it was made from.
fn generate(project: &Path, to: &Path) -> Result<Vec<PathBuf>, String> {
    let list = project.join("crates.txt");
    let crates = erase::stands_on(&list.display().to_string(), &read(&list)?, TOP)?;
    let mut looked_at = vec![list.clone()];
    let (mut proved, mut exports) = (String::new(), String::new());
    for found in &crates {
        let name = &found.name;
        let folder = project.join("crates").join(name).join("src");
        let source = source_in(&folder)?;
        looked_at.push(folder);
        let erased = erase::erase(&source.display().to_string(), &read(&source)?)?;
        write(&to.join(format!("{name}.rs")), &erased.left)?;
        let out: String = erased.left_out.iter().map(|(number, line)| format!("{} {line}\n", number + 1)).collect();
        write(&to.join(format!("{name}.left-out")), &out)?;

        writeln!(proved, "pub mod {name} {{").unwrap();
        if !found.uses.is_empty() {
            writeln!(proved, "    use super::{{{}}};", found.uses.join(", ")).unwrap();
        }
        writeln!(proved, "    include!(concat!(env!(\"OUT_DIR\"), \"/{name}.rs\"));").unwrap();
        writeln!(proved, "}}").unwrap();

        for export in &erased.exports {
            if name != TOP {
                return Err(format!("{}: an export outside `{TOP}` is not known", export.place));
            }
            exports += &erase::shim(name, export)?;
        }
    }
    if exports.is_empty() {
        return Err(format!("{}: `{TOP}` exports nothing", list.display()));
    }
    write(&to.join("proved.rs"), &proved)?;
    write(&to.join("exports.rs"), &exports)?;
    Ok(looked_at)
}
