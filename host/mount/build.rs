//! Compiles the part in C, `src/fuse.c`, where pkg-config finds libfuse3. Where it does not, the program is built all the same, says what
//! is missing, and its operations are tested without the kernel.

use std::env;
use std::path::Path;
use std::process::Command;

fn main() {
    println!("cargo:rustc-check-cfg=cfg(libfuse)");
    println!("cargo:rerun-if-changed=build.rs");
    println!("cargo:rerun-if-changed=src/fuse.c");
    for variable in ["PKG_CONFIG", "PKG_CONFIG_PATH", "CC", "CFLAGS"] {
        println!("cargo:rerun-if-env-changed={variable}");
    }
    // Where libfuse3 comes in later, its file of pkg-config's does: this script is to run again then.
    for folder in ["/usr/lib/pkgconfig", "/usr/share/pkgconfig", "/usr/local/lib/pkgconfig"] {
        println!("cargo:rerun-if-changed={folder}");
    }
    let found = words("PKG_CONFIG", "pkg-config", &["--cflags", "fuse3"]);
    let libraries = words("PKG_CONFIG", "pkg-config", &["--libs", "fuse3"]);
    if let (Some(flags), Some(libraries)) = (found, libraries) {
        compile(&flags);
        println!("cargo:rustc-cfg=libfuse");
        for word in libraries {
            match (word.strip_prefix("-l"), word.strip_prefix("-L")) {
                (Some(library), _) => println!("cargo:rustc-link-lib={library}"),
                (_, Some(folder)) => println!("cargo:rustc-link-search=native={folder}"),
                _ => println!("cargo:rustc-link-arg={word}"),
            }
        }
    }
}

/// What a program of this name, or the one that a variable names, prints, word by word; none where it fails.
fn words(variable: &str, program: &str, arguments: &[&str]) -> Option<Vec<String>> {
    let program = env::var(variable).unwrap_or_else(|_| program.to_string());
    let output = Command::new(program).args(arguments).output().ok().filter(|output| output.status.success())?;
    Some(String::from_utf8(output.stdout).ok()?.split_whitespace().map(str::to_string).collect())
}

fn compile(flags: &[String]) {
    let out = env::var("OUT_DIR").expect("cargo names a folder");
    let object = Path::new(&out).join("fuse.o");
    let archive = Path::new(&out).join("libgdosfuse.a");
    let mut cc = Command::new(env::var("CC").unwrap_or_else(|_| "cc".to_string()));
    cc.args(["-std=gnu11", "-O2", "-g", "-Wall", "-Wextra", "-Wconversion", "-fPIC", "-c"]);
    run(cc.args(flags).args(["-o".as_ref(), object.as_os_str(), "src/fuse.c".as_ref()]));
    let _ = std::fs::remove_file(&archive);
    run(Command::new(env::var("AR").unwrap_or_else(|_| "ar".to_string())).arg("rcs").arg(&archive).arg(&object));
    println!("cargo:rustc-link-search=native={out}");
    println!("cargo:rustc-link-lib=static=gdosfuse");
}

fn run(command: &mut Command) {
    match command.status() {
        Ok(status) if status.success() => {}
        Ok(status) => panic!("{command:?} ended with {status}"),
        Err(e) => panic!("{command:?} could not be run: {e}"),
    }
}
