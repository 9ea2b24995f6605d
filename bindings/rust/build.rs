//! Finds the static library `navic_c` and has it linked: in the directory that NAVIC_C_LIB names, else in
//! crates/navic_c/out of the repository, where `rt lib` is run first if it isn't there yet.

use std::path::{Path, PathBuf};
use std::process::{exit, Command};

const LIBRARY: &str = "libnavic_c.a";

fn main() {
    println!("cargo:rerun-if-env-changed=NAVIC_C_LIB");
    println!("cargo:rerun-if-changed=build.rs");
    let directory = match std::env::var_os("NAVIC_C_LIB") {
        Some(named) => given(PathBuf::from(named)),
        None => made(),
    };
    println!("cargo:rerun-if-changed={}", directory.join(LIBRARY).display());
    println!("cargo:rustc-link-search=native={}", directory.display());
    println!("cargo:rustc-link-lib=static=navic_c");
}

/// The directory that NAVIC_C_LIB names.
fn given(directory: PathBuf) -> PathBuf {
    if !directory.join(LIBRARY).is_file() {
        stop(&format!("NAVIC_C_LIB names {}, but there is no {LIBRARY} in it.", directory.display()));
    }
    directory.canonicalize().unwrap_or(directory)
}

/// The directory that `rt lib` writes to, with the library in it.
fn made() -> PathBuf {
    let crate_root = std::env::var_os("CARGO_MANIFEST_DIR").expect("cargo gives CARGO_MANIFEST_DIR");
    let folder = Path::new(&crate_root).join("../../crates/navic_c");
    let folder = folder.canonicalize().unwrap_or(folder);
    let directory = folder.join("out");
    if !directory.join(LIBRARY).is_file() {
        make(&folder);
        if !directory.join(LIBRARY).is_file() {
            stop(&format!("`rt lib` ended well, but {LIBRARY} is not in {}.", directory.display()));
        }
    }
    directory
}

fn make(folder: &Path) {
    match Command::new("rt").arg("lib").current_dir(folder).output() {
        Ok(ran) if ran.status.success() => {}
        Ok(ran) => {
            eprintln!("{}{}", String::from_utf8_lossy(&ran.stdout), String::from_utf8_lossy(&ran.stderr));
            stop(&format!("`rt lib` in {} failed ({}); what it said is above.", folder.display(), ran.status));
        }
        Err(error) => stop(&format!("`rt lib` could not be run in {}: {error}.", folder.display())),
    }
}

fn stop(why: &str) -> ! {
    eprintln!("navic: {why}");
    eprintln!("navic: This crate links the static library {LIBRARY}. Either run `rt lib` in crates/navic_c");
    eprintln!("navic: on a machine that has the kit, or set NAVIC_C_LIB to a directory that has {LIBRARY}.");
    exit(1);
}
