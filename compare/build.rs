//! Says where the library to compare with is: in the folder of the environment variable NAVIC_C_LIB, by
//! default ../crates/navic_c/out. Without it everything but the comparison itself still builds.

use std::path::PathBuf;

fn main() {
    let here = PathBuf::from(std::env::var("CARGO_MANIFEST_DIR").expect("set by cargo"));
    let folder = match std::env::var("NAVIC_C_LIB") {
        Ok(folder) => PathBuf::from(folder),
        Err(_) => here.join("../crates/navic_c/out"),
    };
    let file = folder.join("libnavic_c.a");
    println!("cargo:rustc-check-cfg=cfg(library)");
    println!("cargo:rerun-if-env-changed=NAVIC_C_LIB");
    println!("cargo:rerun-if-changed=build.rs");
    println!("cargo:rerun-if-changed={}", file.display());
    if file.exists() {
        println!("cargo:rustc-cfg=library");
        println!("cargo:rustc-link-search=native={}", folder.display());
    }
}
