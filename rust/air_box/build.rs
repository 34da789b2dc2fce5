//! Links `libair_box_c.a`: from `AIR_BOX_LIB`, or from where `tools/build_archive` writes it.

use std::{env, path::PathBuf, process};

fn main() {
    let here = PathBuf::from(env::var("CARGO_MANIFEST_DIR").expect("set by cargo"));
    let folder = env::var("AIR_BOX_LIB").map_or(here.join("../../target/staticlib"), PathBuf::from);
    let archive = folder.join("libair_box_c.a");
    println!("cargo:rerun-if-env-changed=AIR_BOX_LIB");
    println!("cargo:rerun-if-changed={}", archive.display());
    if !archive.is_file() {
        eprintln!("{} is missing: run tools/build_archive in the repository, or set AIR_BOX_LIB to the archive's folder", archive.display());
        process::exit(1);
    }
    println!("cargo:rustc-link-search=native={}", folder.display());
    println!("cargo:rustc-link-lib=static=air_box_c");
}
