//! Finds the archive of the proved library, and has it linked.

use std::{env, path::PathBuf};

fn main() {
    println!("cargo:rerun-if-env-changed=BOZTERRUN_LIB");
    let folder = match env::var_os("BOZTERRUN_LIB") {
        Some(folder) => PathBuf::from(folder),
        None => PathBuf::from(env::var_os("CARGO_MANIFEST_DIR").unwrap_or_default()).join("../crates/bozterrun/out"),
    };
    let archive = folder.join("libbozterrun.a");
    println!("cargo:rerun-if-changed={}", archive.display());
    if !archive.is_file() {
        println!(
            "cargo::error={} is not there: make it with `rt lib` in crates/bozterrun of the repository, \
             or name its folder in BOZTERRUN_LIB.",
            archive.display()
        );
        return;
    }
    println!("cargo:rustc-link-search=native={}", folder.display());
    println!("cargo:rustc-link-lib=static=bozterrun");
}
