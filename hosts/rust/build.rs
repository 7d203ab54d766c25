//! Links the static library of the proved calls, which `./build library`
//! writes. RL_LIBRARY_DIR names the folder that it is in.

use std::env;
use std::path::{Path, PathBuf};

fn main() {
    println!("cargo:rerun-if-env-changed=RL_LIBRARY_DIR");
    let here = env::var("CARGO_MANIFEST_DIR").expect("cargo sets it");
    let folder = env::var_os("RL_LIBRARY_DIR").map_or_else(
        || Path::new(&here).join("../../target/staticlib"),
        PathBuf::from,
    );
    let archive = folder.join("libin_place.a");
    if !archive.exists() {
        println!(
            "cargo:warning={} is not there: `./build library` writes it, or RL_LIBRARY_DIR names its folder",
            archive.display()
        );
    }
    println!("cargo:rerun-if-changed={}", archive.display());
    println!("cargo:rustc-link-search=native={}", folder.display());
    println!("cargo:rustc-link-lib=static=in_place");
}
