//! Links the static library that `tools/build.sh turning` writes; it needs nothing beside the C library.

use std::env;
use std::path::PathBuf;

fn main() {
    println!("cargo:rerun-if-env-changed=TURNING_LIB_DIR");
    if env::var_os("CARGO_FEATURE_PRODUCT").is_none() {
        return;
    }
    let crate_dir = PathBuf::from(env::var_os("CARGO_MANIFEST_DIR").expect("cargo sets it"));
    let lib_dir = match env::var_os("TURNING_LIB_DIR") {
        Some(dir) => PathBuf::from(dir),
        None => crate_dir.join("../target/staticlib"),
    };
    let archive = lib_dir.join("libturning.a");
    println!("cargo:rerun-if-changed={}", archive.display());
    if !archive.is_file() {
        eprintln!("{} is not there: run `tools/build.sh turning`,", archive.display());
        eprintln!("or set TURNING_LIB_DIR to its folder, or build the reference alone with --no-default-features");
        std::process::exit(1);
    }
    println!("cargo:rustc-link-search=native={}", lib_dir.display());
    println!("cargo:rustc-link-lib=static=turning");
}
