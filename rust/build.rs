//! Links the proved static library when the feature `proved` is on.

use std::env;
use std::path::PathBuf;

fn main() {
    println!("cargo::rerun-if-env-changed=RINGS_C_DIR");
    if env::var_os("CARGO_FEATURE_PROVED").is_none() {
        return;
    }
    let folder = archive_folder();
    let archive = folder.join("librings_c.a");
    println!("cargo::rerun-if-changed={}", archive.display());
    if !archive.is_file() {
        println!(
            "cargo::error={} is missing: build it by `rt lib` in crates/rings_c, \
             or leave the proved library out with `--no-default-features`",
            archive.display()
        );
        return;
    }
    println!("cargo::rustc-link-search=native={}", folder.display());
    println!("cargo::rustc-link-lib=static=rings_c");
}

/// `../crates/rings_c/out`, unless `RINGS_C_DIR` names another folder (used to try the tests on a faulty library).
fn archive_folder() -> PathBuf {
    let package = PathBuf::from(env::var_os("CARGO_MANIFEST_DIR").expect("cargo sets it"));
    match env::var_os("RINGS_C_DIR") {
        Some(folder) => PathBuf::from(folder),
        None => package.join("../crates/rings_c/out"),
    }
}
