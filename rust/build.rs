//! Links the proved library, `libnumolefays.a`, which `tools/build` writes to `target/staticlib`.
//!
//! Another folder: set `NUMOLEFAYS_ARCHIVE_DIR` to the whole path of the folder that holds the archive.

use std::path::PathBuf;

fn main() {
    println!("cargo:rerun-if-env-changed=NUMOLEFAYS_ARCHIVE_DIR");
    let folder = match std::env::var_os("NUMOLEFAYS_ARCHIVE_DIR") {
        Some(given) => PathBuf::from(given),
        None => PathBuf::from(std::env::var_os("CARGO_MANIFEST_DIR").unwrap()).join("../target/staticlib"),
    };
    let archive = folder.join("libnumolefays.a");
    println!("cargo:rerun-if-changed={}", archive.display());
    if !archive.is_file() {
        panic!("{} is not there: run `tools/build`, or set NUMOLEFAYS_ARCHIVE_DIR", archive.display());
    }
    let folder = folder.canonicalize().unwrap_or(folder);
    println!("cargo:rustc-link-search=native={}", folder.display());
    println!("cargo:rustc-link-lib=static=numolefays");
}
