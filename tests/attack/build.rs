//! Links the static library that the environment names.

use std::path::Path;

fn main() {
    println!("cargo:rerun-if-env-changed=SOLFADRUS_LIB_DIR");
    let dir = std::env::var("SOLFADRUS_LIB_DIR")
        .expect("SOLFADRUS_LIB_DIR must name the directory that has libsolfadrus.a");
    let archive = Path::new(&dir).join("libsolfadrus.a");
    assert!(archive.is_file(), "{} is not there", archive.display());
    println!("cargo:rerun-if-changed={}", archive.display());
    println!("cargo:rustc-link-search=native={dir}");
    println!("cargo:rustc-link-lib=static=solfadrus");
}
