//! Finds libsolfadrus.a: in the directory that SOLFADRUS_LIB_DIR names, by an absolute path, or else where pkg-config
//! says.

use std::path::PathBuf;
use std::process::Command;

fn main() {
    for name in [
        "SOLFADRUS_LIB_DIR",
        "PKG_CONFIG",
        "PKG_CONFIG_PATH",
        "PKG_CONFIG_LIBDIR",
    ] {
        println!("cargo:rerun-if-env-changed={name}");
    }
    let directory = match std::env::var_os("SOLFADRUS_LIB_DIR") {
        Some(named) => absolute(named.into()),
        None => installed(),
    };
    let archive = directory.join("libsolfadrus.a");
    assert!(archive.is_file(), "{} is not there", archive.display());
    println!("cargo:rerun-if-changed={}", archive.display());
    println!("cargo:rustc-link-search=native={}", directory.display());
    println!("cargo:rustc-link-lib=static=solfadrus");
}

/// A build script is run in its package's folder, and is not told where cargo was: a relative path would be looked up
/// in a place that nobody meant.
fn absolute(named: PathBuf) -> PathBuf {
    assert!(
        named.is_absolute(),
        "SOLFADRUS_LIB_DIR must be an absolute path, and is {}",
        named.display()
    );
    named
}

/// The directory that the installed pkg-config file names, of this very version.
fn installed() -> PathBuf {
    let package = format!("solfadrus = {}", env!("CARGO_PKG_VERSION"));
    let program = std::env::var_os("PKG_CONFIG").unwrap_or_else(|| "pkg-config".into());
    let output = Command::new(&program)
        .args(["--print-errors", "--variable=libdir", &package])
        .output()
        .unwrap_or_else(|error| {
            panic!("SOLFADRUS_LIB_DIR is not set, and pkg-config does not start: {error}")
        });
    assert!(
        output.status.success(),
        "SOLFADRUS_LIB_DIR is not set, and pkg-config has no {package}: {}",
        String::from_utf8_lossy(&output.stderr)
    );
    let said = String::from_utf8(output.stdout).expect("pkg-config's answer is not UTF-8");
    PathBuf::from(said.trim_end())
}
