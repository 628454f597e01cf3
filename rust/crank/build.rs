//! Finds the static libraries of the proved calls, or says what to run.

use std::env;
use std::path::{Path, PathBuf};

/// The libraries of the calls, and that of the program `crank`.
const CALLS: [&str; 2] = ["capi", "session"];
const PROGRAM: &str = "program";

/// The folder of the libraries: CAPI_DIR, or where `build.sh` puts them.
fn folder() -> PathBuf {
    println!("cargo::rerun-if-env-changed=CAPI_DIR");
    let package = env::var("CARGO_MANIFEST_DIR").expect("cargo sets CARGO_MANIFEST_DIR");
    let given = env::var("CAPI_DIR").unwrap_or_else(|_| "../../target/staticlib".to_string());
    // Joining keeps an absolute folder as it is.
    Path::new(&package).join(given)
}

/// The archive of a library, if it is there; else what to run.
fn archive(folder: &Path, name: &str) -> Option<PathBuf> {
    let archive = folder.join(format!("lib{name}.a"));
    println!("cargo::rerun-if-changed={}", archive.display());
    if archive.is_file() {
        return Some(archive);
    }
    println!(
        "cargo::error=the proved library {} is missing. In the project's top folder run \
         `sh build.sh {name}`, or `sh build.sh` for all; for libraries kept elsewhere set \
         CAPI_DIR to their folder, by its whole path.",
        archive.display()
    );
    None
}

fn main() {
    let folder = folder();
    println!("cargo::rustc-link-search=native={}", folder.display());
    for name in CALLS {
        if archive(&folder, name).is_some() {
            println!("cargo::rustc-link-lib=static:-bundle={name}");
        }
    }
    if let Some(found) = archive(&folder, PROGRAM) {
        println!("cargo::rustc-link-arg-bin=crank={}", found.display());
    }
}
