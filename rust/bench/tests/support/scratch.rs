//! Folders to run programs in.

use std::fs;
use std::path::{Path, PathBuf};

/// The project's top folder.
pub fn top() -> PathBuf {
    Path::new(env!("CARGO_MANIFEST_DIR")).join("../..")
}

/// A new folder with a copy of the examples in it.
pub fn scratch(name: &str) -> PathBuf {
    let name = format!("{name}-{}", std::process::id());
    let folder = Path::new(env!("CARGO_TARGET_TMPDIR")).join(name);
    // It is there from an earlier run, or not.
    let _ = fs::remove_dir_all(&folder);
    let examples = folder.join("examples");
    fs::create_dir_all(&examples).expect("a scratch folder");
    for entry in fs::read_dir(top().join("examples")).expect("the examples") {
        let path = entry.expect("an example").path();
        let copy = examples.join(path.file_name().expect("its name"));
        fs::copy(&path, copy).expect("a copy");
    }
    folder
}
