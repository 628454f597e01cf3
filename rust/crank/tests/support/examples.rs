//! The images in `examples/`.

use crank::Machine;
use std::fs;
use std::path::Path;

/// Every example by its name, as a file and as a machine.
pub fn examples() -> Vec<(String, Vec<u8>, Machine)> {
    let folder = Path::new(env!("CARGO_MANIFEST_DIR")).join("../../examples");
    let mut found = Vec::new();
    for entry in fs::read_dir(folder).expect("the examples") {
        let path = entry.expect("an entry").path();
        if path.extension().is_some_and(|extension| extension == "img") {
            let file = fs::read(&path).expect("it can be read");
            let machine = Machine::load(&file).expect("it is an image");
            let name = path.file_name().expect("its name").to_string_lossy();
            found.push((name.into_owned(), file, machine));
        }
    }
    assert!(!found.is_empty(), "no examples");
    found
}
