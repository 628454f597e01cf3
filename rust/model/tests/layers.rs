//! The model's modules stand in layers, in the order of lib.rs.

use std::fs;
use std::path::Path;

/// The modules that lib.rs names, each with the number of its group.
fn layers(lib: &str) -> Vec<(&str, usize)> {
    let mut layer = 0;
    let mut found = Vec::new();
    for line in lib.lines() {
        layer += usize::from(line.is_empty());
        let name = line.strip_prefix("pub mod ");
        if let Some(name) = name.and_then(|rest| rest.strip_suffix(';')) {
            found.push((name, layer));
        }
    }
    found
}

/// The modules that a source names after `crate::`.
fn used(source: &str) -> Vec<&str> {
    let name = |rest: &'_ str| rest.find(|c: char| !c.is_alphanumeric() && c != '_');
    source
        .split("crate::")
        .skip(1)
        .map(|rest| &rest[..name(rest).unwrap_or(rest.len())])
        .collect()
}

#[test]
fn modules_use_lower_ones_alone() {
    let folder = Path::new(env!("CARGO_MANIFEST_DIR")).join("src");
    let read = |file: &str| fs::read_to_string(folder.join(file)).expect(file);
    let lib = read("lib.rs");
    let layers = layers(&lib);
    let mut uses = 0;
    for (name, layer) in &layers {
        for other in used(&read(&format!("{name}.rs"))) {
            let below = layers.iter().any(|(n, l)| *n == other && l < layer);
            assert!(below, "{name} uses {other}, which no group above it has");
            uses += 1;
        }
    }
    assert!(uses >= layers.len(), "only {uses} uses found");
}
