//! The examples: no warnings, and disassembled they read as their sources do.

use crank_assembler::{assemble, disassemble, Assembled};
use std::fs;
use std::path::{Path, PathBuf};

fn sources() -> Vec<PathBuf> {
    let folder = Path::new(env!("CARGO_MANIFEST_DIR")).join("../../examples");
    let files = fs::read_dir(folder).expect("the folder of examples");
    let mut found: Vec<PathBuf> = files
        .map(|file| file.expect("a file").path())
        .filter(|path| path.extension().is_some_and(|end| end == "qasm"))
        .collect();
    found.sort();
    assert!(!found.is_empty());
    found
}

fn assembled(source: &str) -> Assembled {
    assemble(source).unwrap_or_else(|e| panic!("{e}\n{source}"))
}

/// The branches of a source that are written as landings, and those written as jumps to a label.
fn branches(source: &str) -> (usize, usize) {
    let mut found = (0, 0);
    for line in source.lines() {
        let line = line.split(';').next().unwrap_or_default();
        let statement = line.split_once(':').map_or(line, |(_, rest)| rest).trim();
        if !["bra", "bez", "bnz"].contains(&statement.split(' ').next().unwrap_or_default()) {
            continue;
        }
        match statement.contains("from ") {
            true => found.0 += 1,
            false => found.1 += 1,
        }
    }
    found
}

#[test]
fn images_and_warnings() {
    for path in sources() {
        let source = fs::read_to_string(&path).expect("a text");
        let found = assembled(&source);
        assert_eq!(found.warnings, [], "{}", path.display());
        let image = fs::read(path.with_extension("img")).expect("its image");
        assert!(found.image == image, "{}", path.display());
    }
}

#[test]
fn disassembled() {
    let (mut landings, mut jumps) = (0, 0);
    for path in sources() {
        let image = fs::read(path.with_extension("img")).expect("its image");
        let source = disassemble(&image).expect("it loads");
        assert!(assembled(&source).image == image, "{source}");
        assert_eq!(assembled(&source).warnings, [], "{source}");
        let written = branches(&fs::read_to_string(&path).expect("a text"));
        assert_eq!(branches(&source), written, "{}", path.display());
        landings += written.0;
        jumps += written.1;
    }
    println!(
        "{} examples: {landings} landings, {jumps} jumps",
        sources().len()
    );
    assert!(landings > 0 && jumps > 0);
}

/// The labels of the hand-written loop, by address.
#[test]
fn the_loop_as_a_person_writes_it() {
    let folder = Path::new(env!("CARGO_MANIFEST_DIR")).join("../../examples");
    let image = fs::read(folder.join("loop.img")).expect("the image");
    let want = "\
; K 10, M 10, N 0
        start
        xori r1, 5
L2:     bnz  r2, from L7
L3:     bez  r1, L8
        add  r3, r1
        subi r1, 1
        addi r2, 1
L7:     bra  L2
L8:     bra  from L3
        finish
";
    assert_eq!(disassemble(&image).as_deref(), Ok(want));
}

#[test]
fn all_parts_of_a_source() {
    let source = "\
; K 4, M 15, N 2
        .preface \"coin 1\\n\"
        .preface \"\\xFF\\\"a\\\\\"
        start
        ld   r1, D4
        ld   r1, 3
        .word 0x00000007

        .data
D4:     .word 1, 0x00010000, 0, 4
        .space 4
        .word 1, 0, 0

        .reg pc 1
        .reg r12 0xFFFFFFFF
        .qifv 4294967295
        .qifw 2
        .node 1 fc0=4294967295 w=65536
        .node 2
";
    let image = assembled(source).image;
    assert_eq!(disassemble(&image).as_deref(), Ok(source));
    let with_position = source.replace("        .node 1", "        .position -5\n        .node 1");
    let image = assembled(&with_position).image;
    assert_eq!(disassemble(&image), Ok(with_position));
}
