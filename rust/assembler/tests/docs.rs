//! The samples of `docs/ASSEMBLER.md` are what the programs write.

use crank::{Direction, Machine};
use crank_assembler::{assemble, disassemble, listing};
use std::fs;
use std::path::Path;

/// The code blocks of the document.
fn blocks() -> Vec<String> {
    let path = Path::new(env!("CARGO_MANIFEST_DIR")).join("../../docs/ASSEMBLER.md");
    let text = fs::read_to_string(path).expect("the document");
    let parts = text.split("```").skip(1).step_by(2);
    parts
        .map(|part| part.trim_start_matches('\n').to_string())
        .collect()
}

/// The constant is read, and the run ends before it.
fn reads_constant(source: &str) {
    let assembled = assemble(source).expect("the constant");
    assert_eq!(assembled.warnings, []);
    let mut machine = Machine::load(&assembled.image).expect("it is an image");
    assert_eq!(machine.turns(Direction::Forward, 100).refusal, 12);
    assert_eq!(machine.record.regs[5], 1_000_003);
}

/// No table can be made of the example, as the document says.
fn makes_no_table(source: &str) {
    let (front, table) = source
        .split_once("        .qifv root\n")
        .expect("its table");
    assert_eq!(table.matches(".node").count(), 4);
    let error = assemble(&format!("{front}        .table make\n")).expect_err("a table");
    assert!(
        error.message.starts_with("the table is refused by 24: "),
        "{error}"
    );
}

#[test]
fn samples() {
    let [constant, source, _output, rows, disassembled] = &blocks()[..] else {
        panic!("the document has other blocks");
    };
    reads_constant(constant);
    let assembled = assemble(source).expect("the example");
    assert_eq!(assembled.warnings, []);
    assert_eq!(assembled.image.len(), 7 + 288);
    assert!(listing(source, &assembled).starts_with(rows.as_str()));
    assert_eq!(disassemble(&assembled.image).as_ref(), Ok(disassembled));
    makes_no_table(source);
}
