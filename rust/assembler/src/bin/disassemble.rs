//! `disassemble [-o SOURCE] [IMAGE]`: the disassembler as a program.

use crank::{meaning, Call};
use crank_assembler::disassemble;
use crank_assembler::program::{Arguments, Program};
use std::process::ExitCode;

const USAGE: &str = "\
usage: disassemble [-o SOURCE] [IMAGE]

Writes a QINS source that assembles to the image.

  IMAGE       the image; without it or with -, standard input
  -o SOURCE   where the source goes; without it or with -, standard output
  -h, --help  prints this
  --          ends the options
";

fn main() -> ExitCode {
    let program = Program {
        name: "disassemble",
        usage: USAGE,
        lists: false,
    };
    program.run(work)
}

fn work(_: &Program, arguments: &Arguments) -> Result<(), String> {
    let source = disassemble(&arguments.read()?).map_err(|refusal| {
        let why = meaning(refusal, Call::Load);
        arguments.about(format!("refused by {refusal}: {why}"))
    })?;
    arguments.write(source.as_bytes())
}
