//! `assemble [--listing] [-o IMAGE] [SOURCE]`: the assembler as a program.

use crank_assembler::program::{print, Arguments, Program};
use crank_assembler::{assemble, files, listing};
use std::process::ExitCode;

const USAGE: &str = "\
usage: assemble [--listing] [-o IMAGE] [SOURCE]

Assembles a QINS source into an image.

  SOURCE      the source; without it or with -, standard input
  -o IMAGE    where the image goes; without it or with -, standard output
  --listing   the listing to standard output, the image only where -o names a file
  -h, --help  prints this
  --          ends the options
";

fn main() -> ExitCode {
    let program = Program {
        name: "assemble",
        usage: USAGE,
        lists: true,
    };
    program.run(work)
}

fn work(program: &Program, arguments: &Arguments) -> Result<(), String> {
    if let Some(output) = arguments
        .output
        .as_deref()
        .filter(|name| files::is_source(name))
    {
        let name = files::shown(output);
        return Err(format!("{name}: an image can't be written as a source"));
    }
    let source = text(arguments)?;
    let assembled = assemble(&source).map_err(|e| arguments.about(e))?;
    for warning in &assembled.warnings {
        program.tell(&arguments.about(warning));
    }
    if !arguments.listing {
        return arguments.write(&assembled.image);
    }
    // First, so that no image is written where the listing fails.
    print(listing(&source, &assembled).as_bytes())?;
    match arguments.output {
        Some(_) => arguments.write(&assembled.image),
        None => Ok(()),
    }
}

fn text(arguments: &Arguments) -> Result<String, String> {
    files::text(arguments.read()?).map_err(|why| arguments.about(why))
}
