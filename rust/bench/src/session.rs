//! `bench FILE`: its arguments, and the loop over the commands.

use crate::commands::{self, Stop};
use crate::desk::Desk;
use crate::exercise::Exercise;
use crate::interrupt;
use crate::show;
use crate::terminal::{self, Input, Line};
use crate::typed;
use crate::words::word;
use crank::PC;
use crank_assembler::files;
use std::ffi::{OsStr, OsString};
use std::io::{self, BufWriter, IsTerminal, Write};
use std::path::Path;

const USAGE: &str = "\
usage: bench FILE               obeys commands, from a terminal or a pipe
       bench FILE -c COMMANDS   obeys these
       bench mark HAND-IN [FORWARD BACK] [--from BEGINNING]
                                marks what is handed in; bench mark --help says more
FILE is an image, or a source whose name ends in .qasm. Commands stand one a line or with ;
between them.

commands:";

const PROMPT: &str = "> ";

/// What the arguments ask for.
enum Asked<'a> {
    Help,
    Session {
        file: &'a OsStr,
        commands: Option<&'a str>,
    },
}

/// Gives the status.
///
/// # Errors
///
/// One line on what is wrong with the input.
pub fn run(arguments: &[OsString]) -> Result<u8, String> {
    let asked = asked(arguments)?;
    let mut out = BufWriter::new(io::stdout().lock());
    let done = match asked {
        Asked::Help => help(&mut out).map_err(Stop::Output),
        Asked::Session { file, commands } => session(Path::new(file), commands, &mut out),
    };
    // Before what main says of a fault.
    let flushed = out.flush().map_err(Stop::Output);
    match done.and(flushed) {
        Ok(()) | Err(Stop::Quit) => Ok(0),
        Err(Stop::Bad(line)) => Err(line),
        Err(Stop::Output(e)) => Err(files::output_fault(&e)),
    }
}

fn asked(arguments: &[OsString]) -> Result<Asked<'_>, String> {
    let (mut files, mut commands) = (Vec::new(), None);
    let mut rest = arguments.iter();
    while let Some(argument) = rest.next() {
        match argument.to_str() {
            Some("--help" | "-h") => return Ok(Asked::Help),
            Some("--") => files.extend(rest.by_ref()),
            Some("-c") => {
                let given = rest.next().ok_or("-c needs the commands behind it")?;
                let given = given.to_str().ok_or("the commands are no text in UTF-8")?;
                if commands.replace(given).is_some() {
                    return Err("-c is given twice".to_string());
                }
            }
            _ if argument.as_encoded_bytes().starts_with(b"-") => {
                return Err(format!("there is no option {}", shown(argument)));
            }
            _ => files.push(argument),
        }
    }
    match files.as_slice() {
        [file] => Ok(Asked::Session { file, commands }),
        [] => Err("a file is needed; bench --help says more".to_string()),
        [_, second, ..] => Err(format!("{} is one file too many", shown(second))),
    }
}

fn shown(argument: &OsStr) -> String {
    typed::quoted(&argument.to_string_lossy())
}

fn help(out: &mut dyn Write) -> io::Result<()> {
    writeln!(out, "{USAGE}")?;
    commands::list(out)
}

fn session(file: &Path, commands: Option<&str>, out: &mut dyn Write) -> Result<(), Stop> {
    let exercise = Exercise::open(file)?;
    for warning in &exercise.warnings {
        terminal::complain(warning);
    }
    let mut desk = Desk::new(exercise);
    if let Some(commands) = commands {
        let mut lines = commands.lines();
        return lines.try_for_each(|line| obey(&mut desk, line, out));
    }
    if !io::stdin().is_terminal() {
        return from_pipe(&mut desk, out);
    }
    interrupt::install();
    greet(file, &desk, out)?;
    at_terminal(&mut desk, out)
}

fn greet(file: &Path, desk: &Desk, out: &mut dyn Write) -> io::Result<()> {
    let record = &desk.machine.record;
    let pc = word(record.regs[PC]);
    let place = show::place(&desk.machine);
    write!(out, "{}: ", files::shown(file))?;
    write!(out, "K {}, M {}, N {}; ", record.k, record.m, record.n)?;
    write!(out, "pc {pc}{place}")?;
    match record.position {
        0 => writeln!(out)?,
        position => writeln!(out, "; position {position}")?,
    }
    if !desk.machine.at_start() {
        writeln!(out, "counts begin at 0: add those of what came before")?;
    }
    writeln!(out, "help lists the commands")
}

/// Obeys the commands of a line up to a bad one, or one that Ctrl-C stopped; the answer of each is
/// out before the next.
fn obey(desk: &mut Desk, line: &str, out: &mut dyn Write) -> Result<(), Stop> {
    for command in line.split(';') {
        let done = commands::run(desk, command, out);
        out.flush()?;
        done?;
        if interrupt::raised() {
            break;
        }
    }
    Ok(())
}

/// Commands from a pipe or a file: a bad one ends the program.
fn from_pipe(desk: &mut Desk, out: &mut dyn Write) -> Result<(), Stop> {
    let mut input = terminal::input();
    loop {
        match next_line(&mut input)? {
            Line::Text(text) => obey(desk, &text, out)?,
            Line::Bad(line) => return Err(Stop::Bad(line)),
            Line::Interrupted => {}
            Line::End => return Ok(()),
        }
    }
}

/// Commands as they are typed: after a bad one it goes on.
fn at_terminal(desk: &mut Desk, out: &mut dyn Write) -> Result<(), Stop> {
    let mut input = terminal::input();
    loop {
        // One that stopped a run is done with.
        interrupt::clear();
        write!(out, "{PROMPT}")?;
        out.flush()?;
        let done = match next_line(&mut input)? {
            Line::Text(text) => obey(desk, &text, out),
            Line::Bad(line) => Err(Stop::Bad(line)),
            Line::Interrupted => Ok(writeln!(out)?),
            Line::End => return Ok(writeln!(out)?),
        };
        match done {
            Err(Stop::Bad(line)) => terminal::complain(&line),
            done => done?,
        }
    }
}

fn next_line(input: &mut Input) -> Result<Line, Stop> {
    terminal::read_line(input)
        .map_err(|e| Stop::Bad(format!("standard input: {}", files::reason(&e))))
}
