//! The commands: a row and a function each.

use crate::desk::{Desk, Stretch};
use crate::picture::picture;
use crate::show;
use crate::typed;
use crate::wheel::{self, Samples};
use crate::words::counted;
use crank::{meaning, Call, Direction, Machine, MAKE_LIMIT};
use crank_assembler::files;
use std::io::{self, Write};

/// Why the commands don't simply go on.
pub enum Stop {
    /// A bad command, in one line.
    Bad(String),
    /// The output can't be written.
    Output(io::Error),
    Quit,
}

impl From<String> for Stop {
    fn from(line: String) -> Stop {
        Stop::Bad(line)
    }
}

impl From<io::Error> for Stop {
    fn from(e: io::Error) -> Stop {
        Stop::Output(e)
    }
}

type Done = Result<(), Stop>;

/// Behind the table that `help` prints.
const NUMBERS: &str = "\
N, LIMIT, addresses, nodes and samples are decimal or hexadecimal with 0x. Of a source, an address
may be given by a label, and a node by its name.
SAMPLES are numbers with blanks between them, or @FILE: the bytes of that file.";

/// A row of the table that `help` prints.
struct Command {
    names: &'static [&'static str],
    /// The arguments; those in brackets may be left out.
    takes: &'static str,
    does: &'static str,
    run: fn(&mut Desk, &[&str], &mut dyn Write) -> Done,
}

#[rustfmt::skip]
const COMMANDS: &[Command] = &[
    Command { names: &["f", "forward"], takes: "[N]", run: forward,
        does: "N turns forward; 1 if left out" },
    Command { names: &["b", "back"], takes: "[N]", run: back,
        does: "N turns back; 1 if left out" },
    Command { names: &["r", "run"], takes: "", run: run_forward,
        does: "turns forward until one is refused" },
    Command { names: &["rw", "rewind"], takes: "", run: rewind,
        does: "turns back until one is refused" },
    Command { names: &["t", "to"], takes: "ADDRESS", run: to,
        does: "turns forward, at least one, until pc is ADDRESS" },
    Command { names: &["wheel"], takes: "GIVEN [SAMPLES]", run: wheel,
        does: "turns as encoder samples say; GIVEN is the one before them" },
    Command { names: &["n", "next"], takes: "", run: next,
        does: "what a turn forward would change; makes none" },
    Command { names: &["pv", "previous"], takes: "", run: previous,
        does: "what a turn back would change; makes none" },
    Command { names: &["w", "where"], takes: "", run: where_it_stands,
        does: "pc, br, node, wait and position, and the words around pc" },
    Command { names: &["regs"], takes: "", run: regs,
        does: "the registers, node, wait and position" },
    Command { names: &["m", "mem"], takes: "FROM [TO]", run: mem,
        does: "the memory words from address FROM to TO" },
    Command { names: &["table"], takes: "", run: table,
        does: "the qif table: links that are not 0, and waits" },
    Command { names: &["make"], takes: "[LIMIT]", run: make,
        does: "makes the qif table, walking at most LIMIT cycles; 1000000 if left out" },
    Command { names: &["p", "picture"], takes: "FILE.svg", run: draw,
        does: "draws the qif table" },
    Command { names: &["check"], takes: "[NODE]", run: check,
        does: "looks at all code words and links, or at the links of NODE alone" },
    Command { names: &["c", "counts"], takes: "", run: counts,
        does: "the turns made since the file was opened or reset; the position" },
    Command { names: &["s", "save"], takes: "FILE", run: save,
        does: "writes the state as an image, and says counts and position" },
    Command { names: &["reset"], takes: "", run: reset,
        does: "the state and position as opened, counts 0" },
    Command { names: &["h", "help", "?"], takes: "", run: help,
        does: "this table" },
    Command { names: &["q", "quit", "exit"], takes: "", run: quit,
        does: "ends; so does the end of the input" },
];

/// The arguments that may have blanks in them: each takes the rest of the line.
const WITH_BLANKS: [&str; 3] = ["FILE", "FILE.svg", "[SAMPLES]"];

/// Runs what was typed; nothing if it is blank.
///
/// # Errors
///
/// A bad command, a fault of the output, or quit.
pub fn run(desk: &mut Desk, text: &str, out: &mut dyn Write) -> Done {
    let text = text.trim();
    if text.is_empty() {
        return Ok(());
    }
    let (name, rest) = text.split_once(char::is_whitespace).unwrap_or((text, ""));
    let Some(command) = COMMANDS.iter().find(|row| row.names.contains(&name)) else {
        let name = typed::quoted(name);
        return Err(format!("there is no command {name}; help lists them").into());
    };
    let takes: Vec<&str> = command.takes.split_whitespace().collect();
    let arguments = arguments(&takes, rest);
    let needed = takes.iter().filter(|taken| !taken.starts_with('[')).count();
    if arguments.len() < needed {
        return Err(format!("{name} needs {}", command.takes).into());
    }
    if let Some(extra) = arguments.get(takes.len()) {
        let extra = typed::quoted(extra);
        return Err(format!("{name} does not take {extra}").into());
    }
    (command.run)(desk, &arguments, out)
}

/// What stands behind the name of a command that takes these.
fn arguments<'a>(takes: &[&str], rest: &'a str) -> Vec<&'a str> {
    let (mut found, mut rest) = (Vec::new(), rest.trim());
    while !rest.is_empty() {
        let end = match takes.get(found.len()) {
            Some(taken) if WITH_BLANKS.contains(taken) => rest.len(),
            _ => rest.find(char::is_whitespace).unwrap_or(rest.len()),
        };
        let (argument, behind) = rest.split_at(end);
        found.push(argument);
        rest = behind.trim_start();
    }
    found
}

/// The table of the commands.
///
/// # Errors
///
/// A fault of the output.
pub fn list(out: &mut dyn Write) -> io::Result<()> {
    for row in COMMANDS {
        let form = format!("{} {}", row.names.join(", "), row.takes);
        writeln!(out, "  {form:21}  {}", row.does)?;
    }
    writeln!(out, "{NUMBERS}")
}

/// Turns, then says what they came to.
fn turn(desk: &mut Desk, out: &mut dyn Write, turns: impl FnOnce(&mut Desk) -> Stretch) -> Done {
    let before: Machine = desk.machine.clone();
    let stretch = turns(desk);
    Ok(show::stretch(out, &stretch, &before, desk)?)
}

fn turns(desk: &mut Desk, direction: Direction, arguments: &[&str], out: &mut dyn Write) -> Done {
    let count = match arguments {
        [count, ..] => typed::number(count, u64::MAX)?,
        [] => 1,
    };
    turn(desk, out, |desk| desk.turns(direction, count))
}

fn forward(desk: &mut Desk, arguments: &[&str], out: &mut dyn Write) -> Done {
    turns(desk, Direction::Forward, arguments, out)
}

fn back(desk: &mut Desk, arguments: &[&str], out: &mut dyn Write) -> Done {
    turns(desk, Direction::Back, arguments, out)
}

fn run_forward(desk: &mut Desk, _: &[&str], out: &mut dyn Write) -> Done {
    turn(desk, out, |desk| desk.turns(Direction::Forward, u64::MAX))
}

fn rewind(desk: &mut Desk, _: &[&str], out: &mut dyn Write) -> Done {
    turn(desk, out, |desk| desk.turns(Direction::Back, u64::MAX))
}

fn to(desk: &mut Desk, arguments: &[&str], out: &mut dyn Write) -> Done {
    let address = typed::address(arguments[0], &desk.exercise)?;
    turn(desk, out, |desk| desk.turns_to(address))
}

fn wheel(desk: &mut Desk, arguments: &[&str], out: &mut dyn Write) -> Done {
    let given = typed::sample(arguments[0])?;
    let mut samples = Samples::typed(arguments.get(1).copied().unwrap_or_default())?;
    let before = desk.machine.clone();
    let made = wheel::turn(desk, given, &mut samples);
    show::wheel(out, &made, &before, desk)?;
    match made.end {
        wheel::End::Unread(line) => Err(line.into()),
        _ => Ok(()),
    }
}

fn next(desk: &mut Desk, _: &[&str], out: &mut dyn Write) -> Done {
    Ok(show::preview(out, desk, Direction::Forward)?)
}

fn previous(desk: &mut Desk, _: &[&str], out: &mut dyn Write) -> Done {
    Ok(show::preview(out, desk, Direction::Back)?)
}

fn where_it_stands(desk: &mut Desk, _: &[&str], out: &mut dyn Write) -> Done {
    Ok(show::place_in_code(out, desk)?)
}

fn regs(desk: &mut Desk, _: &[&str], out: &mut dyn Write) -> Done {
    Ok(show::registers(out, desk)?)
}

fn mem(desk: &mut Desk, arguments: &[&str], out: &mut dyn Write) -> Done {
    let from = typed::address(arguments[0], &desk.exercise)?;
    let to = match arguments.get(1) {
        Some(to) => typed::address(to, &desk.exercise)?,
        None => from,
    };
    let most = desk.machine.record.m;
    if let Some(beyond) = [from, to].into_iter().find(|address| *address >= most) {
        return Err(format!("there is no address {beyond}; M is {most}").into());
    }
    if from > to {
        return Err(format!("the address {from} is above {to}").into());
    }
    Ok(show::words(out, desk, from as usize..=to as usize)?)
}

fn table(desk: &mut Desk, _: &[&str], out: &mut dyn Write) -> Done {
    Ok(show::table(out, desk)?)
}

fn make(desk: &mut Desk, arguments: &[&str], out: &mut dyn Write) -> Done {
    let limit = match arguments {
        [limit, ..] => typed::number(limit, u64::from(u32::MAX))? as u32,
        [] => MAKE_LIMIT,
    };
    let before = desk.machine.clone();
    let made = desk.machine.make_table(limit);
    Ok(show::made(out, made, &before, desk)?)
}

fn draw(desk: &mut Desk, arguments: &[&str], out: &mut dyn Write) -> Done {
    let path = typed::file_name(arguments[0]);
    let name = files::shown(path);
    if files::is_source(path) {
        return Err(format!("{name}: a picture can't be drawn over a source").into());
    }
    if !name.ends_with(".svg") {
        return Err(format!("{name}: a picture's name ends in .svg").into());
    }
    let svg = picture(&desk.machine, &desk.exercise);
    files::write(path, svg.as_bytes())?;
    let nodes = counted(desk.machine.record.n.into(), "node");
    Ok(writeln!(out, "drawn in {name}: {nodes}")?)
}

fn check(desk: &mut Desk, arguments: &[&str], out: &mut dyn Write) -> Done {
    if let [node, ..] = arguments {
        return check_node(desk, typed::node(node, &desk.exercise)?, out);
    }
    let checked = desk.machine.check();
    let (refusal, why) = (checked.refusal, meaning(checked.refusal, Call::Check));
    let place = match refusal {
        7 => format!(" at address {}", checked.place),
        8 => format!(" at node {}", show::node(checked.place, &desk.exercise)),
        _ => String::new(),
    };
    Ok(writeln!(out, "check gives {refusal}{place}: {why}")?)
}

fn check_node(desk: &Desk, node: u32, out: &mut dyn Write) -> Done {
    let refusal = desk.machine.check_node(node);
    let why = meaning(refusal, Call::Check);
    let node = show::node(node, &desk.exercise);
    Ok(writeln!(
        out,
        "check of node {node} gives {refusal}: {why}"
    )?)
}

fn counts(desk: &mut Desk, _: &[&str], out: &mut dyn Write) -> Done {
    Ok(writeln!(out, "{}", desk.tally())?)
}

fn save(desk: &mut Desk, arguments: &[&str], out: &mut dyn Write) -> Done {
    let path = typed::file_name(arguments[0]);
    let name = files::shown(path);
    if files::is_source(path) {
        return Err(format!("{name}: an image can't be saved as a source").into());
    }
    let image = desk.machine.save().map_err(|refusal| {
        let why = meaning(refusal, Call::Save);
        format!("refused by {refusal}: {why}")
    })?;
    let bytes = [desk.exercise.preface.as_slice(), &image].concat();
    files::write(path, &bytes)?;
    let (length, tally) = (bytes.len(), desk.tally());
    Ok(writeln!(out, "saved in {name}: {length} bytes; {tally}")?)
}

fn reset(desk: &mut Desk, _: &[&str], out: &mut dyn Write) -> Done {
    desk.reset();
    Ok(writeln!(out, "as opened; {}", desk.tally())?)
}

fn help(_: &mut Desk, _: &[&str], out: &mut dyn Write) -> Done {
    Ok(list(out)?)
}

fn quit(_: &mut Desk, _: &[&str], _: &mut dyn Write) -> Done {
    Err(Stop::Quit)
}
