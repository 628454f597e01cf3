//! `bench mark`: turns what was handed in back by its counts or its position, and compares it with
//! its beginning.

mod arguments;
mod cores;
mod counts;
mod differences;
mod judge;
mod list;
mod many;
mod report;

use crate::exercise::Exercise;
use crate::terminal::Progress;
use arguments::Asked;
use counts::{Due, Net};
use crank::Machine;
use crank_assembler::files;
use judge::{Ending, Judged};
use std::ffi::OsString;
use std::io::{self, BufWriter, Write};
use std::path::Path;

/// The status where a hand-in does not fit or can't be marked; 0 where all fit.
const DOES_NOT_FIT: u8 = 1;

const HELP: &str = "\
bench mark HAND-IN [FORWARD BACK] [--from BEGINNING]
    Turns the image HAND-IN back by FORWARD less BACK, its accepted turns, and
    says whether it fits. Without these it is turned by its position less that of
    BEGINNING.
bench mark --list LIST [--from BEGINNING]
    Marks every hand-in of LIST: in each line a name, relative to LIST's folder,
    then FORWARD and BACK, or the name alone.
Without --from a hand-in need only come back to start, and its position began at 0.

--from BEGINNING  the exercise as it was given out, an image or a source (.qasm)
--                what follows is no option
--help            this text

Status: 0 it fits, or all do; 1 not so; 2 bad input.
";

/// Gives the status.
///
/// # Errors
///
/// One line on what is wrong with the input.
pub fn run(arguments: &[OsString]) -> Result<u8, String> {
    let mut out = BufWriter::new(io::stdout().lock());
    let fits = mark(&mut out, arguments::read(arguments)?)?;
    out.flush().map_err(|e| files::output_fault(&e))?;
    Ok(if fits { 0 } else { DOES_NOT_FIT })
}

/// Gives whether all that is marked fits.
fn mark(out: &mut impl Write, asked: Asked) -> Result<bool, String> {
    let fault = |e: io::Error| files::output_fault(&e);
    match asked {
        Asked::Help => out.write_all(HELP.as_bytes()).map_err(fault).map(|()| true),
        Asked::List { list, from } => many::mark(out, list, open(from)?.as_ref()),
        Asked::One {
            hand_in,
            counts,
            from,
        } => one(out, hand_in, counts, open(from)?.as_ref()),
    }
}

/// Marks one hand-in, with a whole report; gives whether it fits.
fn one(
    out: &mut impl Write,
    path: &Path,
    counts: Option<Net>,
    beginning: Option<&Machine>,
) -> Result<bool, String> {
    let hand_in = Exercise::open(path)?;
    let due = Due::new(&hand_in, counts, beginning)
        .map_err(|why| format!("{}: {why}", files::shown(path)))?;
    let all = due.net.turns;
    let mut progress = Progress::new();
    let judged = Judged::new(&hand_in, due, beginning, |turns| {
        progress.show(|| format!("{turns} of {all} turns"));
    });
    progress.erase();
    let ending = Ending::new(hand_in.machine, &judged);
    report::single(out, &judged, &ending).map_err(|e| files::output_fault(&e))?;
    Ok(judged.fits())
}

fn open(beginning: Option<&Path>) -> Result<Option<Machine>, String> {
    beginning
        .map(|path| Exercise::open(path).map(|exercise| exercise.machine))
        .transpose()
}
