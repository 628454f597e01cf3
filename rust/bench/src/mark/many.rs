//! The hand-ins of a list, a line for each in the list's order.

use super::cores;
use super::counts::Due;
use super::judge::{Judged, Stand};
use super::list::{self, Entry, HandIn};
use super::report;
use crate::exercise::Exercise;
use crate::terminal::Progress;
use crate::words::counted;
use crank::Machine;
use crank_assembler::files;
use std::io::Write;
use std::path::Path;

/// The most places that a line names.
const MAX_NAMES: usize = 6;

/// The most turns for one hand-in of a list, so that a slip in a count does not hold up the rest.
const MAX_TURNS: u64 = 1_000_000_000;

#[derive(Clone, Copy, PartialEq)]
enum Verdict {
    Fits,
    DoesNotFit,
    NotMarked,
}

/// What is said of one line of the list.
struct Marked {
    verdict: Verdict,
    line: String,
}

/// Marks every hand-in of the list; gives whether all fit.
///
/// # Errors
///
/// One line, where the list can't be read or the output not be written.
pub fn mark(
    out: &mut impl Write,
    list: &Path,
    beginning: Option<&Machine>,
) -> Result<bool, String> {
    let entries = list::read(list)?;
    let mut verdicts = Vec::new();
    let mut progress = Progress::new();
    let work = |entry: &Entry| mark_entry(entry, beginning);
    cores::in_order(&entries, work, |marked: Option<Marked>| {
        if let Some(marked) = marked {
            verdicts.push(marked.verdict);
            progress.erase();
            // Each line as soon as it is known.
            writeln!(out, "{}", marked.line)
                .and_then(|()| out.flush())
                .map_err(|e| files::output_fault(&e))?;
        }
        progress.show(|| format!("{} of {}", verdicts.len(), entries.len()));
        Ok(())
    })?;
    progress.erase();
    let summary = summary(&verdicts, beginning.is_some());
    writeln!(out, "{summary}").map_err(|e| files::output_fault(&e))?;
    Ok(verdicts.iter().all(|v| *v == Verdict::Fits))
}

fn mark_entry(entry: &Entry, beginning: Option<&Machine>) -> Marked {
    let (name, judged) = match entry {
        Ok(hand_in) => (
            files::shown(hand_in.name.as_ref()),
            judge(hand_in, beginning),
        ),
        Err(no) => (format!("line {}", no.line), Err(no.fault.clone())),
    };
    let (verdict, mut said) = match &judged {
        Ok((judged, stand)) if judged.fits() => {
            let (verdict, stands) = (report::verdict(judged), stands(stand));
            (Verdict::Fits, format!("{verdict}; {stands}"))
        }
        Ok((judged, _)) => (Verdict::DoesNotFit, short(judged)),
        Err(fault) => (Verdict::NotMarked, format!("cannot be marked: {fault}")),
    };
    let due = judged.as_ref().ok().map(|(judged, _)| &judged.due);
    if let Some(more) = due.and_then(report::disagreement) {
        said += &format!("; {more}");
    }
    Marked {
        verdict,
        line: format!("{name}: {said}"),
    }
}

fn judge(hand_in: &HandIn, beginning: Option<&Machine>) -> Result<(Judged, Stand), String> {
    let exercise = Exercise::open(&hand_in.path).map_err(|fault| {
        // The line has the name as it is in the list, in place of the path.
        let path = format!("{}: ", files::shown(&hand_in.path));
        fault.strip_prefix(&path).unwrap_or(&fault).to_string()
    })?;
    let due = Due::new(&exercise, hand_in.counts, beginning)?;
    let turns = due.net.turns;
    if turns > MAX_TURNS {
        return Err(format!(
            "net count {turns} is more than the {MAX_TURNS} that a list turns"
        ));
    }
    let judged = Judged::new(&exercise, due, beginning, |_| {});
    let stand = Stand::new(&exercise.machine, &judged);
    Ok((judged, stand))
}

/// Where a hand-in stands, and at finish what it left changed.
fn stands(stand: &Stand) -> String {
    let list = match stand {
        Stand::Start => return "at start".to_string(),
        Stand::Between => return "not at finish".to_string(),
        Stand::Finish(None) => return "at finish".to_string(),
        Stand::Finish(Some(list)) => list,
    };
    let mut names: Vec<String> = list.iter().map(|d| d.place.to_string()).collect();
    if names.is_empty() {
        names.push("nothing but pc".to_string());
    }
    if let Some(more) = names.len().checked_sub(MAX_NAMES).filter(|more| *more > 0) {
        names.truncate(MAX_NAMES);
        names.push(format!("and {more} more"));
    }
    format!("at finish, left changed: {}", names.join(", "))
}

/// Why a hand-in does not fit, in one line.
fn short(judged: &Judged) -> String {
    let verdict = report::verdict(judged);
    if !judged.all_accepted() {
        return format!("{verdict}: {}", report::turns(judged));
    }
    match judged.differences.as_deref() {
        Some([only]) => format!("{verdict}: {}", report::difference(only)),
        Some([first, more @ ..]) => {
            let first = report::difference(first);
            format!("{verdict}: {first}; and {} more", more.len())
        }
        _ => format!("{verdict}: all turns are accepted, but it is not start"),
    }
}

/// How many of each verdict there are.
fn summary(verdicts: &[Verdict], compared: bool) -> String {
    let number = |verdict| verdicts.iter().filter(|v| **v == verdict).count();
    let all = counted(verdicts.len() as u64, "hand-in");
    let fit = match (number(Verdict::Fits), compared) {
        (1, true) => "1 fits".to_string(),
        (1, false) => "1 comes back to start".to_string(),
        (fit, true) => format!("{fit} fit"),
        (fit, false) => format!("{fit} come back to start"),
    };
    let verb = if compared { " fit" } else { "" };
    let do_not = match number(Verdict::DoesNotFit) {
        1 => format!("1 does not{verb}"),
        do_not => format!("{do_not} do not{verb}"),
    };
    let not_marked = number(Verdict::NotMarked);
    format!("{all}: {fit}, {do_not}, {not_marked} cannot be marked")
}
