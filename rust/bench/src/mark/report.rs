//! What is found out, in words.

use super::counts::{Due, Net};
use super::differences::{not_zero, Difference, Place};
use super::judge::{Ending, Judged, MAX_ON};
use crate::words::{code_word, counted, way, word};
use crank::{meaning, Call};
use std::io::{self, Write};

/// The columns that a line of several items may take.
const WIDTH: usize = 80;

/// The whole report on one hand-in.
pub fn single(out: &mut impl Write, judged: &Judged, ending: &Ending) -> io::Result<()> {
    if let Some(line) = disagreement(&judged.due) {
        writeln!(out, "{line}")?;
    }
    writeln!(out, "{}", turns(judged))?;
    let stands = if judged.at_start {
        "stands"
    } else {
        "does not stand"
    };
    writeln!(out, "{stands} at start")?;
    verdict_lines(out, judged)?;
    writeln!(out, "{}", finish(ending))?;
    let left = "left changed between start and finish";
    match &ending.left_changed {
        Some(list) => items(out, left, list.iter().map(change), "nothing but pc"),
        None if !judged.at_start => {
            writeln!(
                out,
                "{left}: cannot be told, since it does not stand at start"
            )
        }
        None => writeln!(out, "{left}: cannot be told, since finish is not reached"),
    }
}

/// What position and counts say, where that is not the same.
pub fn disagreement(due: &Due) -> Option<String> {
    let position = due.by_position?;
    let said = |net: Net| format!("{} {}", counted(net.turns, "turn"), way(net.direction).0);
    let counts = match due.net.direction == position.direction {
        true => due.net.turns.to_string(),
        false => said(due.net),
    };
    let position = said(position);
    Some(format!(
        "position and counts disagree: by the position {position}, by the counts {counts}"
    ))
}

/// What became of the turns.
pub fn turns(judged: &Judged) -> String {
    let net = judged.due.net;
    let (way, call) = way(net.direction);
    match judged.made.refusal {
        0 if net.turns == 0 => "no turn to make: as many forward as back".to_string(),
        0 => format!("{} {way}: all accepted", counted(net.turns, "turn")),
        refusal => format!(
            "turn {} of {} {way} was refused by {refusal}: {}",
            judged.made.turns + 1,
            net.turns,
            meaning(refusal, call)
        ),
    }
}

/// The verdict in itself.
pub fn verdict(judged: &Judged) -> &'static str {
    match (judged.fits(), &judged.differences) {
        (true, Some(_)) => "fits",
        (false, Some(_)) => "does not fit",
        (true, None) => "comes back to start",
        (false, None) => "does not come back to start",
    }
}

/// A place, with what should be there and what is.
pub fn difference(d: &Difference) -> String {
    let shown = |value: i64| match d.place {
        Place::Code(_) => code_word(value as u32),
        Place::Position => value.to_string(),
        _ => word(value as u32),
    };
    let value = |value: Option<i64>| value.map_or("none".to_string(), shown);
    let (expected, found) = (value(d.expected), value(d.found));
    format!("{} expected {expected}, found {found}", d.place)
}

/// The verdict with its reasons; where there is nothing to compare with, what is not 0.
fn verdict_lines(out: &mut impl Write, judged: &Judged) -> io::Result<()> {
    writeln!(out, "{}{}", verdict(judged), reason(judged))?;
    match &judged.differences {
        Some(list) => list
            .iter()
            .try_for_each(|d| writeln!(out, "  {}", difference(d))),
        None => {
            let list = not_zero(&judged.turned);
            items(out, "not 0", list.iter().map(found), "nothing")
        }
    }
}

/// What the verdict rests on beyond the lines before it.
fn reason(judged: &Judged) -> String {
    let count = judged.differences.as_ref().map(|list| list.len() as u64);
    let refused = ": not every turn was accepted";
    match (judged.all_accepted(), count) {
        (true, None | Some(0)) => String::new(),
        (true, Some(count)) => format!(": {}", counted(count, "difference")),
        (false, None) => refused.to_string(),
        (false, Some(0)) => format!("{refused}, though nothing differs"),
        (false, Some(count)) => format!("{refused}, and {}", counted(count, "difference")),
    }
}

fn found(d: &Difference) -> String {
    format!("{} = {}", d.place, word(d.found.unwrap_or_default() as u32))
}

fn change(d: &Difference) -> String {
    let value = |value: Option<i64>| word(value.unwrap_or_default() as u32);
    format!("{} {} -> {}", d.place, value(d.expected), value(d.found))
}

/// Where the hand-in's own code leads.
fn finish(ending: &Ending) -> String {
    let not = "the hand-in does not stand at finish";
    match (ending.at_finish, ending.on.turns, ending.on.refusal) {
        (true, 0, _) => "the hand-in stands at finish".to_string(),
        (true, 1, _) => format!("{not}; 1 turn more leads there"),
        (true, turns, _) => format!("{not}; {turns} turns more lead there"),
        (false, _, 0) => format!("{not}, nor do {MAX_ON} turns more lead there"),
        (false, turns, refusal) => format!(
            "{not}; turn {} from there is refused by {refusal}: {}",
            turns + 1,
            meaning(refusal, Call::Forward)
        ),
    }
}

/// Items behind a heading, in lines of no more than the width.
fn items(
    out: &mut impl Write,
    heading: &str,
    items: impl Iterator<Item = String>,
    none: &str,
) -> io::Result<()> {
    let mut line = format!("{heading}:");
    let mut separator = "";
    for item in items {
        line += separator;
        if line.len() + 1 + item.len() >= WIDTH {
            writeln!(out, "{line}")?;
            line = " ".to_string();
        }
        line = format!("{line} {item}");
        separator = ",";
    }
    match separator {
        "" => writeln!(out, "{line} {none}"),
        _ => writeln!(out, "{line}"),
    }
}
