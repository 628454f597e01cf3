//! The state in words and columns.

use crate::desk::{Desk, End, Stretch};
use crate::exercise::Exercise;
use crate::wheel::{self, Wheel};
use crate::words::{counted, instruction, way, word};
use crank::calls::Preview;
use crank::{meaning, Call, Direction, Machine, BR, NODE_FIELDS, NODE_WORDS, PC, REGISTERS};
use std::collections::BTreeMap;
use std::io::{self, Write};
use std::ops::RangeInclusive;

/// The words shown before pc and behind it.
const AROUND: usize = 4;
/// The registers on a line.
const COLUMNS: usize = 4;

/// A node by its number and its name.
pub fn node(number: u32, exercise: &Exercise) -> String {
    match exercise.node_name(number) {
        Some(name) => format!("{number} {name}"),
        None => number.to_string(),
    }
}

/// Whether it stands at an end of the run, as the proved calls say.
pub fn place(machine: &Machine) -> &'static str {
    match (machine.at_start(), machine.at_finish()) {
        (true, _) => ", at start",
        (_, true) => ", at finish",
        _ => "",
    }
}

/// Lines in columns, each as wide as its widest cell that has another behind it. A column without
/// any text is left out.
fn columns(out: &mut dyn Write, rows: &[Vec<String>]) -> io::Result<()> {
    let count = rows.iter().map(Vec::len).max().unwrap_or(0);
    let (mut widths, mut used) = (vec![0; count], vec![false; count]);
    for row in rows {
        for (place, cell) in row.iter().enumerate() {
            used[place] |= !cell.is_empty();
            if place + 1 < row.len() {
                widths[place] = widths[place].max(cell.chars().count());
            }
        }
    }
    for row in rows {
        let mut line = String::new();
        for (place, cell) in row.iter().enumerate().filter(|(place, _)| used[*place]) {
            line += &format!("{cell:width$}  ", width = widths[place]);
        }
        writeln!(out, "{}", line.trim_end())?;
    }
    Ok(())
}

/// The registers, the node, the wait and the position.
pub fn registers(out: &mut dyn Write, desk: &Desk) -> io::Result<()> {
    let record = &desk.machine.record;
    let cells: Vec<String> = REGISTERS
        .iter()
        .zip(record.regs)
        .map(|(name, value)| format!("{name:3} {}", word(value)))
        .collect();
    let rows: Vec<Vec<String>> = cells.chunks(COLUMNS).map(<[String]>::to_vec).collect();
    columns(out, &rows)?;
    let node = node(record.qifv, &desk.exercise);
    let (wait, position) = (word(record.qifw), record.position);
    writeln!(out, "node {node}, wait {wait}, position {position}")
}

/// pc, br, node, wait and position, and the words around pc.
pub fn place_in_code(out: &mut dyn Write, desk: &Desk) -> io::Result<()> {
    let record = &desk.machine.record;
    let [pc, br] = [record.regs[PC], record.regs[BR]].map(word);
    let node = node(record.qifv, &desk.exercise);
    let (wait, position) = (word(record.qifw), record.position);
    write!(out, "pc {pc}, br {br}, node {node}, wait {wait}, ")?;
    writeln!(out, "position {position}{}", place(&desk.machine))?;
    let (here, last) = (record.regs[PC] as usize, record.m as usize - 1);
    if here > last {
        return writeln!(
            out,
            "no memory word is at pc; M is {}; b turns back to where it came from",
            record.m
        );
    }
    let first = here.saturating_sub(AROUND);
    words(out, desk, first..=last.min(here + AROUND))
}

/// Memory words, code disassembled; a star at pc.
pub fn words(out: &mut dyn Write, desk: &Desk, addresses: RangeInclusive<usize>) -> io::Result<()> {
    let record = &desk.machine.record;
    let mut labels: BTreeMap<usize, String> = BTreeMap::new();
    for (label, address) in &desk.exercise.labels {
        *labels.entry(*address as usize).or_default() += &format!("{label}: ");
    }
    let width = addresses.end().to_string().len();
    let mut rows = Vec::new();
    for address in addresses {
        let mark = if record.regs[PC] as usize == address {
            '*'
        } else {
            ' '
        };
        let label = labels.get(&address).map_or("", |label| label.trim_end());
        let mut row = vec![format!("{mark} {address:width$}"), label.to_string()];
        let value = desk.machine.mem[address];
        row.extend(match address < record.k as usize {
            true => vec![instruction(value), format!("{value:#010x}")],
            false => vec![word(value)],
        });
        rows.push(row);
    }
    columns(out, &rows)
}

/// The qif table: the links that are not 0 and the waits; a star at the present node.
pub fn table(out: &mut dyn Write, desk: &Desk) -> io::Result<()> {
    let exercise = &desk.exercise;
    let nodes = desk.machine.table.chunks(NODE_WORDS).zip(1..);
    let width = desk.machine.record.n.to_string().len();
    let mut rows = Vec::new();
    for (fields, number) in nodes {
        let present = desk.machine.record.qifv == number;
        let mark = if present { '*' } else { ' ' };
        let name = exercise.node_name(number).unwrap_or_default();
        let mut row = vec![format!("{mark} {number:width$}"), name.to_string()];
        row.push(links(fields, exercise));
        rows.push(row);
    }
    if rows.is_empty() {
        writeln!(out, "the qif table has no nodes")?;
    }
    columns(out, &rows)
}

/// The fields of a node that are not 0, as a source has them.
fn links(fields: &[u32], exercise: &Exercise) -> String {
    let mut parts = Vec::new();
    for (field, value) in NODE_FIELDS
        .iter()
        .zip(fields)
        .filter(|(_, value)| **value != 0)
    {
        match exercise.node_name(*value).filter(|_| *field != "w") {
            Some(name) => parts.push(format!("{field}={name}")),
            None => parts.push(format!("{field}={value}")),
        }
    }
    parts.join(" ")
}

/// What a stretch of turns came to, and what it changed.
pub fn stretch(
    out: &mut dyn Write,
    stretch: &Stretch,
    before: &Machine,
    desk: &Desk,
) -> io::Result<()> {
    let (way, call) = way(stretch.direction);
    let turns = counted(stretch.turns, "turn");
    match stretch.end {
        End::Complete => writeln!(out, "{turns} {way}")?,
        End::Stopped => writeln!(out, "stopped after {turns} {way}")?,
        End::Refused(refusal) => {
            let why = meaning(refusal, call);
            if stretch.turns == 0 {
                return writeln!(out, "refused by {refusal}: {why}; nothing changed");
            }
            writeln!(out, "{turns} {way}, then refused by {refusal}: {why}")?;
        }
    }
    changes(out, before, desk)
}

/// What samples came to, and what their turns changed.
pub fn wheel(out: &mut dyn Write, made: &Wheel, before: &Machine, desk: &Desk) -> io::Result<()> {
    let sampled = &made.sampled;
    if let wheel::End::Stopped | wheel::End::Unread(_) = made.end {
        write!(out, "stopped after {}: ", counted(made.taken, "sample"))?;
    }
    write!(out, "{} forward, ", counted(sampled.forward, "turn"))?;
    write!(out, "{} back, {} refused; ", sampled.back, sampled.refused)?;
    writeln!(out, "last sample {}", sampled.last)?;
    if let wheel::End::Refused { sample, place } = made.end {
        let which = match place {
            0 => "the given sample".to_string(),
            _ => format!("sample {place}"),
        };
        let (refusal, why) = (sampled.refusal, meaning(sampled.refusal, Call::Samples));
        writeln!(
            out,
            "refused by {refusal} at {which}, which is {sample}: {why}"
        )?;
    }
    changes(out, before, desk)
}

/// What the making of a table came to: its cycles or the refusal.
pub fn made(
    out: &mut dyn Write,
    made: Result<u32, u32>,
    before: &Machine,
    desk: &Desk,
) -> io::Result<()> {
    let cycles = match made {
        Ok(cycles) => counted(cycles.into(), "cycle"),
        Err(refusal) => {
            let why = meaning(refusal, Call::Make);
            return writeln!(out, "refused by {refusal}: {why}; nothing changed");
        }
    };
    let nodes = counted(desk.machine.record.n.into(), "node");
    writeln!(out, "{nodes}, {cycles} for every choice of coins")?;
    columns(out, &changed(before, &desk.machine, &desk.exercise))
}

/// What a turn would execute or undo and what it would change, or why it would be refused.
pub fn preview(out: &mut dyn Write, desk: &Desk, direction: Direction) -> io::Result<()> {
    let (machine, (way, call)) = (&desk.machine, way(direction));
    let preview = machine.preview(direction);
    if preview.refusal != 0 {
        let (refusal, why) = (preview.refusal, meaning(preview.refusal, call));
        return writeln!(out, "a turn {way} would be refused by {refusal}: {why}");
    }
    let does = deed(machine, &preview, direction);
    writeln!(out, "a turn {way} would {does}")?;
    let after = after(machine, &preview);
    let rows = changed(machine, &after, &desk.exercise);
    columns(out, &rows)?;
    if rows.len() == 1 && after.record.regs[PC] != machine.record.regs[PC] {
        writeln!(out, "  nothing else would change")?;
    }
    Ok(())
}

/// What an accepted turn would do, with which word. A turn back undoes the turn forward from the
/// state that it leads to, so the earlier of the two states has the address of the word.
fn deed(machine: &Machine, preview: &Preview, direction: Direction) -> String {
    let earlier = match direction {
        Direction::Forward => &machine.record,
        Direction::Back => &preview.state,
    };
    let verb = match (direction, earlier.qifw) {
        (Direction::Forward, 0) => "execute",
        (Direction::Forward, _) => "wait in",
        (Direction::Back, 0) => "undo",
        (Direction::Back, _) => "undo a wait in",
    };
    let address = earlier.regs[PC];
    let word = instruction(machine.mem[address as usize]);
    format!("{verb} {word} at address {address}")
}

/// The machine as the turn of this preview would leave it.
fn after(machine: &Machine, preview: &Preview) -> Machine {
    let mut after = machine.clone();
    after.record = preview.state;
    if preview.changes == 1 {
        after.mem[preview.address as usize] = preview.value;
    }
    after
}

/// What turns changed.
fn changes(out: &mut dyn Write, before: &Machine, desk: &Desk) -> io::Result<()> {
    let rows = changed(before, &desk.machine, &desk.exercise);
    let [old, new] = [before, &desk.machine].map(|machine| machine.record.position);
    match rows.is_empty() {
        true if old == new => writeln!(out, "  the state is as before"),
        true => writeln!(out, "  only the position changed: {old} -> {new}"),
        false => columns(out, &rows),
    }
}

/// The registers, the node, the wait and the words that differ, a row each, old and new. The position
/// has no row: every turn moves it by one.
fn changed(before: &Machine, after: &Machine, exercise: &Exercise) -> Vec<Vec<String>> {
    let (old, new) = (&before.record, &after.record);
    let mut rows = Vec::new();
    let mut compare = |name: String, old: String, new: String| {
        if old != new {
            rows.push(vec![format!("  {name}"), format!("{old} -> {new}")]);
        }
    };
    for (register, name) in REGISTERS.iter().enumerate() {
        let (old, new) = (old.regs[register], new.regs[register]);
        compare(name.to_string(), word(old), word(new));
    }
    let named = |number| node(number, exercise);
    compare("node".to_string(), named(old.qifv), named(new.qifv));
    compare("wait".to_string(), word(old.qifw), word(new.qifw));
    for (address, (old, new)) in before.mem.iter().zip(&after.mem).enumerate() {
        if old != new {
            compare(format!("mem[{address}]"), word(*old), word(*new));
        }
    }
    rows
}
