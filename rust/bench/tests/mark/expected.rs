//! The report as it should be, made from single turns and a list of named numbers.

use crank::{meaning, Call, Direction, Machine};
use std::collections::HashSet;

const REGISTERS: &str = "pc br ro sp r1 r2 r3 r4 r5 r6 r7 r8 r9 r10 r11 r12";
const FIELDS: &str = "fc0 fc1 lc0 lc1 cf cl nx pr w";
const POSITION: &str = "position";

/// A hand-in with its counts and its beginning.
pub struct Expected<'a> {
    pub beginning: &'a Machine,
    pub hand_in: &'a Machine,
    /// Of the file of the hand-in.
    pub has_position: bool,
    pub forward: u64,
    pub back: u64,
}

/// Turned by single turns: the turns made, the refusal of the next, and the state.
pub struct Turned {
    pub turns: u64,
    pub refusal: u32,
    pub state: Machine,
}

/// A number of turns: back where it is not negative, else forward.
fn way(net: i128) -> (Direction, u64) {
    let turns = u64::try_from(net.unsigned_abs()).expect("64 bits");
    match net >= 0 {
        true => (Direction::Back, turns),
        false => (Direction::Forward, turns),
    }
}

fn named_way(direction: Direction) -> (&'static str, Call) {
    match direction {
        Direction::Forward => ("forward", Call::Forward),
        Direction::Back => ("back", Call::Back),
    }
}

fn plural(number: u64, noun: &str) -> String {
    let s = if number == 1 { "" } else { "s" };
    format!("{number} {noun}{s}")
}

/// Every number of a state with its name. `sizes` tells code from data.
fn named(machine: &Machine, sizes: &Machine) -> Vec<(String, i64)> {
    let r = &machine.record;
    let mut list: Vec<(String, u32)> = [("K", r.k), ("M", r.m), ("N", r.n)]
        .map(|(name, word)| (name.to_string(), word))
        .to_vec();
    let registers = REGISTERS.split(' ').map(str::to_string);
    list.extend(registers.zip(r.regs));
    list.push(("node".to_string(), r.qifv));
    list.push(("wait".to_string(), r.qifw));
    for (address, word) in machine.mem.iter().enumerate() {
        let known = if address < sizes.mem.len() {
            sizes
        } else {
            machine
        };
        let code = address < known.record.k as usize;
        let kind = if code { "code" } else { "data" };
        list.push((format!("{kind} word {address}"), *word));
    }
    for (node, words) in machine.table.chunks(9).enumerate() {
        for (field, word) in FIELDS.split(' ').zip(words) {
            list.push((format!("node {} {field}", node + 1), *word));
        }
    }
    let words = list.into_iter().map(|(name, word)| (name, word.into()));
    words.chain([(POSITION.to_string(), r.position)]).collect()
}

fn word(value: i64) -> String {
    if value < 65_536 {
        value.to_string()
    } else if value < 1 << 31 {
        format!("{value} (0x{value:x})")
    } else {
        format!("{value} (0x{value:x}, {})", value - (1 << 32))
    }
}

fn code_word(value: i64) -> String {
    let text = crank_assembler::instruction_text(value as u32);
    let text = text.unwrap_or_else(|| format!("{value}, no instruction"));
    format!("{text} (0x{value:08x})")
}

/// The lines of the differences, in any order.
fn differences(expected: &Machine, found: &Machine) -> Vec<String> {
    let (e, f) = (named(expected, expected), named(found, expected));
    let get = |list: &[(String, i64)], name: &str| {
        let at = list.iter().find(|(other, _)| other == name);
        at.map_or("none".to_string(), |(_, value)| match name {
            POSITION => value.to_string(),
            _ if name.starts_with("code") => code_word(*value),
            _ => word(*value),
        })
    };
    let sets = [&e, &f].map(|list| list.iter().cloned().collect::<HashSet<_>>());
    let names: HashSet<&String> = sets[0]
        .symmetric_difference(&sets[1])
        .map(|(name, _)| name)
        .collect();
    let mut lines: Vec<String> = names
        .iter()
        .map(|name| format!("{name} expected {}, found {}", get(&e, name), get(&f, name)))
        .collect();
    lines.sort();
    lines
}

/// Whether a turn is refused by 12, wherever the position is.
fn ends(machine: &Machine, direction: Direction) -> bool {
    let mut machine = machine.clone();
    machine.record.position = 0;
    machine.turn(direction) == 12
}

impl Expected<'_> {
    fn by_counts(&self) -> i128 {
        i128::from(self.forward) - i128::from(self.back)
    }

    pub fn turned(&self) -> Turned {
        let (direction, count) = way(self.by_counts());
        let mut state = self.hand_in.clone();
        let (mut turns, mut refusal) = (0, 0);
        while turns < count && refusal == 0 {
            refusal = state.turn(direction);
            turns += u64::from(refusal == 0);
        }
        let mut batches = self.hand_in.clone();
        let made = batches.turns(direction, count);
        let found = (made.turns, made.refusal, &batches);
        assert_eq!(found, (turns, refusal, &state));
        Turned {
            turns,
            refusal,
            state,
        }
    }

    /// The lines of the differences, in any order.
    pub fn differences(&self) -> Vec<String> {
        let mut lines = differences(self.beginning, &self.turned().state);
        lines.retain(|line| self.has_position || !line.starts_with(POSITION));
        lines
    }

    /// The line on position and counts, where they say different things.
    fn disagreement(&self) -> Option<String> {
        let [from, to] = [self.beginning, self.hand_in].map(|m| i128::from(m.record.position));
        if !self.has_position || to - from == self.by_counts() {
            return None;
        }
        let [position, counts] = [to - from, self.by_counts()].map(way);
        let said = |(direction, turns)| {
            let turns = plural(turns, "turn");
            format!("{turns} {}", named_way(direction).0)
        };
        let by_counts = match position.0 == counts.0 {
            true => counts.1.to_string(),
            false => said(counts),
        };
        let by_position = said(position);
        Some(format!(
            "position and counts disagree: by the position {by_position}, by the counts {by_counts}"
        ))
    }

    /// The lines on position and counts, turns, start and verdict.
    pub fn head(&self) -> Vec<String> {
        let turned = self.turned();
        let (direction, count) = way(self.by_counts());
        let (way, call) = named_way(direction);
        let turns = match (turned.refusal, count) {
            (0, 0) => "no turn to make: as many forward as back".to_string(),
            (0, _) => format!("{} {way}: all accepted", plural(count, "turn")),
            (refusal, _) => format!(
                "turn {} of {count} {way} was refused by {refusal}: {}",
                turned.turns + 1,
                meaning(refusal, call)
            ),
        };
        let start = match ends(&turned.state, Direction::Back) {
            true => "stands at start",
            false => "does not stand at start",
        };
        let differ = plural(self.differences().len() as u64, "difference");
        let not = "does not fit: not every turn was accepted";
        let verdict = match (turned.refusal, &differ[..]) {
            (0, "0 differences") => "fits".to_string(),
            (0, _) => format!("does not fit: {differ}"),
            (_, "0 differences") => format!("{not}, though nothing differs"),
            _ => format!("{not}, and {differ}"),
        };
        let lines = self.disagreement().into_iter();
        lines.chain([turns, start.to_string(), verdict]).collect()
    }

    /// The lines on finish and on what is left changed, each in one piece.
    pub fn tail(&self) -> Vec<String> {
        let start = self.turned().state;
        let mut end = self.hand_in.clone();
        let (mut on, mut refusal) = (0, 0);
        while on < 1_000_000 && refusal == 0 {
            refusal = end.turn(Direction::Forward);
            on += u32::from(refusal == 0);
        }
        let at_finish = ends(&end, Direction::Forward);
        let not = "the hand-in does not stand at finish";
        let finish = match (at_finish, on) {
            (true, 0) => "the hand-in stands at finish".to_string(),
            (true, 1) => format!("{not}; 1 turn more leads there"),
            (true, _) => format!("{not}; {on} turns more lead there"),
            (false, 1_000_000) => format!("{not}, nor do 1000000 turns more lead there"),
            (false, _) => {
                let why = meaning(refusal, Call::Forward);
                let turn = on + 1;
                format!("{not}; turn {turn} from there is refused by {refusal}: {why}")
            }
        };
        let left = match (ends(&start, Direction::Back), at_finish) {
            (false, _) => "cannot be told, since it does not stand at start".to_string(),
            (true, true) => changes(&start, &end),
            (true, false) => "cannot be told, since finish is not reached".to_string(),
        };
        let left = format!("left changed between start and finish: {left}");
        vec![finish, left]
    }
}

fn changes(start: &Machine, end: &Machine) -> String {
    let list: Vec<String> = named(start, start)
        .into_iter()
        .zip(named(end, start))
        .filter(|((name, old), (_, new))| {
            let data = name.starts_with("data word");
            let register = name != "pc" && REGISTERS.split(' ').any(|register| register == name);
            old != new && (data || register)
        })
        .map(|((name, old), (_, new))| format!("{name} {} -> {}", word(old), word(new)))
        .collect();
    match list.len() {
        0 => "nothing but pc".to_string(),
        _ => list.join(", "),
    }
}
