//! Counts of what a test reached, and of what it has missed.

use crate::instruction::Instruction::{self, AribLess};
use crate::instruction::{decode, opcode, para, Access, BR, FINISH, KINDS, PC, START};
use crate::machine::{step, Record};
use crate::nodes::depth;
use crate::state::{Machine, Way, WAYS};

/// Refusals told apart: with qifw 0 and waiting; the two kinds of 14, of which
/// the first is also counted at a finish; and 15 by the access and its address.
const REFUSALS: [&str; 25] = [
    "10",
    "11",
    "11 waiting",
    "12",
    "12 waiting",
    "13",
    "13 waiting",
    "14 word",
    "14 finish",
    "14 count",
    "15 copy below M",
    "15 copy at M",
    "15 copy above M",
    "15 exchange in data",
    "15 exchange at M",
    "15 exchange above M",
    "15 exchange in code",
    "16",
    "16 waiting",
    "17",
    "17 waiting",
    "18",
    "18 waiting",
    "21",
    "21 waiting",
];

/// Whether a kind of refusal can occur in a direction; 15 at a good address
/// can in neither.
fn reachable(way: Way, name: &str) -> bool {
    let never: &[&str] = match way {
        Way::Forward => &["14 finish"],
        Way::Back => &["12 waiting", "18 waiting"],
    };
    let good = ["15 copy below M", "15 exchange in data"];
    !never.contains(&name) && !good.contains(&name)
}

/// What accepted turns come by; four are about the position, and the last three
/// about the signs of what a less compares.
const EVENTS: [&str; 12] = [
    "wait entered",
    "wait continued",
    "wait ended",
    "nested qif",
    "jump",
    "to the last position",
    "from the first position",
    "from below 0",
    "high word changed",
    "less, reg2 alone negative",
    "less, reg3 alone negative",
    "less, both negative",
];

/// What accepted copies read, and how they come to the address.
const COPIES: [&str; 13] = [
    "copy of data",
    "copy of code",
    "copy of code, no data",
    "copy at 0",
    "copy at K-1",
    "copy at K",
    "copy at M-1",
    "copy of start",
    "copy of finish",
    "copy of no instruction",
    "copy of the word behind",
    "copy by pc",
    "copy by pc, br not 0",
];

#[derive(Clone, Debug, Default)]
struct Counts {
    refused: [u64; REFUSALS.len()],
    accepted: [u64; KINDS.len()],
    events: [u64; EVENTS.len()],
    copies: [u64; COPIES.len()],
}

impl Counts {
    /// What accepted turns came by and copied, by name.
    fn met(&self) -> impl Iterator<Item = (&&str, u64)> {
        let events = EVENTS.iter().zip(self.events);
        events.chain(COPIES.iter().zip(self.copies))
    }
}

#[derive(Clone, Debug, Default)]
pub struct Cover {
    turns: [Counts; 2],
    named: Vec<(String, u64)>,
}

/// The turn's own pc.
fn own_pc(r: &Record, way: Way) -> u32 {
    if way == Way::Forward || r.qifw > 0 {
        r.regs[PC]
    } else {
        r.regs[PC].wrapping_sub(step(r.regs[BR]))
    }
}

/// The word that a turn executes or undoes, if pc leads to one.
pub fn word_at(r: &Record, mem: &[u32], way: Way) -> Option<u32> {
    mem.get(own_pc(r, way) as usize).copied()
}

/// The instruction that this word is, and the registers as it reads them.
fn instruction_at(r: &Record, mem: &[u32], way: Way) -> Option<(Instruction, [u32; 16])> {
    let mut regs = r.regs;
    regs[PC] = own_pc(r, way);
    let ins = word_at(r, mem, way).and_then(decode)?;
    Some((ins, regs))
}

/// The access of that word to memory, if it has one.
pub fn access_at(r: &Record, mem: &[u32], way: Way) -> Option<Access> {
    let (ins, regs) = instruction_at(r, mem, way)?;
    ins.access(&regs)
}

/// Where an address is from M: 0 below, 1 at, 2 above.
fn side(address: u32, m: u32) -> usize {
    usize::from(address >= m) + usize::from(address > m)
}

fn refusal_index(refusal: u32, r: &Record, word: Option<u32>, access: Option<Access>) -> usize {
    let is_qif = word.and_then(decode).is_some_and(|ins| ins.is_qif());
    let waiting = usize::from(r.qifw > 0);
    match refusal {
        11..=13 => 2 * (refusal as usize - 11) + 1 + waiting,
        14 if is_qif => 9,
        14 => 7 + usize::from(word == Some(FINISH)),
        15 => match access.expect("15 without an access") {
            Access::Exchange(address) if address < r.k => 16,
            Access::Exchange(address) => 13 + side(address, r.m),
            Access::Copy(address) => 10 + side(address, r.m),
        },
        16..=18 => 2 * (refusal as usize - 16) + 17 + waiting,
        21 => 23 + waiting,
        10 => 0,
        _ => panic!("{refusal} is no refusal of a turn"),
    }
}

/// Which of EVENTS an accepted turn comes by; `old` is the record before it.
fn event_kinds(way: Way, old: &Record, machine: &Machine) -> [bool; EVENTS.len()] {
    let after = &machine.record;
    let (waited, waits) = (old.qifw > 0, after.qifw > 0);
    let (from, to) = (old.position, after.position);
    let inner = || depth(&machine.table, after.n, after.qifv).is_some_and(|d| d > 1);
    let at = instruction_at(old, &machine.mem, way);
    let is_qif = at.is_some_and(|(ins, _)| ins.is_qif());
    // Whether reg2 and reg3 of a less are negative.
    let [reg2, reg3] = match at {
        Some((AribLess { b, c, .. }, regs)) => [b, c].map(|reg| regs[usize::from(reg)] >> 31 == 1),
        _ => [false; 2],
    };
    [
        !waited && waits,
        waited && waits,
        waited && !waits,
        is_qif && inner(),
        after.regs[BR] != 0,
        to == way.last_position(),
        from == way.reverse().last_position(),
        from < 0,
        from >> 32 != to >> 32,
        reg2 && !reg3,
        !reg2 && reg3,
        reg2 && reg3,
    ]
}

/// Which of COPIES an accepted turn is, where it copies from this address; `old`
/// is the record before it.
fn copy_kinds(way: Way, old: &Record, mem: &[u32], address: u32) -> [bool; COPIES.len()] {
    let own = own_pc(old, way);
    let in_code = address < old.k;
    let word = mem[address as usize];
    let by_pc = word_at(old, mem, way).is_some_and(|word| (word >> 16) & 15 == PC as u32);
    // Only where 0, K-1, K and M-1 are four addresses is a copy at one of them no
    // copy at another.
    let apart = old.k > 1 && old.m > old.k + 1;
    [
        !in_code,
        in_code,
        in_code && old.k == old.m,
        apart && address == 0,
        apart && address == old.k - 1,
        apart && address == old.k,
        apart && address == old.m - 1,
        in_code && word == START,
        in_code && word == FINISH,
        in_code && decode(word).is_none(),
        in_code && address == own.wrapping_add(1),
        by_pc,
        by_pc && old.regs[BR] != 0,
    ]
}

/// Counts what was met.
fn add<const N: usize>(times: &mut [u64; N], met: [bool; N]) {
    for (times, met) in times.iter_mut().zip(met) {
        *times += u64::from(met);
    }
}

fn kind_index(word: u32) -> Option<usize> {
    let own_para = if opcode(word) >= 32 { para(word) } else { 0 };
    KINDS
        .iter()
        .position(|kind| *kind == (opcode(word), own_para))
}

impl Cover {
    /// Counts one turn from the record `old` to what `machine` is now; code
    /// and table are the same before and after.
    pub fn turn(&mut self, way: Way, old: &Record, refusal: u32, machine: &Machine) {
        let word = word_at(old, &machine.mem, way);
        let access = access_at(old, &machine.mem, way);
        let counts = &mut self.turns[way as usize];
        if refusal != 0 {
            counts.refused[refusal_index(refusal, old, word, access)] += 1;
            return;
        }
        let Some(kind) = word.and_then(kind_index) else {
            return;
        };
        counts.accepted[kind] += 1;
        add(&mut counts.events, event_kinds(way, old, machine));
        if let Some(Access::Copy(address)) = access {
            add(
                &mut counts.copies,
                copy_kinds(way, old, &machine.mem, address),
            );
        }
    }

    /// Counts something by name.
    pub fn count(&mut self, name: &str) {
        match self.named.iter_mut().find(|(known, _)| known == name) {
            Some((_, times)) => *times += 1,
            None => self.named.push((name.to_string(), 1)),
        }
    }

    /// How often something was counted.
    pub fn times(&self, name: &str) -> u64 {
        self.named
            .iter()
            .find(|(known, _)| known == name)
            .map_or(0, |(_, times)| *times)
    }

    /// Fails if one of the names was never counted.
    pub fn demand(&self, names: &[&str]) {
        let missed: Vec<_> = names.iter().filter(|n| self.times(n) == 0).collect();
        assert!(missed.is_empty(), "never reached: {missed:?}");
    }

    /// Fails if some kind of copy was not reached in one of the directions.
    pub fn demand_copies(&self) {
        for way in WAYS {
            let copies = COPIES.iter().zip(self.turns[way as usize].copies);
            let missed: Vec<_> = copies.filter(|(_, times)| *times == 0).collect();
            assert!(missed.is_empty(), "{way:?} never reached: {missed:?}");
        }
    }

    /// Fails if some refusal, instruction, event or copy was not reached in one
    /// of the directions; finish is never accepted.
    pub fn demand_turns(&self) {
        let mut missed = Vec::new();
        for way in WAYS {
            let counts = &self.turns[way as usize];
            for (name, times) in REFUSALS.iter().zip(counts.refused) {
                if (times > 0) != reachable(way, name) {
                    missed.push(format!("{way:?} refusal {name}: {times}"));
                }
            }
            for (kind, times) in KINDS.iter().zip(counts.accepted) {
                if (times == 0) != (kind.0 == 27) {
                    missed.push(format!("{way:?} opcode and para {kind:?}: {times}"));
                }
            }
            for (name, times) in EVENTS.iter().zip(counts.events) {
                if times == 0 {
                    missed.push(format!("{way:?} {name}"));
                }
            }
        }
        assert!(missed.is_empty(), "not as expected: {missed:?}");
        self.demand_copies();
    }

    /// One line of counts.
    pub fn summary(&self, title: &str) {
        let mut line = format!("{title}:");
        for way in WAYS {
            let counts = &self.turns[way as usize];
            let accepted: u64 = counts.accepted.iter().sum();
            if accepted + counts.refused.iter().sum::<u64>() == 0 {
                continue;
            }
            line += &format!(" {way:?} accepted {accepted}");
            for (name, times) in REFUSALS.iter().zip(counts.refused) {
                line += &format!(", {name}: {times}");
            }
            for (name, times) in counts.met() {
                line += &format!(", {name} {times}");
            }
            line += ";";
        }
        for (name, times) in &self.named {
            line += &format!(" {name} {times};");
        }
        println!("{line}");
    }
}
