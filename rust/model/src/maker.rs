//! The making of a qif table (document 02, #107): the code is walked through both
//! branches of every qif, with uni and unib idle, and nodes are drawn on the way.

use crate::idle;
use crate::instruction::Instruction::{self, Finish, Fiq, Qif};
use crate::instruction::{decode, BR, PC, START};
use crate::machine::{forward, sizes_fit, Record, MAX_N, NODE, W};
use crate::nodes::Nodes;

/// The words of the largest table, which the call asks for.
pub const TABLE: usize = NODE * MAX_N as usize;
/// The words of scratch that it asks for, for each memory word.
pub const SCRATCH: usize = 16;
/// The most qifs that stand in each other.
pub const NESTING: u32 = 8;

/// What the call gives: the refusal; the cycles of any walk over the table, from
/// start to finish; and the record.
#[derive(Clone, Copy, Debug, PartialEq, Eq)]
pub struct Made {
    pub refusal: u32,
    pub cycles: u32,
    pub record: Record,
}

/// The call, of the model or of the library: the record, the limit, and the lent
/// memory, table and scratch.
pub type MakeCall = fn(Record, u32, &mut [u32], &mut [u32], &mut [u32]) -> Made;

/// Why a walk ends before its finish: the refusal, what it is for, and the kind
/// of word that it is at.
#[derive(Clone, Copy, Debug, PartialEq, Eq)]
pub struct Stop {
    pub refusal: u32,
    pub cause: &'static str,
    pub at: &'static str,
}

impl Stop {
    pub fn name(&self) -> String {
        format!("{} {} at {}", self.refusal, self.cause, self.at)
    }
}

/// The kinds of words: any but a qif and a branch's fiq, a qif, and the fiq of
/// either branch.
const WORD: &str = "a word";
const QIF: &str = "a qif";
const FIQS: [&str; 2] = ["fiq 0", "fiq 1"];

fn require(holds: bool, refusal: u32, cause: &'static str, at: &'static str) -> Result<(), Stop> {
    let stop = Stop { refusal, cause, at };
    if holds {
        Ok(())
    } else {
        Err(stop)
    }
}

/// Where a walk stands.
#[derive(Clone)]
struct Place {
    record: Record,
    mem: Vec<u32>,
    node: u32,
}

impl Place {
    fn instruction(&self) -> Option<Instruction> {
        let pc = self.record.regs[PC];
        let word = (pc < self.record.k).then(|| self.mem[pc as usize]);
        word.and_then(decode)
    }

    /// The turn of a word that is neither qif nor fiq.
    fn turn(&mut self) -> Result<(), Stop> {
        let (refusal, record) = idle::turn(forward, self.record, &mut self.mem, &[]);
        self.record = record;
        require(refusal == 0, refusal, "turn", WORD)
    }

    /// The turn of a qif or fiq, whose nodes are drawn elsewhere.
    fn pass(&mut self, at: &'static str) -> Result<(), Stop> {
        let (refusal, record) = idle::pass(forward, self.record, &mut self.mem, &[]);
        self.record = record;
        require(refusal == 0, refusal, "turn", at)
    }
}

/// A branch at its fiq, and its cycles from after the qif through the fiq.
struct Ended {
    place: Place,
    cycles: u32,
}

impl Ended {
    /// 24 unless the fiq names the register of the qif, which holds the coin.
    fn matches(&self, reg: usize, coin: usize) -> Result<(), Stop> {
        let named = matches!(self.place.instruction(), Some(Fiq { a }) if usize::from(a) == reg);
        require(named, 24, "name", FIQS[coin])?;
        let held = self.place.record.regs[reg];
        require(held == coin as u32, 24, "coin", FIQS[coin])
    }

    /// 24 unless both branches stand alike, the coin apart.
    fn meets(&self, other: &Ended, reg: usize) -> Result<(), Stop> {
        let (ours, mut theirs) = (self.place.record.regs, other.place.record.regs);
        theirs[reg] = ours[reg];
        require(ours[PC] == theirs[PC], 24, "pc", FIQS[1])?;
        require(ours[BR] == theirs[BR], 24, "br", FIQS[1])?;
        require(ours == theirs, 24, "registers", FIQS[1])?;
        let equal = self.place.mem == other.place.mem;
        require(equal, 24, "memory", FIQS[1])
    }
}

/// A walk as far as it went: the cycles that the limit counts, waits apart; the
/// qifs that stood in each other at most; and the nodes drawn.
#[derive(Clone, Debug)]
pub struct Walk {
    limit: u32,
    pub walked: u32,
    pub deepest: u32,
    pub nodes: Nodes,
}

impl Walk {
    fn cycle(&mut self, at: &'static str) -> Result<(), Stop> {
        require(self.walked < self.limit, 23, "limit", at)?;
        self.walked += 1;
        Ok(())
    }

    /// So many new nodes, or none where not all have room.
    fn draw<const COUNT: usize>(&mut self, at: &'static str) -> Result<[u32; COUNT], Stop> {
        let count = self.nodes.count() + COUNT as u32;
        require(count <= MAX_N, 23, "nodes", at)?;
        Ok(std::array::from_fn(|_| self.nodes.add(0)))
    }

    /// Walks a branch to its fiq, or with nesting 0 the program to its finish;
    /// gives the cycles up to there, waits too.
    fn branch(&mut self, place: &mut Place, nesting: u32) -> Result<u32, Stop> {
        let mut cycles = 0;
        loop {
            match place.instruction() {
                Some(Finish) if nesting == 0 => return Ok(cycles),
                Some(Fiq { .. }) => {
                    require(nesting > 0, 17, "turn", WORD)?;
                    return Ok(cycles);
                }
                Some(Qif { a }) => cycles += self.qif(place, a.into(), nesting)?,
                _ => {
                    place.turn()?;
                    self.cycle(WORD)?;
                    cycles += 1;
                }
            }
        }
    }

    /// Walks a qif and both its branches, and goes on behind their fiq; gives its
    /// cycles, from the qif through the fiq.
    fn qif(&mut self, place: &mut Place, reg: usize, nesting: u32) -> Result<u32, Stop> {
        let before = place.record.regs[reg];
        place.pass(QIF)?;
        self.cycle(QIF)?;
        require(nesting < NESTING, 23, "nesting", QIF)?;
        self.deepest = self.deepest.max(nesting + 1);
        let first: [u32; 2] = self.draw(QIF)?;
        let zero = self.side(place, reg, 0, first[0], nesting + 1)?;
        zero.matches(reg, 0)?;
        let one = self.side(place, reg, 1, first[1], nesting + 1)?;
        // Its 23 comes before 24.
        let [next] = self.draw(FIQS[1])?;
        one.matches(reg, 1)?;
        zero.meets(&one, reg)?;
        let longer = zero.cycles.max(one.cycles);
        for (coin, ended) in [&zero, &one].into_iter().enumerate() {
            self.nodes.first_child(place.node, coin, first[coin]);
            self.nodes.last_child(place.node, coin, ended.place.node);
            self.nodes.set(first[coin], W, longer - ended.cycles);
        }
        self.nodes.next(place.node, next);
        *place = one.place;
        place.pass(FIQS[1])?;
        place.record.regs[reg] = before;
        place.node = next;
        Ok(1 + longer)
    }

    /// Walks the branch of a coin from its first child through its fiq.
    fn side(
        &mut self,
        from: &Place,
        reg: usize,
        coin: usize,
        node: u32,
        nesting: u32,
    ) -> Result<Ended, Stop> {
        let mut place = from.clone();
        place.record.regs[reg] = coin as u32;
        place.node = node;
        let cycles = self.branch(&mut place, nesting)?;
        // 18 comes before the rest. The branch stays at its fiq, where the two are
        // compared.
        place.clone().pass(FIQS[coin])?;
        self.cycle(FIQS[coin])?;
        let cycles = cycles + 1;
        Ok(Ended { place, cycles })
    }
}

/// Walks the code of a record that stands at its start; gives the cycles of any
/// walk over the table, or why there is none, and the walk.
pub fn walk(r: Record, limit: u32, mem: &[u32]) -> (Result<u32, Stop>, Walk) {
    let mut walk = Walk {
        limit,
        walked: 0,
        deepest: 0,
        nodes: Nodes::default(),
    };
    let mut place = Place {
        record: r,
        mem: mem[..r.m as usize].to_vec(),
        node: walk.nodes.add(0),
    };
    (walk.branch(&mut place, 0), walk)
}

/// Whether the record is as the call wants it and enough words are lent; the
/// sizes fit.
fn ready(r: &Record, mem: &[u32], table: &[u32], scratch: &[u32]) -> bool {
    let pc = r.regs[PC];
    let at_start = pc < r.k && mem[pc as usize] == START;
    let lent = table.len() >= TABLE && scratch.len() >= SCRATCH * r.m as usize;
    at_start && r.n == 0 && r.qifw == 0 && lent
}

/// Makes the table in its first 4,599 words. The model walks on copies, so that
/// memory and scratch are only read.
pub fn make_table(
    r: Record,
    limit: u32,
    mem: &mut [u32],
    table: &mut [u32],
    scratch: &mut [u32],
) -> Made {
    let refused = |refusal| Made {
        refusal,
        cycles: 0,
        record: r,
    };
    if !sizes_fit(&r, mem, table) {
        return refused(10);
    }
    if !ready(&r, mem, table, scratch) {
        return refused(22);
    }
    table[..TABLE].fill(0);
    let (end, walk) = walk(r, limit, mem);
    let cycles = match end {
        Ok(cycles) => cycles,
        Err(stop) => return refused(stop.refusal),
    };
    let words = walk.nodes.words();
    table[..words.len()].copy_from_slice(&words);
    let (n, qifv) = (walk.nodes.count(), 1);
    let record = Record { n, qifv, ..r };
    Made {
        refusal: 0,
        cycles,
        record,
    }
}
