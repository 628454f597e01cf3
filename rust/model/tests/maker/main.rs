//! The making of a qif table (document 02, #107): library, lesson bench and model
//! on examples worked out by hand, at the edges of every refusal and on random
//! programs, and walks over the tables made.

#[path = "../proved/mod.rs"]
mod proved;

mod any_order;
mod apart;
mod by_hand;
mod entry;
mod followed;
mod levels;
mod limits;
mod multiplexor;
mod nodes;
mod order;
mod programs;
mod stops;

use std::fmt;

use crank_model::machine::{Record, NODE};
use crank_model::maker::{Made, MakeCall, SCRATCH, TABLE};
use crank_model::rng::Rng;
use crank_model::state::Machine;
use followed::{all_walks, Most, Walked};
use proved::MAKERS;

/// Words of the code in the tests by hand. Coins are r1, r2 and r3.
const START: u32 = 0x1A00_0000;
const FINISH: u32 = 0x1B00_0000;
const QIF: u32 = 0x1840_0000;
const QIF2: u32 = 0x1850_0000;
const QIF3: u32 = 0x1860_0000;
const FIQ: u32 = 0x1940_0000;
const FIQ2: u32 = 0x1950_0000;
const FIQ3: u32 = 0x1960_0000;
/// uni 1,r1, uni 1,r4 and unib 1,r2,r3.
const GATE1: u32 = 0x2040_0100;
const GATE: u32 = 0x2070_0100;
const CNOT: u32 = 0x2156_0100;
/// No instruction.
const NONE: u32 = 0;

/// Jumps over fewer than 32,768 words: bra, bez r1 and bnz r1.
const fn bra(offset: u32) -> u32 {
    0x0500_0000 | offset & 0xFFFF
}
const fn bez(offset: u32) -> u32 {
    0x0640_0000 | offset & 0xFFFF
}
const fn bnz(offset: u32) -> u32 {
    0x0740_0000 | offset & 0xFFFF
}

/// What stands in lent words that are not the machine's.
const OTHER: u32 = 0xA5A5_A5A5;

/// What the call is given.
#[derive(Clone)]
struct Case {
    machine: Machine,
    limit: u32,
    scratch: Vec<u32>,
}

/// What it leaves: its answer, the lent words, and the record as it was given.
#[derive(Clone)]
struct Left {
    made: Made,
    machine: Machine,
    scratch: Vec<u32>,
}

/// Without the words of table and scratch, which are thousands.
impl fmt::Debug for Case {
    fn fmt(&self, f: &mut fmt::Formatter) -> fmt::Result {
        let (table, scratch) = (self.machine.table.len(), self.scratch.len());
        write!(f, "limit {}, ", self.limit)?;
        write!(f, "table {table}, scratch {scratch}, ")?;
        write!(f, "{:?}, ", self.machine.record)?;
        write!(f, "memory {:x?}", self.machine.mem)
    }
}

/// A machine at the start of this code, with these data words.
fn machine(code: &[u32], data: &[u32]) -> Machine {
    let mem = [code, data].concat();
    let start = code.iter().position(|word| *word == START);
    let mut record = Record {
        k: code.len() as u32,
        m: mem.len() as u32,
        position: 7,
        ..Record::default()
    };
    record.regs[0] = start.unwrap_or(0) as u32;
    let table = Vec::new();
    Machine { record, mem, table }
}

impl Case {
    /// The call with enough words lent, and a few more.
    fn new(mut machine: Machine, limit: u32) -> Case {
        machine.mem.push(OTHER);
        machine.table = vec![OTHER; TABLE + 2];
        let scratch = vec![!OTHER; SCRATCH * machine.record.m as usize + 3];
        Case {
            machine,
            limit,
            scratch,
        }
    }

    fn limited(&self, limit: u32) -> Case {
        let case = self.clone();
        Case { limit, ..case }
    }

    /// Makes the call and checks what holds of every answer.
    fn make(&self, name: &str, call: MakeCall) -> Left {
        let mut machine = self.machine.clone();
        let mut scratch = self.scratch.clone();
        let made = call(
            machine.record,
            self.limit,
            &mut machine.mem,
            &mut machine.table,
            &mut scratch,
        );
        let left = Left {
            made,
            machine,
            scratch,
        };
        assert!(
            self.allows(&left),
            "{name} gives {:?} of {self:?}",
            left.made
        );
        left
    }

    /// Memory is as it was, and so are all other words but those that the call may
    /// write; a refused one gives the record back, with zeros for nodes.
    fn allows(&self, left: &Left) -> bool {
        let (given, made) = (&self.machine, &left.made);
        let writes = ![10, 22].contains(&made.refusal);
        let (table, scratch) = match writes {
            true => (TABLE, SCRATCH * given.record.m as usize),
            false => (0, 0),
        };
        let rest = left.machine.mem == given.mem
            && left.machine.table[table..] == given.table[table..]
            && left.scratch[scratch..] == self.scratch[scratch..];
        let n = match made.refusal {
            0 => made.record.n,
            _ => 0,
        };
        let spare = &left.machine.table[(NODE * n as usize).min(table)..table];
        let mut record = given.record;
        if made.refusal == 0 {
            (record.n, record.qifv) = (n, 1);
        }
        rest && spare.iter().all(|word| *word == 0)
            && made.record == record
            && (made.cycles == 0) == (made.refusal != 0)
    }

    /// The call of every maker, which all give the same; what the model leaves.
    fn same(&self) -> Left {
        let [(_, model), others @ ..] = MAKERS.map(|(name, call)| (name, self.make(name, call)));
        for (name, left) in &others {
            assert_eq!(model.made, left.made, "{name}: {self:?}");
            assert!(
                model.machine.table == left.machine.table,
                "tables of {self:?}: model {:?}, {name} {:?}",
                nodes_of(&model),
                nodes_of(left)
            );
        }
        model
    }

    /// Every maker refuses by this number.
    fn refused(&self, refusal: u32) {
        assert_ne!(refusal, 0, "{self:?}");
        for (name, call) in MAKERS {
            let left = self.make(name, call);
            assert_eq!(left.made.refusal, refusal, "{name}: {self:?}");
        }
    }

    /// Every maker gives these cycles and these nodes, and no others; the walks over
    /// them.
    fn gives(&self, cycles: u32, nodes: &[[u32; NODE]]) -> Walked {
        for (name, call) in MAKERS {
            let left = self.make(name, call);
            let found = (left.made.refusal, left.made.cycles);
            assert_eq!(found, (0, cycles), "{name}: {self:?}");
            assert_eq!(nodes_of(&left), nodes, "{name}: {self:?}");
        }
        self.walked()
    }

    /// The walks over the table that every maker gives, a few if there are many.
    fn walked(&self) -> Walked {
        all_walks(self, &self.same(), &Most::FEW, &mut Rng::new(150))
    }
}

/// The nodes made, one a row.
fn nodes_of(left: &Left) -> Vec<[u32; NODE]> {
    let words = &left.machine.table[..NODE * left.made.record.n as usize];
    let node = |words: &[u32]| std::array::from_fn(|i| words[i]);
    words.chunks(NODE).map(node).collect()
}
