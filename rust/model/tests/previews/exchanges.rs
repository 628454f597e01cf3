//! Exchanges and copies at the edges of code and data, of equal and of unequal
//! words.

use crank_model::cover::Cover;
use crank_model::instruction::{word_i, word_r, BR, PC, START};
use crank_model::machine::Record;
use crank_model::preview::Preview;
use crank_model::state::{Machine, Way, WAYS};

use super::proved::by_callers;
use super::{demand_cases, one_preview, refused};

const R1: usize = 4;
const R2: usize = 5;
const LD: u32 = 1;
const LDR: u32 = 16;
const FETR: u32 = 17;
const OPCODES: [u32; 3] = [LD, LDR, FETR];

/// An ld, ldr or fetr of r1 over an address, which r2 holds too.
#[derive(Clone, Copy, Debug)]
struct Exchange {
    opcode: u32,
    address: u32,
    register: u32,
    word: u32,
}

impl Exchange {
    fn instruction(&self) -> u32 {
        match self.opcode {
            LD => word_i(LD, R1, self.address),
            opcode => word_r(opcode, R1, R2),
        }
    }

    /// The instruction at address 0, and pc so that a turn executes or undoes
    /// it; the word stands at its address, in code too, if that is lent and not
    /// the instruction's own.
    fn machine(&self, way: Way, k: u32, m: u32, excess: usize) -> Machine {
        let mut mem = vec![word_i(2, R1, 1); m as usize + excess];
        if let Some(word) = mem.get_mut(self.address as usize) {
            *word = self.word;
        }
        mem[0] = self.instruction();
        let mut regs = [7; 16];
        regs[PC] = u32::from(way == Way::Back);
        regs[BR] = 0;
        regs[R1] = self.register;
        regs[R2] = self.address;
        let record = Record {
            regs,
            k,
            m,
            ..Record::default()
        };
        Machine {
            record,
            mem,
            table: Vec::new(),
        }
    }

    fn expected(&self, way: Way, r: &Record) -> Preview {
        let in_code = self.address < r.k;
        if self.address >= r.m || (in_code && self.opcode != FETR) {
            return refused(15, r);
        }
        let mut record = *r;
        record.regs[PC] = u32::from(way == Way::Forward);
        record.position = if way == Way::Forward { 1 } else { -1 };
        record.regs[R1] = match (self.opcode, self.address) {
            (FETR, 0) => self.register ^ self.instruction(),
            (FETR, _) => self.register ^ self.word,
            _ => self.word,
        };
        let changes = self.opcode != FETR && self.register != self.word;
        Preview {
            refusal: 0,
            changes: changes.into(),
            address: if changes { self.address } else { 0 },
            value: if changes { self.register } else { 0 },
            record,
        }
    }
}

/// Places around the edges of code and data; the largest is what the
/// instruction's imm or register can hold.
fn addresses(opcode: u32, k: u32, m: u32) -> Vec<(&'static str, u32)> {
    let largest = if opcode == LD { 0xFFFF } else { u32::MAX };
    vec![
        ("0", 0),
        ("K-1", k - 1),
        ("K", k),
        ("M-1", m - 1),
        ("M", m),
        ("largest", largest),
    ]
}

/// Values of the register and the word: equal, unequal, and 0 on either side.
const VALUES: [(u32, u32); 7] = [
    (5, 5),
    (0, 0),
    (u32::MAX, u32::MAX),
    (5, 6),
    (0, 9),
    (9, 0),
    (u32::MAX, 0x7FFF_FFFF),
];

/// Each of these at each of those, by the name of its place.
fn exchanges(k: u32, m: u32) -> Vec<(&'static str, Exchange)> {
    let mut all = Vec::new();
    for opcode in OPCODES {
        for (edge, address) in addresses(opcode, k, m) {
            let of_values = |(register, word)| Exchange {
                opcode,
                address,
                register,
                word,
            };
            all.extend(VALUES.map(of_values).map(|exchange| (edge, exchange)));
        }
    }
    all
}

fn at_edges(k: u32, m: u32, excess: usize, cover: &mut Cover) {
    for (edge, exchange) in exchanges(k, m) {
        for way in WAYS {
            let machine = exchange.machine(way, k, m, excess);
            let (shown, _) = one_preview(way, &machine, cover);
            let expected = exchange.expected(way, &machine.record);
            assert_eq!(shown, expected, "{way:?} {exchange:?}, K {k}, M {m}");
            if shown.changes == 1 {
                cover.count(&format!("{way:?} change at {edge}"));
            }
            if exchange.opcode == FETR && shown.record != machine.record {
                cover.count(&format!("{way:?} copy at {edge}"));
            }
        }
    }
}

#[test]
fn edges() {
    let mut cover = Cover::default();
    for (k, m) in [(1, 1), (1, 2), (2, 2), (3, 7), (1, 8192), (8191, 8192)] {
        for excess in [0, 1, 5] {
            at_edges(k, m, excess, &mut cover);
        }
    }
    at_edges(8192, 8192, 2, &mut cover);
    cover.summary(&by_callers("exchanges at the edges"));
    // Nothing refuses a copy from code here.
    demand_cases(&cover, |case| {
        !case.starts_with("other") && *case != "fetr in code refused"
    });
    for way in WAYS {
        for edge in ["K", "M-1"] {
            cover.demand(&[&format!("{way:?} change at {edge}")]);
        }
        for edge in ["0", "K-1", "K", "M-1"] {
            cover.demand(&[&format!("{way:?} copy at {edge}")]);
        }
    }
}

/// What refuses a turn, and its refusal forward and back.
type Cause = (fn(&mut Machine), [u32; 2]);

const CAUSES: [Cause; 5] = [
    (|m| m.mem.truncate(2), [10, 10]),
    (|m| m.record.regs[PC] = u32::MAX, [11, 11]),
    (|m| m.mem[0] |= 1 << 31, [13, 13]),
    (|m| wait_at_word(&mut m.record), [14, 14]),
    (|m| m.mem[1] = START, [18, 12]),
];

fn wait_at_word(r: &mut Record) {
    r.regs[PC] = 0;
    r.qifw = 1;
}

/// The opcode and address of accesses that are accepted with K 2 and M 3, the
/// words that they change, and an address that is refused.
const ACCESSES: [(u32, u32, u32, u32); 4] = [
    (LDR, 2, 1, 1),
    (LDR, 2, 1, 3),
    (FETR, 2, 0, 3),
    (FETR, 1, 0, 3),
];

fn refused_access(way: Way, access: (u32, u32, u32, u32), cover: &mut Cover) {
    let (opcode, address, changes, bad) = access;
    let exchange = Exchange {
        opcode,
        address,
        register: 5,
        word: 6,
    };
    let good = exchange.machine(way, 2, 3, 1);
    assert_eq!(one_preview(way, &good, cover).0.changes, changes);
    let mut refused_by = |refusal, spoil: &dyn Fn(&mut Machine)| {
        let mut machine = good.clone();
        spoil(&mut machine);
        let (shown, _) = one_preview(way, &machine, cover);
        assert_eq!(shown, refused(refusal, &machine.record));
    };
    for (spoil, refusals) in CAUSES {
        refused_by(refusals[way as usize], &spoil);
    }
    refused_by(15, &|m| m.record.regs[R2] = bad);
    refused_by(21, &|m| m.record.position = way.last_position());
}

/// An exchange of unequal words that is refused changes none, and neither does a
/// copy.
#[test]
fn refused_exchanges() {
    let mut cover = Cover::default();
    for way in WAYS {
        for access in ACCESSES {
            refused_access(way, access, &mut cover);
        }
    }
    cover.summary(&by_callers("refused exchanges"));
    demand_cases(&cover, |case| {
        case.starts_with("fetr") || ["ldr refused", "ldr changes a word"].contains(case)
    });
}
