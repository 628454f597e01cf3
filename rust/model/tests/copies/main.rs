//! fetr copies from code, too (document 02, #106): which addresses are good for
//! an ld, an ldr and a fetr, and what a fetr reads, both ways; by the model, the
//! library, the lesson bench and the previews, against answers written by hand.

#[path = "../proved/mod.rs"]
mod proved;

mod edges;
mod own_word;
mod sums;
mod words;

use crank_model::machine::Record;
use crank_model::preview::Preview;
use crank_model::state::{Machine, Way, WAYS};
use proved::{PREVIEWS, TURNS};

/// The address of the instruction in every machine here, and what r1 is before.
const AT: u32 = 1;
const R1: u32 = 5;

/// fetr r1,r2.
const FETR: u32 = 0x1145_0000;

/// What a turn gives: its refusal, r1 after it, and the memory word that is then
/// another, with its address.
#[derive(Clone, Copy, Debug)]
struct Answer {
    refusal: u32,
    r1: u32,
    changed: Option<(u32, u32)>,
}

const REFUSED_15: Answer = refused(15);

const fn refused(refusal: u32) -> Answer {
    Answer {
        refusal,
        r1: R1,
        changed: None,
    }
}

/// A turn that only reads.
const fn read(r1: u32) -> Answer {
    Answer {
        refusal: 0,
        r1,
        changed: None,
    }
}

/// An exchange of r1 with the word at the address.
const fn exchanged(r1: u32, address: u32) -> Answer {
    Answer {
        refusal: 0,
        r1,
        changed: Some((address, R1)),
    }
}

/// Sizes, words, br and r2 around the instruction; `next` is where pc is after
/// a forward turn of it, and so before a back turn.
#[derive(Clone, Copy, Debug)]
struct Around<'a> {
    k: u32,
    m: u32,
    mem: &'a [u32],
    br: u32,
    next: u32,
    r2: u32,
}

impl Around<'_> {
    fn machine(&self, pc: u32) -> Machine {
        let mut record = Record {
            k: self.k,
            m: self.m,
            ..Record::default()
        };
        record.regs[0] = pc;
        record.regs[1] = self.br;
        record.regs[4] = R1;
        record.regs[5] = self.r2;
        Machine {
            record,
            mem: self.mem.to_vec(),
            table: vec![7; 3],
        }
    }

    /// Where a turn begins, and what it leaves.
    fn before_and_after(&self, way: Way, answer: &Answer) -> (Machine, Machine) {
        let (from, to) = match way {
            Way::Forward => (AT, self.next),
            Way::Back => (self.next, AT),
        };
        let before = self.machine(from);
        if answer.refusal != 0 {
            return (before.clone(), before);
        }
        let mut after = self.machine(to);
        after.record.regs[4] = answer.r1;
        after.record.position = if way == Way::Forward { 1 } else { -1 };
        if let Some((address, word)) = answer.changed {
            after.mem[address as usize] = word;
        }
        (before, after)
    }

    /// The turn in one direction, by every caller, and shown; gives how often.
    fn one_way(&self, way: Way, answer: &Answer) -> usize {
        let (before, after) = self.before_and_after(way, answer);
        for (name, turns) in TURNS {
            let mut machine = before.clone();
            let refusal = machine.turn(turns[way as usize]);
            assert_eq!(refusal, answer.refusal, "{name} {way:?} {self:x?}");
            assert_eq!(machine, after, "{name} {way:?} {self:x?}");
        }
        let (address, value) = answer.changed.unwrap_or((0, 0));
        let expected = Preview {
            refusal: answer.refusal,
            changes: answer.changed.is_some().into(),
            address,
            value,
            record: after.record,
        };
        for (name, calls) in PREVIEWS {
            let shown = before.preview(calls[way as usize]);
            assert_eq!(shown, expected, "{name} {way:?} {self:x?}");
        }
        TURNS.len() + PREVIEWS.len()
    }

    /// The same answer in both directions: these words undo themselves.
    fn both_ways(&self, answer: &Answer) -> usize {
        WAYS.iter().map(|way| self.one_way(*way, answer)).sum()
    }
}
