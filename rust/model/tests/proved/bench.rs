//! The lesson bench, and its calls as those by value are called.

use std::hint::black_box;

use super::records::{given, got};
use super::{preview, Batch, Made, Preview, Record, Wheeled};
use crank::calls;

/// The lesson bench.
pub struct Bench(calls::Bench);

impl Bench {
    pub fn new(r: Record) -> Bench {
        Bench(calls::Bench { state: given(r) })
    }

    /// The compiler may else take a bench that is lent for reading as unchanged.
    pub fn record(&self) -> Record {
        got(black_box(&self.0).state)
    }

    pub fn forward(&mut self, mem: &mut [u32], table: &[u32]) -> u32 {
        self.0.forward(mem, table)
    }

    pub fn back(&mut self, mem: &mut [u32], table: &[u32]) -> u32 {
        self.0.back(mem, table)
    }

    /// The answer, with the record that the bench then has.
    fn batch(&self, made: calls::Cranked) -> Batch {
        Batch {
            turns: made.turns,
            refusal: made.refusal,
            record: self.record(),
        }
    }

    pub fn forward_batch(&mut self, n: u32, mem: &mut [u32], table: &[u32]) -> Batch {
        let made = self.0.forward_batch(n, mem, table);
        self.batch(made)
    }

    pub fn back_batch(&mut self, n: u32, mem: &mut [u32], table: &[u32]) -> Batch {
        let made = self.0.back_batch(n, mem, table);
        self.batch(made)
    }

    /// The answer, likewise.
    pub fn samples(&mut self, before: u8, list: &[u8], mem: &mut [u32], table: &[u32]) -> Wheeled {
        let sampled = self.0.samples(before, list, mem, table);
        Wheeled {
            forward: sampled.forward,
            back: sampled.back,
            refused: sampled.refused,
            last: sampled.last,
            refusal: sampled.refusal,
            record: self.record(),
        }
    }

    pub fn preview_forward(&self, mem: &[u32], table: &[u32]) -> Preview {
        preview(self.0.preview_forward(mem, table))
    }

    pub fn preview_back(&self, mem: &[u32], table: &[u32]) -> Preview {
        preview(self.0.preview_back(mem, table))
    }

    /// The record is that of the answer, and not the bench's.
    pub fn load(&mut self, file: &[u8], mem: &mut [u32], table: &mut [u32]) -> (u32, Record) {
        let loaded = self.0.load(file, mem, table);
        (loaded.refusal, got(loaded.state))
    }

    pub fn save(&self, mem: &[u32], table: &[u32], out: &mut [u8]) -> u32 {
        self.0.save(mem, table, out)
    }

    pub fn check(&self, mem: &[u32], table: &[u32]) -> (u32, u32) {
        let checked = self.0.check(mem, table);
        (checked.refusal, checked.place)
    }

    pub fn check_node(&self, node: u32, mem: &[u32], table: &[u32]) -> u32 {
        self.0.check_node(node, mem, table)
    }

    /// The answer, with the record that the bench then has.
    pub fn make_table(
        &mut self,
        limit: u32,
        mem: &mut [u32],
        table: &mut [u32],
        scratch: &mut [u32],
    ) -> Made {
        let tabled = self.0.make_table(limit, mem, table, scratch);
        Made {
            refusal: tabled.refusal,
            cycles: tabled.cycles,
            record: self.record(),
        }
    }
}

pub fn forward(r: Record, mem: &mut [u32], table: &[u32]) -> (u32, Record) {
    let mut bench = Bench::new(r);
    (bench.forward(mem, table), bench.record())
}

pub fn back(r: Record, mem: &mut [u32], table: &[u32]) -> (u32, Record) {
    let mut bench = Bench::new(r);
    (bench.back(mem, table), bench.record())
}

pub fn forward_batch(r: Record, n: u32, mem: &mut [u32], table: &[u32]) -> Batch {
    Bench::new(r).forward_batch(n, mem, table)
}

pub fn back_batch(r: Record, n: u32, mem: &mut [u32], table: &[u32]) -> Batch {
    Bench::new(r).back_batch(n, mem, table)
}

pub fn samples(r: Record, given: u8, list: &[u8], mem: &mut [u32], table: &[u32]) -> Wheeled {
    Bench::new(r).samples(given, list, mem, table)
}

/// What a call that only looks at the bench gives; the bench's record must be as
/// it was.
fn looking<A>(r: Record, call: impl FnOnce(&Bench) -> A) -> A {
    let bench = Bench::new(r);
    let answer = call(&bench);
    assert_eq!(bench.record(), r, "the record of a bench that is looked at");
    answer
}

pub fn preview_forward(r: Record, mem: &[u32], table: &[u32]) -> Preview {
    looking(r, |bench| bench.preview_forward(mem, table))
}

pub fn preview_back(r: Record, mem: &[u32], table: &[u32]) -> Preview {
    looking(r, |bench| bench.preview_back(mem, table))
}

/// A turn made as the bench's preview shows it.
pub fn forward_as_shown(r: Record, mem: &mut [u32], table: &[u32]) -> (u32, Record) {
    preview_forward(r, mem, table).make(mem)
}

/// The turn back, likewise.
pub fn back_as_shown(r: Record, mem: &mut [u32], table: &[u32]) -> (u32, Record) {
    preview_back(r, mem, table).make(mem)
}

pub fn save(r: Record, mem: &[u32], table: &[u32], out: &mut [u8]) -> u32 {
    looking(r, |bench| bench.save(mem, table, out))
}

pub fn check(r: Record, mem: &[u32], table: &[u32]) -> (u32, u32) {
    looking(r, |bench| bench.check(mem, table))
}

pub fn check_node(r: Record, node: u32, mem: &[u32], table: &[u32]) -> u32 {
    looking(r, |bench| bench.check_node(node, mem, table))
}

/// What a bench has before a load where the test does not say: no image in the
/// tests has it.
const BEFORE: Record = Record {
    regs: [0xB00C_B00C; 16],
    qifv: 3,
    qifw: 4,
    k: 5,
    m: 6,
    n: 7,
    position: -8,
};

/// A load on a bench with this record. The bench must then have the record of the
/// answer; refused, the one before.
pub fn load_over(before: Record, file: &[u8], mem: &mut [u32], table: &mut [u32]) -> (u32, Record) {
    let mut bench = Bench::new(before);
    let (refusal, record) = bench.load(file, mem, table);
    let after = if refusal == 0 { record } else { before };
    assert_eq!(bench.record(), after, "the bench after a load, {refusal}");
    (refusal, record)
}

pub fn load(file: &[u8], mem: &mut [u32], table: &mut [u32]) -> (u32, Record) {
    load_over(BEFORE, file, mem, table)
}

pub fn make_table(
    r: Record,
    limit: u32,
    mem: &mut [u32],
    table: &mut [u32],
    scratch: &mut [u32],
) -> Made {
    Bench::new(r).make_table(limit, mem, table, scratch)
}
