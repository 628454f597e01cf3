//! A whole state: a record with its lent memory and table, and turns and
//! batches on it in either direction.

use crate::machine::{self, Batch, Record, NODE};
use crate::rng::Rng;

/// A record with lent memory and table.
#[derive(Clone, Debug, PartialEq, Eq)]
pub struct Machine {
    pub record: Record,
    pub mem: Vec<u32>,
    pub table: Vec<u32>,
}

/// Direction of a turn.
#[derive(Clone, Copy, Debug, PartialEq, Eq)]
pub enum Way {
    Forward,
    Back,
}

pub const WAYS: [Way; 2] = [Way::Forward, Way::Back];

/// A single turn, of the model or of the library.
pub type Turn = fn(Record, &mut [u32], &[u32]) -> (u32, Record);

/// A batch, of the model or of the library.
pub type BatchCall = fn(Record, u32, &mut [u32], &[u32]) -> Batch;

impl Way {
    pub fn reverse(self) -> Way {
        match self {
            Way::Forward => Way::Back,
            Way::Back => Way::Forward,
        }
    }

    /// The position at which this direction's turns end, refused by 21.
    pub fn last_position(self) -> i64 {
        match self {
            Way::Forward => i64::MAX,
            Way::Back => i64::MIN,
        }
    }

    /// The position after so many accepted turns, if there is one.
    pub fn position_after(self, position: i64, turns: u64) -> Option<i64> {
        match self {
            Way::Forward => position.checked_add_unsigned(turns),
            Way::Back => position.checked_sub_unsigned(turns),
        }
    }

    /// The model's turn in this direction.
    pub fn model(self) -> Turn {
        match self {
            Way::Forward => machine::forward,
            Way::Back => machine::back,
        }
    }

    /// The model's batch in this direction.
    pub fn model_batch(self) -> BatchCall {
        match self {
            Way::Forward => machine::forward_batch,
            Way::Back => machine::back_batch,
        }
    }
}

impl Machine {
    /// Makes a turn and gives its refusal.
    pub fn turn(&mut self, turn: Turn) -> u32 {
        let (refusal, record) = turn(self.record, &mut self.mem, &self.table);
        self.record = record;
        refusal
    }

    /// Makes a batch and gives its answer.
    pub fn batch(&mut self, n: u32, call: BatchCall) -> Batch {
        let batch = call(self.record, n, &mut self.mem, &self.table);
        self.record = batch.record;
        batch
    }

    /// The words that the sizes count, all if there are fewer.
    pub fn counted(&self) -> (&[u32], &[u32]) {
        let m = self.mem.len().min(self.record.m as usize);
        let words = (NODE as u64 * u64::from(self.record.n)).min(self.table.len() as u64);
        (&self.mem[..m], &self.table[..words as usize])
    }

    /// Lends more words than the sizes need, now and then.
    pub fn lend_excess(&mut self, rng: &mut Rng) {
        if rng.chance(1, 2) {
            let words = rng.below(12) as usize;
            self.mem.extend(rng.words(words));
        }
        if rng.chance(1, 2) {
            let words = rng.below(30) as usize;
            self.table.extend(rng.words(words));
        }
    }
}
