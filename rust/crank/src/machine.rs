//! A record together with the memory and the table that it is turned with.

use crate::calls::{self, Batch, Checked, Preview, Sampled};
use crate::{image_length, Kind, Record, MAX_IMAGE, MAX_NODES, MAX_WORDS, NODE_WORDS};

/// The words of scratch that the making of a table asks for, for each memory word.
const SCRATCH: usize = 16;

/// The direction of a turn.
#[derive(Clone, Copy, Debug, PartialEq, Eq)]
pub enum Direction {
    /// Executes a word.
    Forward,
    /// Undoes one.
    Back,
}

impl Direction {
    /// The other direction.
    pub fn reverse(self) -> Direction {
        match self {
            Direction::Forward => Direction::Back,
            Direction::Back => Direction::Forward,
        }
    }
}

/// What a number of turns came to.
#[derive(Clone, Copy, Debug, PartialEq, Eq)]
pub struct Made {
    /// The turns made.
    pub turns: u64,
    /// The refusal of the next turn where fewer were made than asked for, else 0.
    pub refusal: u32,
}

/// A state of the machine: record, memory and table. Any values may stand in it, and every call on
/// it answers, with a refusal where they do not fit.
#[derive(Clone, Debug, PartialEq, Eq)]
pub struct Machine {
    pub record: Record,
    pub mem: Vec<u32>,
    pub table: Vec<u32>,
}

impl Machine {
    /// A machine with the first `k` words of `mem` as code, whose registers, node, wait and position
    /// are 0.
    pub fn new(k: u32, mem: Vec<u32>, table: Vec<u32>) -> Machine {
        let record = Record {
            k,
            m: mem.len() as u32,
            n: (table.len() / NODE_WORDS) as u32,
            ..Record::default()
        };
        Machine { record, mem, table }
    }

    /// The state in an image, after any preface.
    ///
    /// # Errors
    ///
    /// The refusal, 1 to 5.
    pub fn load(file: &[u8]) -> Result<Machine, u32> {
        let mut mem = vec![0; MAX_WORDS];
        let mut table = vec![0; NODE_WORDS * MAX_NODES];
        let loaded = calls::load(file, &mut mem, &mut table);
        if loaded.refusal != 0 {
            return Err(loaded.refusal);
        }
        mem.truncate(loaded.state.m as usize);
        table.truncate(NODE_WORDS * loaded.state.n as usize);
        Ok(Machine {
            record: loaded.state,
            mem,
            table,
        })
    }

    /// One turn; gives its refusal, 0 for none. Refused, it changes nothing.
    pub fn turn(&mut self, direction: Direction) -> u32 {
        let turned = match direction {
            Direction::Forward => calls::forward(self.record, &mut self.mem, &self.table),
            Direction::Back => calls::back(self.record, &mut self.mem, &self.table),
        };
        self.record = turned.state;
        turned.refusal
    }

    /// Turns until `count` are made or one is refused.
    pub fn turns(&mut self, direction: Direction, count: u64) -> Made {
        let mut turns = 0;
        while turns < count {
            // The rest, or the most that one batch may be asked for.
            let asked = u32::try_from(count - turns).unwrap_or(u32::MAX);
            let batch = self.batch(direction, asked);
            turns += u64::from(batch.turns);
            if batch.refusal != 0 {
                let refusal = batch.refusal;
                return Made { turns, refusal };
            }
        }
        Made { turns, refusal: 0 }
    }

    fn batch(&mut self, direction: Direction, n: u32) -> Batch {
        let (record, mem, table) = (self.record, &mut self.mem, &self.table);
        let batch = match direction {
            Direction::Forward => calls::forward_batch(record, n, mem, table),
            Direction::Back => calls::back_batch(record, n, mem, table),
        };
        self.record = batch.state;
        batch
    }

    /// Turns as encoder samples say, by the rules of [`calls::samples`]; the turns before a 19 or
    /// 20 stand.
    pub fn samples(&mut self, given: u8, samples: &[u8]) -> Sampled {
        let wheeled = calls::samples(self.record, given, samples, &mut self.mem, &self.table);
        self.record = wheeled.state;
        Sampled {
            forward: wheeled.forward,
            back: wheeled.back,
            refused: wheeled.refused,
            last: wheeled.last,
            refusal: wheeled.refusal,
        }
    }

    /// What a turn would do: its refusal, the record after it, and the memory word that it would
    /// change. The machine stays as it is.
    pub fn preview(&self, direction: Direction) -> Preview {
        self.preview_from(self.record, direction)
    }

    fn preview_from(&self, record: Record, direction: Direction) -> Preview {
        match direction {
            Direction::Forward => calls::preview_forward(record, &self.mem, &self.table),
            Direction::Back => calls::preview_back(record, &self.mem, &self.table),
        }
    }

    /// The refusal that a turn would give, 0 for none.
    pub fn refusal(&self, direction: Direction) -> u32 {
        self.preview(direction).refusal
    }

    /// Whether the machine stands at finish: a forward turn gives 12, at the largest position 21.
    pub fn at_finish(&self) -> bool {
        self.ends(Direction::Forward)
    }

    /// Whether the machine stands at start and does not wait: a back turn gives 12, at the smallest
    /// position 21.
    pub fn at_start(&self) -> bool {
        self.ends(Direction::Back)
    }

    /// Whether the run ends here, wherever the position is.
    fn ends(&self, direction: Direction) -> bool {
        let record = Record {
            position: 0,
            ..self.record
        };
        self.preview_from(record, direction).refusal == 12
    }

    /// The image of this state, without a preface, in the newest kind.
    ///
    /// # Errors
    ///
    /// Refusal 10, where the sizes do not fit.
    pub fn save(&self) -> Result<Vec<u8>, u32> {
        let mut image = vec![0; MAX_IMAGE];
        let refusal = calls::save(self.record, &self.mem, &self.table, &mut image);
        if refusal != 0 {
            return Err(refusal);
        }
        image.truncate(image_length(self.record.m as usize, self.record.n as usize));
        Ok(image)
    }

    /// The image in this kind: the one that the proved save writes, less what an older kind does not
    /// have.
    ///
    /// # Errors
    ///
    /// Refusal 10, where the sizes do not fit.
    pub fn save_as(&self, kind: Kind) -> Result<Vec<u8>, u32> {
        Ok(kind.of_saved(self.save()?))
    }

    /// Checks the code words and the links of the table.
    pub fn check(&self) -> Checked {
        calls::check(self.record, &self.mem, &self.table)
    }

    /// Checks the links of one node, whatever the code words are; gives the refusal.
    pub fn check_node(&self, node: u32) -> u32 {
        calls::check_node(self.record, node, &self.mem, &self.table)
    }

    /// Makes the qif table of the code, walking at most `limit` cycles, and stands at its node 1. Gives
    /// the cycles from start to finish over the new table, the same for every choice of coins. There
    /// must be no nodes and no wait yet, and pc at start; the registers, the memory and the position stay
    /// as they are.
    ///
    /// # Errors
    ///
    /// The refusal: 10, 22, 23, 24 or that of a turn. The machine is then as it was.
    pub fn make_table(&mut self, limit: u32) -> Result<u32, u32> {
        let mut table = match self.record.n {
            0 => vec![0; NODE_WORDS * MAX_NODES],
            // Refused, by 10 or 22 as the nodes fit.
            _ => self.table.clone(),
        };
        let mut scratch = vec![0; SCRATCH * self.mem.len()];
        let made = calls::make_table(self.record, limit, &mut self.mem, &mut table, &mut scratch);
        if made.refusal != 0 {
            return Err(made.refusal);
        }
        table.truncate(NODE_WORDS * made.state.n as usize);
        self.record = made.state;
        self.table = table;
        Ok(made.cycles)
    }
}
