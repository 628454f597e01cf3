//! An exercise at the desk: its state now, and the turns made since it was opened.

use crate::exercise::Exercise;
use crate::interrupt;
use crate::terminal::Progress;
use crank::calls::Sampled;
use crank::{Direction, Machine, Made, PC};
use std::fmt;

/// The turns or samples between two looks at Ctrl-C.
pub const CHUNK: u64 = 100_000;

/// The accepted turns, as they are handed in.
#[derive(Clone, Copy, Default)]
pub struct Counts {
    pub forward: u64,
    pub back: u64,
}

impl fmt::Display for Counts {
    fn fmt(&self, f: &mut fmt::Formatter<'_>) -> fmt::Result {
        let net = i128::from(self.forward) - i128::from(self.back);
        write!(f, "forward {}, back {}, net {net}", self.forward, self.back)
    }
}

/// How a stretch of turns ended.
pub enum End {
    /// All were made that were asked for.
    Complete,
    /// The next turn is refused.
    Refused(u32),
    /// By Ctrl-C.
    Stopped,
}

/// Turns made one after the other.
pub struct Stretch {
    pub direction: Direction,
    pub turns: u64,
    pub end: End,
}

pub struct Desk {
    /// As it was opened.
    pub exercise: Exercise,
    /// As it is now.
    pub machine: Machine,
    pub counts: Counts,
}

impl Desk {
    pub fn new(exercise: Exercise) -> Desk {
        Desk {
            machine: exercise.machine.clone(),
            exercise,
            counts: Counts::default(),
        }
    }

    /// The turns since it was opened, and the position, which has those from before too.
    pub fn tally(&self) -> String {
        format!("{}; position {}", self.counts, self.machine.record.position)
    }

    /// The state as opened, its position too, and no turns made.
    pub fn reset(&mut self) {
        self.machine = self.exercise.machine.clone();
        self.counts = Counts::default();
    }

    /// Turns until `count` are made or one is refused.
    pub fn turns(&mut self, direction: Direction, count: u64) -> Stretch {
        self.stretch(direction, count, |machine, count| {
            (machine.turns(direction, count), false)
        })
    }

    /// Turns forward, once at least, until pc is `address` or a turn is refused.
    pub fn turns_to(&mut self, address: u32) -> Stretch {
        self.stretch(Direction::Forward, u64::MAX, |machine, count| {
            turns_to(machine, count, address)
        })
    }

    /// Turns as these samples say, `given` being the one before them.
    pub fn samples(&mut self, given: u8, samples: &[u8]) -> Sampled {
        let sampled = self.machine.samples(given, samples);
        self.counts.forward += sampled.forward;
        self.counts.back += sampled.back;
        sampled
    }

    /// Chunks of turns until `count` are made, one is refused, a chunk says that it is there, or
    /// Ctrl-C.
    fn stretch(
        &mut self,
        direction: Direction,
        count: u64,
        mut chunk: impl FnMut(&mut Machine, u64) -> (Made, bool),
    ) -> Stretch {
        interrupt::clear();
        let mut progress = Progress::new();
        let mut turns = 0;
        let end = loop {
            let (made, there) = chunk(&mut self.machine, CHUNK.min(count - turns));
            turns += made.turns;
            if made.refusal != 0 {
                break End::Refused(made.refusal);
            }
            if there || turns == count {
                break End::Complete;
            }
            if interrupt::raised() {
                break End::Stopped;
            }
            progress.show(|| progress_text(turns, "turns"));
        };
        match direction {
            Direction::Forward => self.counts.forward += turns,
            Direction::Back => self.counts.back += turns,
        }
        Stretch {
            direction,
            turns,
            end,
        }
    }
}

/// Up to `count` turns forward, and whether pc is `address` then.
fn turns_to(machine: &mut Machine, count: u64, address: u32) -> (Made, bool) {
    for turns in 0..count {
        let refusal = machine.turn(Direction::Forward);
        if refusal != 0 {
            return (Made { turns, refusal }, false);
        }
        if machine.record.regs[PC] == address {
            let turns = turns + 1;
            return (Made { turns, refusal: 0 }, true);
        }
    }
    let made = Made {
        turns: count,
        refusal: 0,
    };
    (made, false)
}

/// Ctrl-C stops a run only where commands are typed.
pub fn progress_text(count: u64, noun: &str) -> String {
    let stops = match interrupt::installed() {
        true => "; Ctrl-C stops ",
        false => "",
    };
    format!("{count} {noun}{stops}")
}
