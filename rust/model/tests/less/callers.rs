//! Turns by every caller: one by one, shown, in a batch and from samples. Each
//! function gives how many answers were compared.

use super::proved::{BATCHES, PREVIEWS, SAMPLES, TURNS};
use crank_model::compare::one_way;
use crank_model::machine::Batch;
use crank_model::preview::Preview;
use crank_model::state::{Machine, Way};
use crank_model::wheel::Wheeled;

/// A run of accepted turns through these states, forward and back again.
pub fn there_and_back(states: &[Machine]) -> usize {
    let home: Vec<Machine> = states.iter().rev().cloned().collect();
    along(Way::Forward, states) + along(Way::Back, &home)
}

fn along(way: Way, states: &[Machine]) -> usize {
    let [from, .., to] = states else {
        panic!("a run has a turn");
    };
    let turned = Turned {
        way,
        from,
        accepted: states.len() as u32 - 1,
        refusal: 0,
        to,
    };
    let steps = states.windows(2);
    let singles: usize = steps.map(|two| single(way, &two[0], 0, &two[1])).sum();
    singles + turned.at_once()
}

/// A turn that is refused by this number and changes nothing.
pub fn refused(way: Way, machine: &Machine, refusal: u32) -> usize {
    let turned = Turned {
        way,
        from: machine,
        accepted: 0,
        refusal,
        to: machine,
    };
    single(way, machine, refusal, machine) + turned.at_once()
}

/// One turn, made and shown; it changes no memory word.
fn single(way: Way, before: &Machine, refusal: u32, after: &Machine) -> usize {
    for (name, turns) in TURNS {
        let mut machine = before.clone();
        let found = machine.turn(turns[way as usize]);
        assert_eq!(found, refusal, "{name} {way:?} from {before:?}");
        assert_eq!(machine, *after, "{name} {way:?} from {before:?}");
    }
    let expected = Preview {
        refusal,
        changes: 0,
        address: 0,
        value: 0,
        record: after.record,
    };
    for (name, calls) in PREVIEWS {
        let shown = before.preview(calls[way as usize]);
        assert_eq!(shown, expected, "{name} {way:?} from {before:?}");
    }
    TURNS.len() + PREVIEWS.len()
}

/// Turns one way: how many are accepted, the refusal of the next, which is asked
/// for only if it has one, and where they end.
pub struct Turned<'a> {
    pub way: Way,
    pub from: &'a Machine,
    pub accepted: u32,
    pub refusal: u32,
    pub to: &'a Machine,
}

impl Turned<'_> {
    /// In one batch, and from one list of samples.
    pub fn at_once(&self) -> usize {
        let asked = self.accepted + u32::from(self.refusal != 0);
        self.in_a_batch(asked) + self.by_samples(asked)
    }

    fn in_a_batch(&self, asked: u32) -> usize {
        let expected = Batch {
            turns: self.accepted,
            refusal: self.refusal,
            record: self.to.record,
        };
        for (name, calls) in BATCHES {
            let mut machine = self.from.clone();
            let batch = machine.batch(asked, calls[self.way as usize]);
            assert_eq!(batch, expected, "{name} from {:?}", self.from);
            assert_eq!(machine, *self.to, "{name} from {:?}", self.from);
        }
        BATCHES.len()
    }

    /// The samples along the cycle, or against it, behind 0.
    fn by_samples(&self, asked: u32) -> usize {
        let cycle = [[1, 3, 2, 0], [2, 3, 1, 0]][self.way as usize];
        let samples: Vec<u8> = (0..asked as usize).map(|i| cycle[i % 4]).collect();
        let [forward, back] = one_way(self.way, self.accepted);
        let expected = Wheeled {
            forward,
            back,
            refused: u64::from(asked - self.accepted),
            last: u32::from(*samples.last().expect("a turn")),
            refusal: 0,
            record: self.to.record,
        };
        for (name, call) in SAMPLES {
            let mut machine = self.from.clone();
            let answer = machine.samples(0, &samples, call);
            assert_eq!(answer, expected, "{name} from {:?}", self.from);
            assert_eq!(machine, *self.to, "{name} from {:?}", self.from);
        }
        SAMPLES.len()
    }
}
