//! What is found out about one hand-in.

use super::counts::Due;
use super::differences::{differences, left_changed, Difference, Place};
use crate::exercise::Exercise;
use crank::{Direction, Machine, Made};

/// The most turns that a hand-in is run on to see where its code leads.
pub const MAX_ON: u64 = 1_000_000;

/// The turns between two looks at how far it is.
const CHUNK: u64 = 10_000_000;

/// A hand-in turned back to where it began.
pub struct Judged {
    pub due: Due,
    /// The turns up to the first refused one.
    pub made: Made,
    /// The state after these.
    pub turned: Machine,
    pub at_start: bool,
    /// From the beginning, where there is one to compare with.
    pub differences: Option<Vec<Difference>>,
}

impl Judged {
    /// Turns the hand-in; `watch` is told of the turns made, now and then.
    pub fn new(
        hand_in: &Exercise,
        due: Due,
        beginning: Option<&Machine>,
        mut watch: impl FnMut(u64),
    ) -> Judged {
        let (mut turned, net) = (hand_in.machine.clone(), due.net);
        let (mut turns, mut refusal) = (0, 0);
        while refusal == 0 && turns < net.turns {
            let more = turned.turns(net.direction, CHUNK.min(net.turns - turns));
            turns += more.turns;
            refusal = more.refusal;
            watch(turns);
        }
        // Where the hand-in has no position, none can differ.
        let can_differ = |d: &Difference| hand_in.has_position || d.place != Place::Position;
        let differences = beginning.map(|beginning| {
            let all = differences(beginning, &turned).into_iter();
            all.filter(can_differ).collect()
        });
        Judged {
            due,
            made: Made { turns, refusal },
            at_start: turned.at_start(),
            differences,
            turned,
        }
    }

    pub fn all_accepted(&self) -> bool {
        self.made.refusal == 0
    }

    /// Whether the turns lead to the beginning; where none is known, to start.
    pub fn fits(&self) -> bool {
        self.all_accepted()
            && match &self.differences {
                Some(differences) => differences.is_empty(),
                None => self.at_start,
            }
    }
}

/// Where a hand-in itself stands.
pub enum Stand {
    Start,
    /// With what its code left changed since start, where that is known.
    Finish(Option<Vec<Difference>>),
    Between,
}

impl Stand {
    pub fn new(hand_in: &Machine, judged: &Judged) -> Stand {
        if hand_in.at_finish() {
            let changed = || left_changed(&judged.turned, hand_in);
            return Stand::Finish(judged.at_start.then(changed));
        }
        match hand_in.at_start() {
            true => Stand::Start,
            false => Stand::Between,
        }
    }
}

/// Where the code of a hand-in ends, and what it leaves there.
pub struct Ending {
    /// The turns made on from the hand-in.
    pub on: Made,
    pub at_finish: bool,
    /// Between start and finish, where both are known.
    pub left_changed: Option<Vec<Difference>>,
}

impl Ending {
    pub fn new(hand_in: Machine, judged: &Judged) -> Ending {
        let mut end = hand_in;
        let on = end.turns(Direction::Forward, MAX_ON);
        let at_finish = end.at_finish();
        let both = judged.at_start && at_finish;
        Ending {
            on,
            at_finish,
            left_changed: both.then(|| left_changed(&judged.turned, &end)),
        }
    }
}
