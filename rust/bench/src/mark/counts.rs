//! How far a hand-in is to be turned, by its two counts or by its position.

use crate::exercise::Exercise;
use crate::typed;
use crank::{Direction, Machine};
use crank_assembler::files;

/// A count of turns as it is written: decimal, or hexadecimal behind 0x.
///
/// # Errors
///
/// One line, where it is no number or too large.
pub fn count(text: &str) -> Result<u64, String> {
    typed::number(text, u64::MAX).map_err(|_| {
        let text = files::shown(text.as_ref());
        format!("count {text} is no number from 0 to {}", u64::MAX)
    })
}

/// The turns that undo a hand-in's.
#[derive(Clone, Copy, Debug, PartialEq)]
pub struct Net {
    pub direction: Direction,
    pub turns: u64,
}

impl Net {
    /// By the two counts.
    pub fn new(forward: u64, back: u64) -> Net {
        Net::undoing(i128::from(forward) - i128::from(back))
    }

    /// From a position to the one where it began.
    fn between(position: i64, beginning: i64) -> Net {
        Net::undoing(i128::from(position) - i128::from(beginning))
    }

    /// As many as were made forward more than back, the other way. Both differences above have no
    /// more than 64 bits and a sign.
    fn undoing(forward: i128) -> Net {
        Net {
            direction: if forward >= 0 {
                Direction::Back
            } else {
                Direction::Forward
            },
            turns: forward.unsigned_abs() as u64,
        }
    }
}

/// The turns to be made with a hand-in.
pub struct Due {
    /// By the counts; where none are given, by the position.
    pub net: Net,
    /// By the position, where the counts say otherwise.
    pub by_position: Option<Net>,
}

impl Due {
    /// A beginning that is not known has the position 0.
    ///
    /// # Errors
    ///
    /// One line, without the name of the hand-in, where it has neither counts nor a position.
    pub fn new(
        hand_in: &Exercise,
        counts: Option<Net>,
        beginning: Option<&Machine>,
    ) -> Result<Due, String> {
        let beginning = beginning.map_or(0, |machine| machine.record.position);
        let net = Net::between(hand_in.machine.record.position, beginning);
        let by_position = hand_in.has_position.then_some(net);
        let net = counts.or(by_position);
        let net = net.ok_or("has no position, so two counts are needed")?;
        Ok(Due {
            net,
            by_position: by_position.filter(|other| *other != net),
        })
    }
}
