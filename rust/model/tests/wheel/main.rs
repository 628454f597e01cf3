//! Turns from encoder samples: library, lesson bench and model agree, and the
//! turns are those that the samples name.

#[path = "../proved/mod.rs"]
mod proved;

mod exercises;
mod pairs;
mod papers;
mod wheels;

use crank_model::compare::{same_samples, turn_by_turn};
use crank_model::cover::Cover;
use crank_model::state::{Machine, Turn};
use crank_model::wheel::{steps, SampleCall, Wheeled};

/// The proved call by value and on the lesson bench.
const CALLS: [SampleCall; 2] = [proved::samples, proved::bench::samples];
const TURNS: [Turn; 2] = [proved::forward, proved::back];

/// Makes both proved calls and compares them with the model and with the
/// proved single turns that the samples name. `machine` becomes the result.
fn one_wheel(machine: &mut Machine, given: u8, samples: &[u8], cover: &mut Cover) -> Wheeled {
    let mut single = machine.clone();
    let counts = turn_by_turn(&mut single, given, samples, TURNS, cover);
    same_samples(&mut machine.clone(), given, samples, CALLS[0]);
    let answer = same_samples(machine, given, samples, CALLS[1]);
    assert_eq!(
        [answer.forward, answer.back, answer.refused],
        counts,
        "{samples:?} after {given}"
    );
    assert_eq!(*machine, single, "{samples:?} after {given}");
    count(cover, given, samples, &answer);
    answer
}

/// What every test of random wheels must have met.
const CASES: [&str; 15] = [
    "empty list",
    "equal sample",
    "bounce",
    "accepted forward",
    "accepted back",
    "refused turn",
    "accepted after a refused turn",
    "accepted after a 21",
    "all samples taken",
    "19",
    "20 by a sample",
    "20 by the given one",
    "turns before a 19 or 20",
    "last not the given one at a 19 or 20",
    "samples behind a 19 or 20",
];

fn count(cover: &mut Cover, given: u8, samples: &[u8], answer: &Wheeled) {
    let taken = steps(given, samples);
    let moves: Vec<_> = taken.iter().flatten().collect();
    let accepted = answer.forward + answer.back;
    let ended = answer.refusal != 0;
    let cases = [
        (samples.is_empty(), "empty list"),
        (moves.len() < taken.len(), "equal sample"),
        (moves.windows(2).any(|two| two[0] != two[1]), "bounce"),
        (answer.forward > 0, "accepted forward"),
        (answer.back > 0, "accepted back"),
        (answer.refused > 0, "refused turn"),
        (!ended && !samples.is_empty(), "all samples taken"),
        (answer.refusal == 19, "19"),
        (answer.refusal == 20 && given <= 3, "20 by a sample"),
        (answer.refusal == 20 && given > 3, "20 by the given one"),
        (ended && accepted > 0, "turns before a 19 or 20"),
        (
            ended && answer.last != given.into(),
            "last not the given one at a 19 or 20",
        ),
        (
            ended && taken.len() + 1 < samples.len(),
            "samples behind a 19 or 20",
        ),
    ];
    for (_, name) in cases.iter().filter(|(met, _)| *met) {
        cover.count(name);
    }
}
