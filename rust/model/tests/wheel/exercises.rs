//! Wheels that turn whole exercises, in one call and in many.

use crank_model::cover::Cover;
use crank_model::instruction::{FINISH, PC};
use crank_model::machine::forward_batch;
use crank_model::rng::{rounds, Rng};
use crank_model::state::{Machine, Way};
use crank_model::structured::{program, running};
use crank_model::walks::{drive, random_samples};
use crank_model::wheel::{self, Wheeled};

use super::{one_wheel, proved};

/// The turns from an exercise's start to its finish.
fn turns_to_finish(start: &Machine) -> u32 {
    let batch = start.clone().batch(100_000, forward_batch);
    assert_eq!(batch.refusal, 12, "the exercise has an end");
    batch.turns
}

/// Forward and then back, with three steps more than the exercise has turns,
/// so that the finish and the start refuse some.
#[test]
fn to_the_finish_and_back() {
    let mut rng = Rng::new(65);
    let mut cover = Cover::default();
    for _ in 0..rounds(400) {
        let loops = rng.chance(2, 3).then(|| rng.between(1, 20));
        let mut start = program(&mut rng, loops);
        start.lend_excess(&mut rng);
        let steps = turns_to_finish(&start) + 3;
        let given = rng.below(4) as u8;
        let (mut there, mut home) = (Vec::new(), Vec::new());
        let top = drive(&mut rng, given, Way::Forward, steps, &mut there);
        drive(&mut rng, top, Way::Back, steps, &mut home);

        let mut machine = start.clone();
        one_wheel(&mut machine, given, &there, &mut cover);
        assert_eq!(machine.mem[machine.record.regs[PC] as usize], FINISH);
        one_wheel(&mut machine, top, &home, &mut cover);
        assert_eq!(machine, start);
        one_wheel(&mut machine, given, &[there, home].concat(), &mut cover);
        assert_eq!(machine, start);
    }
    cover.summary("exercises");
    cover.demand(&[
        "equal sample",
        "bounce",
        "accepted forward",
        "accepted back",
        "refused turn",
        "accepted after a refused turn",
    ]);
    cover.demand_copies();
}

/// The samples in calls of `size` each on one bench, each given the last
/// sample of the call before: the answers add up to that of one call.
fn in_parts(start: &Machine, given: u8, samples: &[u8], size: usize) -> Wheeled {
    let mut bench = proved::bench::Bench::new(start.record);
    let mut machine = start.clone();
    let mut sum: Option<Wheeled> = None;
    for part in samples.chunks(size) {
        let before = sum.map_or(given, |sum| sum.last as u8);
        let answer = bench.samples(before, part, &mut machine.mem, &machine.table);
        sum = Some(sum.map_or(answer, |sum| Wheeled {
            forward: sum.forward + answer.forward,
            back: sum.back + answer.back,
            refused: sum.refused + answer.refused,
            ..answer
        }));
        if answer.refusal != 0 {
            break;
        }
    }
    machine.record = bench.record();
    let mut whole = start.clone();
    let answer = whole.samples(given, samples, wheel::samples);
    assert_eq!(sum, Some(answer), "{samples:?} after {given} by {size}");
    assert_eq!(machine, whole, "{samples:?} after {given} by {size}");
    answer
}

#[test]
fn one_call_and_many() {
    let mut rng = Rng::new(66);
    let mut cover = Cover::default();
    for _ in 0..rounds(3_000) {
        let start = running(&mut rng, 500);
        let (given, samples) = random_samples(&mut rng, 300);
        if samples.is_empty() {
            continue;
        }
        let size = rng.between(1, 40) as usize;
        let answer = in_parts(&start, given, &samples, size);
        cover.count(match answer.refusal {
            0 => "all samples taken",
            19 => "19",
            _ => "20",
        });
        if samples.len() > size {
            cover.count("many calls");
        }
    }
    cover.summary("one call and many");
    cover.demand(&["all samples taken", "19", "20", "many calls"]);
}
