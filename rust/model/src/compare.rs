//! Comparison of an implementation's answers with the model's.

use std::fmt::{Arguments, Debug};
use std::hint::black_box;

use crate::cover::Cover;
use crate::machine::{Batch, Record};
use crate::preview::{Preview, PreviewCall};
use crate::rng::Rng;
use crate::state::{BatchCall, Machine, Turn, Way};
use crate::wheel::{self, steps, SampleCall, Wheeled};

/// Makes the same call with the model and with the library, and compares the
/// whole answer and all lent words. `machine` becomes the result.
fn same<A: Debug + PartialEq>(
    what: Arguments,
    machine: &mut Machine,
    model: impl FnOnce(&mut Machine) -> A,
    library: impl FnOnce(&mut Machine) -> A,
) -> A {
    let start = machine.clone();
    let mut other = machine.clone();
    let answer = model(machine);
    let other_answer = library(&mut other);
    // The table is lent for reading; the compiler may take it as unchanged.
    assert!(
        answer == other_answer && *machine == *black_box(&other),
        "{what} differs: model {answer:?} {machine:?}, library {other_answer:?} {other:?}, \
         from {start:?}"
    );
    answer
}

/// The accepted turns forward and back, where all go one way.
pub fn one_way(way: Way, turns: u32) -> [u64; 2] {
    let mut accepted = [0; 2];
    accepted[way as usize] = turns.into();
    accepted
}

/// Checks that the position went on by the accepted turns, one more for each
/// forward and one less for each back.
pub fn adds_up(before: &Record, after: &Record, [forward, back]: [u64; 2]) {
    let expected = i128::from(before.position) + i128::from(forward) - i128::from(back);
    let found = i128::from(after.position);
    assert_eq!(
        found, expected,
        "position after {forward} forward and {back} back, from {before:?}"
    );
}

/// A single turn of the library and of the model.
pub fn same_turn(way: Way, machine: &mut Machine, turn: Turn, cover: &mut Cover) -> u32 {
    let old = machine.record;
    let refusal = same(
        format_args!("{way:?} turn"),
        machine,
        |m| m.turn(way.model()),
        |m| m.turn(turn),
    );
    cover.turn(way, &old, refusal, machine);
    let accepted = one_way(way, u32::from(refusal == 0));
    adds_up(&old, &machine.record, accepted);
    refusal
}

/// A batch of the library and of the model.
pub fn same_batch(way: Way, machine: &mut Machine, n: u32, call: BatchCall) -> Batch {
    let old = machine.record;
    let batch = same(
        format_args!("{way:?} batch of {n}"),
        machine,
        |m| m.batch(n, way.model_batch()),
        |m| m.batch(n, call),
    );
    adds_up(&old, &machine.record, one_way(way, batch.turns));
    batch
}

/// A sample call of the library and of the model.
pub fn same_samples(machine: &mut Machine, given: u8, samples: &[u8], call: SampleCall) -> Wheeled {
    let old = machine.record;
    let answer = same(
        format_args!("{samples:?} after {given}"),
        machine,
        |m| m.samples(given, samples, wheel::samples),
        |m| m.samples(given, samples, call),
    );
    adds_up(&old, &machine.record, [answer.forward, answer.back]);
    answer
}

/// Compares a preview with the model's, field by field, and checks that all
/// lent words are as they were.
pub fn same_preview(way: Way, machine: &Machine, call: PreviewCall) -> Preview {
    let before = machine.clone();
    let found = machine.preview(call);
    // The compiler may else take words lent for reading as unchanged.
    assert_eq!(*black_box(machine), before, "{way:?} preview writes");
    let expected = machine.preview(way.model_preview());
    assert_eq!(found, expected, "{way:?} preview of {machine:?}");
    let accepted = one_way(way, u32::from(found.refusal == 0));
    adds_up(&machine.record, &found.record, accepted);
    found
}

/// Makes the turn that a preview shows, on a copy, and compares. Gives what
/// the machine then is.
pub fn turn_as_shown(way: Way, machine: &Machine, shown: &Preview, turn: Turn) -> Machine {
    let (mut made, mut other) = (machine.clone(), machine.clone());
    let refusal = made.turn(turn);
    other.record = shown.make(&mut other.mem).1;
    assert!(
        refusal == shown.refusal && made == other,
        "{way:?} turn, refusal {refusal}, to {made:?} is shown as {shown:?}, from {machine:?}"
    );
    let differs = made.mem != machine.mem;
    assert_eq!(shown.changes, differs.into(), "{shown:?} from {machine:?}");
    made
}

/// Checks that an accepted turn is undone exactly by its reverse, and that a
/// refused one changes nothing.
pub fn returns(way: Way, machine: &Machine, turns: [Turn; 2], cover: &mut Cover) {
    let mut after = machine.clone();
    let refusal = after.turn(turns[way as usize]);
    cover.turn(way, &machine.record, refusal, &after);
    if refusal == 0 {
        let undone = after.turn(turns[way.reverse() as usize]);
        assert_eq!(undone, 0, "{way:?} turn can't be undone: {machine:?}");
    }
    assert_eq!(&after, machine, "{way:?} turn, refusal {refusal}");
}

/// Checks what a batch of `n` gave by the model's single turns, which `machine`
/// makes: as many as it gave are accepted, and where they are fewer than n the
/// next one is refused, by the number that it gave. Gives the refusal of the next
/// turn, which is no part of the batch where all n are made.
pub fn follow(way: Way, machine: &mut Machine, n: u32, batch: Batch, cover: &mut Cover) -> u32 {
    assert!(batch.turns <= n, "{way:?} batch of {n} gave {batch:?}");
    for i in 0..batch.turns {
        let old = machine.record;
        let refusal = machine.turn(way.model());
        cover.turn(way, &old, refusal, machine);
        assert_eq!(
            refusal, 0,
            "{way:?} batch of {n} gave {batch:?}, turn {i} is refused: {machine:?}"
        );
    }
    let next = machine.clone().turn(way.model());
    let mut refusal = 0;
    if batch.turns < n {
        assert_ne!(
            next, 0,
            "{way:?} batch of {n} gave {batch:?}, turn {} is accepted: {machine:?}",
            batch.turns
        );
        cover.turn(way, &machine.record, next, machine);
        refusal = next;
    }
    let expected = Batch {
        turns: batch.turns,
        refusal,
        record: machine.record,
    };
    assert_eq!(batch, expected, "{way:?} batch of {n}");
    next
}

/// Makes the single turns that samples name, one by one, past refused ones
/// too. Gives how many were accepted forward, accepted back and refused.
pub fn turn_by_turn(
    machine: &mut Machine,
    given: u8,
    samples: &[u8],
    turns: [Turn; 2],
    cover: &mut Cover,
) -> [u64; 3] {
    let mut counts = [0; 3];
    let (mut goes_on, mut at_end, mut leaves_end) = (false, false, false);
    for way in steps(given, samples).into_iter().flatten() {
        let old = machine.record;
        let refusal = machine.turn(turns[way as usize]);
        cover.turn(way, &old, refusal, machine);
        counts[if refusal == 0 { way as usize } else { 2 }] += 1;
        at_end |= refusal == 21;
        goes_on |= refusal == 0 && counts[2] > 0;
        leaves_end |= refusal == 0 && at_end;
    }
    let cases = [
        (goes_on, "accepted after a refused turn"),
        (leaves_end, "accepted after a 21"),
    ];
    for (_, name) in cases.iter().filter(|(met, _)| *met) {
        cover.count(name);
    }
    counts
}

/// The turns before the first refusal, if it comes within `limit` turns.
fn turns_left(way: Way, machine: &Machine, limit: u32) -> Option<u32> {
    let mut machine = machine.clone();
    (0..limit).find(|_| machine.turn(way.model()) != 0)
}

/// Numbers for batches: small and middling ones, those around the first
/// refusal, and the largest. These are asked only where a refusal comes, as the
/// batch would otherwise run for very long.
pub fn batch_size(rng: &mut Rng, way: Way, machine: &Machine) -> u32 {
    let small = rng.below(6);
    let middle = rng.below(300);
    if rng.chance(1, 2) {
        return rng.pick(&[0, 1, small, middle, 1_000]);
    }
    match turns_left(way, machine, 20_000) {
        Some(left) => rng.pick(&[left, left + 1, u32::MAX - 1, u32::MAX]),
        None => middle,
    }
}
