//! The position: what moves it, where it ends, and how images have it.

use crank::calls::{self, Bench};
use crank::{Direction, Kind, Machine, Made, MAX_FILE};
use std::fs;
use std::path::Path;
use Direction::{Back, Forward};

/// The direction of a refused turn, and the position at which it is refused.
const ENDS: [(Direction, i64); 2] = [(Forward, i64::MAX), (Back, i64::MIN)];
/// A step of the wheel in a direction.
const STEPS: [(Direction, u8); 2] = [(Forward, 1), (Back, 2)];

type Spoil = fn(&mut Machine);

/// An example, which stands at start.
fn example(name: &str) -> Machine {
    let folder = Path::new(env!("CARGO_MANIFEST_DIR")).join("../../examples");
    let file = fs::read(folder.join(name).with_extension("img")).expect("an example");
    Machine::load(&file).expect("it is an image")
}

/// A loop, waits, and words that change in the memory.
fn examples() -> [Machine; 3] {
    ["loop", "qif_wait0", "clean"].map(example)
}

fn at(machine: &Machine, position: i64) -> Machine {
    let mut machine = machine.clone();
    machine.record.position = position;
    machine
}

/// Every state of a run forward, the first one too.
fn states(machine: &Machine) -> Vec<Machine> {
    let mut states = vec![machine.clone()];
    loop {
        let mut next = states.last().expect("a state").clone();
        if next.turn(Forward) != 0 {
            return states;
        }
        states.push(next);
    }
}

/// By every call that turns, from these positions: the state after some turns has as many more.
#[test]
fn every_accepted_turn_counts() {
    let (mut turns, mut waits) = (0, 0);
    for machine in examples() {
        let run = states(&machine);
        for first in [0, -3, i64::from(u32::MAX) - 2, i64::MIN, i64::MAX - 40] {
            let start = at(&machine, first);
            let mut single = start.clone();
            for (made, state) in run.iter().enumerate() {
                let due = at(state, first + made as i64);
                assert_eq!(single, due, "{made} turns from {first}");
                let mut batch = start.clone();
                assert_eq!(batch.turns(Forward, made as u64).refusal, 0);
                assert_eq!(batch, due, "a batch of {made} from {first}");
                let mut wheel = start.clone();
                wheel.samples(0, &[1, 3, 2, 0].repeat(made)[..made]);
                assert_eq!(wheel, due, "{made} samples from {first}");
                single.turn(Forward);
                turns += made;
                waits += usize::from(state.record.qifw > 0);
            }
            assert_eq!(single.turns(Back, u64::MAX).turns as usize, run.len() - 1);
            assert_eq!(single, start, "back to {first}");
        }
    }
    println!("position: {turns} turns, {waits} states that wait");
    assert!(turns > 1_000 && waits > 0);
}

/// Every call that turns once refuses it by this number, and changes nothing.
fn refuses(machine: &Machine, direction: Direction, refusal: u32) {
    let preview = machine.preview(direction);
    let found = (preview.refusal, preview.changes, preview.state);
    assert_eq!(found, (refusal, 0, machine.record));
    let mut turned = machine.clone();
    assert_eq!(turned.turn(direction), refusal);
    let none = Made { turns: 0, refusal };
    assert_eq!(turned.turns(direction, 5), none);
    assert_eq!(turned.turns(direction, 0).refusal, 0);
    let (_, step) = STEPS
        .into_iter()
        .find(|(way, _)| *way == direction)
        .expect("it");
    let samples = turned.samples(0, &[step, step]);
    let counts = [samples.forward, samples.back, samples.refused];
    assert_eq!((counts, samples.refusal), ([0, 0, 1], 0));
    assert_eq!(turned, *machine);
    on_bench_refuses(machine, direction, refusal);
}

fn on_bench_refuses(machine: &Machine, direction: Direction, refusal: u32) {
    let mut bench = Bench {
        state: machine.record,
    };
    let (mut mem, table) = (machine.mem.clone(), &machine.table);
    let (single, batch) = match direction {
        Forward => (
            bench.forward(&mut mem, table),
            bench.forward_batch(5, &mut mem, table),
        ),
        Back => (
            bench.back(&mut mem, table),
            bench.back_batch(5, &mut mem, table),
        ),
    };
    assert_eq!((single, batch.turns, batch.refusal), (refusal, 0, refusal));
    assert_eq!((bench.state, mem), (machine.record, machine.mem.clone()));
}

/// In every state of a run, at finish and at start too, where it would else be 12.
#[test]
fn refused_at_the_ends() {
    let mut refused = 0;
    for machine in examples() {
        let run = states(&machine);
        for (turns, state) in run.iter().enumerate() {
            for (direction, end) in ENDS {
                let last = at(state, end);
                refuses(&last, direction, 21);
                // The other way, and one turn before the end, it is turned as anywhere.
                let mut away = last.clone();
                let way = direction.reverse();
                let refusal = state.refusal(way);
                assert_eq!(away.turn(way), refusal, "{turns} turns, {way:?}");
                if refusal == 0 {
                    assert_eq!(away.turn(direction), 0);
                    assert_eq!(away, last);
                }
                assert_eq!(last.at_start(), turns == 0);
                assert_eq!(last.at_finish(), turns == run.len() - 1);
                refused += 1;
            }
        }
    }
    println!("position: refused in {refused} states");
    assert!(refused > 100);
}

/// 10 comes before 21, and all others behind it.
#[test]
fn the_order_of_refusals() {
    let spoils: [(u32, Spoil); 8] = [
        (10, |m| m.record.k = 0),
        (10, |m| m.record.m += 1),
        (10, |m| m.mem.clear()),
        (21, |m| m.record.regs[0] = 4_000),
        (21, |m| m.mem[0] = 0),
        (21, |m| m.record.qifw = 9),
        (21, |m| m.mem[..2].fill(0x0140_0000)),
        (21, |m| m.mem[..2].fill(0x1A00_0000)),
    ];
    for (refusal, spoil) in spoils {
        for (direction, end) in ENDS {
            let mut machine = at(&example("first"), end);
            spoil(&mut machine);
            refuses(&machine, direction, refusal);
        }
    }
    println!("position: {} broken states", spoils.len());
}

/// A batch and samples that come to an end: the turns before it stand.
#[test]
fn turns_up_to_an_end() {
    let run = states(&example("loop"));
    let end = at(&run[20], i64::MAX);
    let mut machine = at(&run[17], i64::MAX - 3);
    let made = machine.turns(Forward, 10);
    assert_eq!((made.turns, made.refusal), (3, 21));
    assert_eq!(machine, end);
    let mut machine = at(&run[17], i64::MAX - 3);
    let made = machine.samples(0, &[1, 3, 2, 0, 1, 3, 1]);
    assert_eq!((made.forward, made.back, made.refused), (3, 1, 3));
    assert_eq!(machine, at(&run[19], i64::MAX - 1));
    let end = at(&run[20], i64::MIN);
    let mut machine = at(&run[23], i64::MIN + 3);
    let made = machine.turns(Back, 10);
    assert_eq!((made.turns, made.refusal), (3, 21));
    assert_eq!(machine, end);
    let mut machine = at(&run[23], i64::MIN + 3);
    let made = machine.samples(0, &[2, 3, 1, 0, 2, 3, 2]);
    assert_eq!((made.forward, made.back, made.refused), (1, 3, 3));
    assert_eq!(machine, at(&run[21], i64::MIN + 1));
}

/// The bytes that both kinds have, and then the position, low word first.
#[test]
fn images_of_both_kinds() {
    let positions = [
        (0, [0; 8]),
        (1, [1, 0, 0, 0, 0, 0, 0, 0]),
        (-1, [0xFF; 8]),
        (0x0807_0605_0403_0201, [1, 2, 3, 4, 5, 6, 7, 8]),
        (i64::MAX, [0xFF, 0xFF, 0xFF, 0xFF, 0xFF, 0xFF, 0xFF, 0x7F]),
        (i64::MIN, [0, 0, 0, 0, 0, 0, 0, 0x80]),
        (1 << 32, [0, 0, 0, 0, 1, 0, 0, 0]),
    ];
    for machine in examples() {
        let old = machine.save_as(Kind::One).expect("an image");
        let (front, back) = (old.len() - 92, old.len() as u32 + 8);
        for (position, bytes) in positions {
            let state = at(&machine, position);
            let mut new = old[..old.len() - 4].to_vec();
            new[front..front + 4].copy_from_slice(&back.to_le_bytes());
            new.extend(bytes);
            new.extend([0x51, 0x52, 0x4D, 0x32]);
            assert_eq!(state.save().as_ref(), Ok(&new), "{position}");
            assert_eq!(state.save_as(Kind::Two), Ok(new.clone()), "{position}");
            assert_eq!(Machine::load(&new).as_ref(), Ok(&state), "{position}");
            // What kind 1 does not have is 0 again.
            assert_eq!(state.save_as(Kind::One).as_ref(), Ok(&old), "{position}");
            assert_eq!(Kind::of(&new), Some(Kind::Two));
        }
        assert_eq!(Machine::load(&old), Ok(machine));
        assert_eq!(Kind::of(&old), Some(Kind::One));
    }
    for none in [&b""[..], b"QRM", b"QRM3", b"QRM1 ", b"\x31\x4D\x52\x51"] {
        assert_eq!(Kind::of(none), None, "{none:?}");
    }
}

/// Of so many bytes, whose last are these: zeros but for a trailer with M 1, K 1 and this back.
fn file(length: usize, trailer: usize, back: u32, mark: &[u8; 4]) -> Vec<u8> {
    let mut bytes = vec![0; trailer.max(length)];
    let start = bytes.len() - trailer;
    for (place, word) in [back, 1, 1].into_iter().enumerate() {
        bytes[start + 4 * place..][..4].copy_from_slice(&word.to_le_bytes());
    }
    let mark_at = bytes.len() - 4;
    bytes[mark_at..].copy_from_slice(mark);
    bytes.split_off(bytes.len() - length)
}

/// Around the lengths of both trailers: which of 1, 2, 3, 4 and 5 comes first, and what loads.
#[test]
fn the_shortest_files() {
    let mut counts = [0; 6];
    for length in 88..=108 {
        // Where a trailer is of the other kind, its M is a word of the memory or a register: 0.
        let good = |enough: usize| if length < enough { 5 } else { 0 };
        let other = |refusal: u32| if length < 100 { 1 } else { refusal };
        let cases = [
            (file(length, 92, 96, b"QRM1"), good(96)),
            (file(length, 92, 104, b"QRM1"), 4),
            (file(length, 100, 104, b"QRM1"), 3),
            (file(length, 92, 96, b"QRM3"), 2),
            (file(length, 92, 96, b"1MRQ"), 2),
            (file(length, 100, 104, b"QRM2"), other(good(104))),
            (file(length, 100, 96, b"QRM2"), other(4)),
            (file(length, 92, 96, b"QRM2"), other(3)),
        ];
        for (place, (file, refusal)) in cases.into_iter().enumerate() {
            let refusal = if length < 92 { 1 } else { refusal };
            let found = Machine::load(&file).map_or_else(|refusal| refusal, |_| 0);
            assert_eq!(found, refusal, "{length} bytes, case {place}");
            let back = if file.ends_with(b"1") { 96 } else { 104 };
            let preface = if refusal == 0 { length - back } else { 0 };
            assert_eq!(calls::preface(&file).len(), preface);
            counts[refusal as usize] += 1;
        }
    }
    println!("position: short files, by refusals 0 to 5: {counts:?}");
    assert!(counts.iter().all(|count| *count > 0));
    let long = file(MAX_FILE + 1, 100, 104, b"QRM2");
    assert_eq!(Machine::load(&long), Err(1));
    assert!(Machine::load(&long[1..]).is_ok());
}
