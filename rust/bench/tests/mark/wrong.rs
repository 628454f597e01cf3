//! Wrong hand-ins: every kind is told, as refused on the way or as differing at the end.

use crate::expected::Expected;
use crate::scratch::{example, Folder, Ran};
use crate::students::{beginning, exercises, file, kind, play};
use crank::{Kind as ImageKind, Machine};
use crank_model::rng::{rounds, Rng};
use std::collections::BTreeMap;

/// What is wrong with a hand-in.
#[derive(Clone, Copy, Debug, PartialEq, Eq, PartialOrd, Ord)]
enum Kind {
    ForwardCount,
    BackCount,
    Register,
    Data,
    Code,
    Node,
    Wait,
    Position,
    Table,
    Sizes,
}

const KINDS: [Kind; 10] = [
    Kind::ForwardCount,
    Kind::BackCount,
    Kind::Register,
    Kind::Data,
    Kind::Code,
    Kind::Node,
    Kind::Wait,
    Kind::Position,
    Kind::Table,
    Kind::Sizes,
];

struct HandIn {
    machine: Machine,
    image: ImageKind,
    forward: u64,
    back: u64,
}

/// Makes the hand-in wrong; gives whether it could be.
fn spoil(rng: &mut Rng, kind: Kind, hand_in: &mut HandIn) -> bool {
    let HandIn {
        machine,
        image,
        forward,
        back,
    } = hand_in;
    // Low bits more often: they tend to be carried further.
    let most = rng.pick(&[3, 32]);
    let bit = 1 << rng.below(most);
    let k = machine.record.k as usize;
    let place = match kind {
        Kind::ForwardCount => return off_by_one(rng, forward),
        Kind::BackCount => return off_by_one(rng, back),
        Kind::Sizes => return other_sizes(rng, machine),
        Kind::Position => {
            *image = ImageKind::Two;
            return other_position(rng, &mut machine.record.position);
        }
        Kind::Register => Some(&mut machine.record.regs[rng.index(16)]),
        Kind::Node => Some(&mut machine.record.qifv),
        Kind::Wait => Some(&mut machine.record.qifw),
        Kind::Code => some_word(rng, &mut machine.mem[..k]),
        Kind::Data => some_word(rng, &mut machine.mem[k..]),
        Kind::Table => some_word(rng, &mut machine.table),
    };
    place.map(|word| *word ^= bit).is_some()
}

fn some_word<'a>(rng: &mut Rng, words: &'a mut [u32]) -> Option<&'a mut u32> {
    let index = rng.index(words.len());
    words.get_mut(index)
}

fn off_by_one(rng: &mut Rng, count: &mut u64) -> bool {
    if *count == 0 || rng.chance(1, 2) {
        *count += 1;
    } else {
        *count -= 1;
    }
    true
}

/// Next to the right one, or at an end.
fn other_position(rng: &mut Rng, position: &mut i64) -> bool {
    let right = *position;
    let (more, less) = (right.wrapping_add(1), right.wrapping_sub(1));
    *position = rng.pick(&[more, less, i64::MIN, i64::MAX]);
    *position != right
}

/// More or fewer words, nodes, or words that are code.
fn other_sizes(rng: &mut Rng, machine: &mut Machine) -> bool {
    let r = &mut machine.record;
    match rng.below(4) {
        0 if r.k > 1 => r.k -= rng.between(1, r.k - 1),
        1 if r.k < r.m => r.k += 1,
        2 => {
            r.m += 1;
            machine.mem.push(rng.word());
        }
        _ => {
            r.n += 1;
            machine.table.extend([0; 9]);
        }
    }
    true
}

/// The printed report with each line in one piece, and the differences apart and sorted.
fn pieces(out: &str) -> (Vec<String>, Vec<String>) {
    let whole = out.replace(",\n  ", ", ").replace(":\n  ", ": ");
    let (differences, lines): (Vec<&str>, Vec<&str>) =
        whole.lines().partition(|line| line.starts_with("  "));
    let mut differences: Vec<String> = differences.iter().map(|d| d.trim().to_string()).collect();
    differences.sort();
    (
        lines.iter().map(|line| line.to_string()).collect(),
        differences,
    )
}

/// Marks the wrong hand-in, and gives whether a turn was refused on the way.
fn mark(folder: &Folder, rng: &mut Rng, beginning: &Machine, hand_in: &HandIn) -> bool {
    let HandIn {
        machine,
        image,
        forward,
        back,
    } = hand_in;
    let bytes = file(rng, *image, machine);
    let expected = Expected {
        beginning,
        hand_in: &Machine::load(&bytes).expect("an image"),
        has_position: *image == ImageKind::Two,
        forward: *forward,
        back: *back,
    };
    folder.write("hand-in.img", bytes);
    let counts = [forward.to_string(), back.to_string()];
    let Ran { status, out, err } = folder.mark(&[
        "--from",
        "exercise.img",
        "hand-in.img",
        &counts[0],
        &counts[1],
    ]);
    assert_eq!((status, &err[..]), (1, ""), "{out}");
    let (lines, differences) = pieces(&out);
    assert_eq!(differences, expected.differences());
    assert_eq!(lines, [expected.head(), expected.tail()].concat());
    expected.turned().refusal != 0
}

#[test]
fn wrong_hand_ins() {
    let folder = Folder::new("wrong");
    let mut rng = Rng::new(102);
    let mut seen: BTreeMap<(Kind, bool), u32> = BTreeMap::new();
    let mut exercises = exercises(&mut rng, rounds(30));
    // Its data words hold addresses and coins: a wrong one is refused now and then.
    exercises.extend(vec![example("mux"); 12]);
    for exercise in &exercises {
        for kind in KINDS.iter().cycle().take(6 * KINDS.len()) {
            let (beginning, given) = beginning(&mut rng, exercise);
            folder.write("exercise.img", given);
            let mut machine = beginning.clone();
            let counts = play(&mut rng, &mut machine);
            let mut hand_in = HandIn {
                machine,
                image: self::kind(&mut rng),
                forward: counts.forward,
                back: counts.back,
            };
            if spoil(&mut rng, *kind, &mut hand_in) {
                let refused = mark(&folder, &mut rng, &beginning, &hand_in);
                *seen.entry((*kind, refused)).or_default() += 1;
            }
        }
    }
    for kind in KINDS {
        let count = |refused| seen.get(&(kind, refused)).copied().unwrap_or(0);
        let (refused, differ) = (count(true), count(false));
        println!("wrong: {kind:?}: {refused} refused on the way, {differ} differing at the end");
        assert!(refused > 0 && differ > 0);
    }
}
