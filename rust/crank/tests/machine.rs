//! `Machine` held against single turns by value, and the refusals in words.

#[path = "support/examples.rs"]
mod examples;
#[path = "support/run.rs"]
mod run;

use crank::calls::{self, Preview, Sampled, Turned};
use crank::{meaning, Call, Direction, Kind, Machine, Made, Record, MAX_FILE};
use examples::examples;
use run::run;
use std::iter;
use std::sync::mpsc;
use std::thread;
use std::time::Duration;
use Direction::{Back, Forward};

/// A call that should end at once is waited for so long.
const PATIENCE: Duration = Duration::from_secs(60);
/// Of a number that no call gives.
const UNKNOWN: &str = "unknown";
/// Samples in the order of turns forward.
const CYCLE: [u8; 4] = [0, 1, 3, 2];
/// The place of M in the trailer.
const M_WORD: usize = 4;

/// start; xori r1, 5; finish; a data word.
fn short() -> Machine {
    let code = vec![0x1A00_0000, 0x0240_0005, 0x1B00_0000, 7];
    Machine::new(3, code, Vec::new())
}

/// The image with a number added to the word at this byte.
fn with_word(image: &[u8], at: usize, change: u32) -> Vec<u8> {
    let mut file = image.to_vec();
    let old = u32::from_le_bytes(file[at..at + 4].try_into().expect("four bytes"));
    let new = old.wrapping_add(change).to_le_bytes();
    file[at..at + 4].copy_from_slice(&new);
    file
}

#[test]
fn refused_loads() {
    for kind in [Kind::One, Kind::Two] {
        let image = short().save_as(kind).expect("an image");
        let (end, trailer) = (image.len() - 4, image.len() - kind.trailer());
        let word = |at: usize, change: u32| with_word(&image, at, change);
        let long = |length: usize| [vec![0; length - image.len()], image.clone()].concat();
        let files = [
            (Vec::new(), 1),
            (image[image.len() - 91..].to_vec(), 1),
            (image[trailer + 1..].to_vec(), 1),
            (long(MAX_FILE + 1), 1),
            (word(end, 1), 2),
            (word(end, 2 << 24), 2),
            (word(trailer + M_WORD, 8189), 3),
            (word(trailer + M_WORD, 0_u32.wrapping_sub(4)), 3),
            (word(trailer + M_WORD, 1), 4),
            (word(trailer, 1), 4),
            (word(trailer, 8), 4),
            (word(trailer, 0_u32.wrapping_sub(8)), 4),
            (image[1..].to_vec(), 5),
            (image[trailer..].to_vec(), 5),
        ];
        for (file, refusal) in &files {
            let name = format!("{kind:?}, {} bytes", file.len());
            assert_eq!(Machine::load(file), Err(*refusal), "{name}");
            assert_eq!(calls::preface(file), b"", "{name}");
        }
        let (file, preface) = (long(MAX_FILE), MAX_FILE - image.len());
        assert_eq!(Machine::load(&file), Ok(short()));
        assert_eq!(calls::preface(&file).len(), preface);
        println!("machine: {} loads of {kind:?} refused", files.len());
    }
}

#[test]
fn saved_and_loaded() {
    let mut states = 0;
    for (name, file, machine) in examples() {
        // The examples are older than positions.
        assert_eq!(Kind::of(&file), Some(Kind::One), "{name}");
        assert_eq!(machine.save_as(Kind::One).as_ref(), Ok(&file), "{name}");
        for state in run(&machine, Forward).0 {
            let image = state.save().expect("its sizes are in order");
            assert_eq!(Machine::load(&image).as_ref(), Ok(&state), "{name}");
            let preface = b"by hand".as_slice();
            let behind = [preface, &image].concat();
            assert_eq!(Machine::load(&behind), Ok(state), "{name}");
            assert_eq!(calls::preface(&behind), preface, "{name}");
            states += 1;
        }
    }
    println!("machine: {states} states saved and loaded");
    assert!(states > 100);
}

/// Sizes that do not fit: every call answers, and nothing changes.
#[test]
fn sizes_that_do_not_fit() {
    let spoils: [fn(&mut Machine); 4] = [
        |m| m.record.k = 0,
        |m| m.record.m += 1,
        |m| m.record.n = 1,
        |m| m.mem.clear(),
    ];
    for spoil in spoils {
        let mut machine = short();
        spoil(&mut machine);
        let before = machine.clone();
        assert_eq!((machine.save(), machine.check().refusal), (Err(10), 10));
        assert_eq!([0, 1, 2].map(|node| machine.check_node(node)), [10; 3]);
        assert_eq!(machine.save_as(Kind::One), Err(10));
        for direction in [Forward, Back] {
            assert_eq!(machine.refusal(direction), 10);
            assert_eq!(machine.turn(direction), 10);
            let refused = Made {
                turns: 0,
                refusal: 10,
            };
            assert_eq!(machine.turns(direction, 5), refused);
        }
        // Every step is a turn that is refused, and none ends the samples.
        let samples = machine.samples(0, &[1, 1, 3, 1, 0, 0]);
        let refused = Sampled {
            refused: 4,
            ..no_turns(0)
        };
        assert_eq!(samples, refused);
        assert!(!machine.at_start() && !machine.at_finish());
        assert_eq!(machine, before);
    }
    println!("machine: {} that do not fit", spoils.len());
}

/// Start and finish are the ends of a run and nothing else, and looking changes nothing.
#[test]
fn ends_of_a_run() {
    let (mut runs, mut states) = (0, 0);
    for (name, _, machine) in examples() {
        let (run, refusal) = run(&machine, Forward);
        assert_eq!(refusal, 12, "{name}");
        let last = run.len() - 1;
        for (turns, state) in run.iter().enumerate() {
            let before = state.clone();
            assert_eq!(state.at_start(), turns == 0, "{name} after {turns}");
            assert_eq!(state.at_finish(), turns == last, "{name} after {turns}");
            let forward = if turns == last { 12 } else { 0 };
            let back = if turns == 0 { 12 } else { 0 };
            assert_eq!(state.refusal(Forward), forward, "{name} after {turns}");
            assert_eq!(state.refusal(Back), back, "{name} after {turns}");
            assert_eq!(*state, before, "{name} after {turns}");
            states += 1;
        }
        runs += 1;
    }
    println!("machine: the ends of {runs} runs, {states} states");
    assert!(states > 100);
}

/// What a preview should show between two neighbours of a run, or at its end.
fn shown(from: &Machine, to: Option<&Machine>) -> Preview {
    let refusal = if to.is_none() { 12 } else { 0 };
    let to = to.unwrap_or(from);
    let differs = |address: &usize| from.mem[*address] != to.mem[*address];
    let changed: Vec<usize> = (0..from.mem.len()).filter(differs).collect();
    assert!(changed.len() < 2, "{changed:?}");
    Preview {
        refusal,
        changes: changed.len() as u32,
        address: changed.first().map_or(0, |address| *address as u32),
        value: changed.first().map_or(0, |address| to.mem[*address]),
        state: to.record,
    }
}

/// In every state of a run the previews show its neighbours, and change nothing.
#[test]
fn previews() {
    let (mut previews, mut changes) = (0, 0);
    for (name, _, machine) in examples() {
        let (states, _) = run(&machine, Forward);
        for (turns, state) in states.iter().enumerate() {
            let before = turns.checked_sub(1).map(|turns| &states[turns]);
            for (direction, to) in [(Forward, states.get(turns + 1)), (Back, before)] {
                let looked_at = state.clone();
                let preview = looked_at.preview(direction);
                let want = shown(state, to);
                assert_eq!(preview, want, "{name} after {turns}, {direction:?}");
                assert_eq!(looked_at, *state, "{name} after {turns}, {direction:?}");
                previews += 1;
                changes += preview.changes;
            }
        }
    }
    println!("machine: {previews} previews, {changes} with a word that changes");
    assert!(previews > 200 && changes > 0);
}

/// The check of each node by itself, and of 0 and the number behind the last.
fn by_node(machine: &Machine) -> Vec<u32> {
    let nodes = 0..=machine.record.n + 1;
    nodes.map(|node| machine.check_node(node)).collect()
}

/// The same where every link is paired.
fn no_bad_nodes(n: u32) -> Vec<u32> {
    [&[17][..], &vec![0; n as usize], &[17]].concat()
}

/// Where the one example with constants among its code has the first.
fn first_constant(name: &str) -> Option<u32> {
    (name == "constants.img").then_some(2)
}

#[test]
fn checked() {
    let (mut words, mut links, mut nodes, mut constants) = (0, 0, 0, 0);
    for (name, _, machine) in examples() {
        let found = |machine: &Machine| (machine.check().refusal, machine.check().place);
        let constant = first_constant(&name);
        assert_eq!(
            found(&machine),
            constant.map_or((0, 0), |at| (7, at)),
            "{name}"
        );
        constants += constant.iter().len();
        let n = machine.record.n;
        assert_eq!(by_node(&machine), no_bad_nodes(n), "{name}");
        nodes += n;
        for address in 0..machine.record.k {
            let mut spoilt = machine.clone();
            spoilt.mem[address as usize] = u32::MAX;
            let lowest = constant.map_or(address, |at| at.min(address));
            assert_eq!(found(&spoilt), (7, lowest), "{name}");
            assert_eq!(by_node(&spoilt), no_bad_nodes(n), "{name}");
            words += 1;
        }
        if n > 0 {
            let mut spoilt = machine.clone();
            // The next of the last node, which has none.
            let at = spoilt.table.len() - 3;
            spoilt.table[at] = n;
            assert_eq!(found(&spoilt), (8, n), "{name}");
            let mut answers = no_bad_nodes(n);
            answers[n as usize] = 8;
            assert_eq!(by_node(&spoilt), answers, "{name}");
            links += 1;
        }
    }
    println!(
        "machine: {words} code words and {links} links that are no good, {nodes} nodes, \
         {constants} with a constant"
    );
    assert!(words > 50 && links > 1 && nodes > 10 && constants > 0);
}

/// Any number of turns, none and more than there are, from either end.
#[test]
fn turns_as_single_ones() {
    let mut batches = 0;
    for (name, _, machine) in examples() {
        let end = run(&machine, Forward).0.pop().expect("a state");
        for (direction, from) in [(Forward, machine), (Back, end)] {
            let (states, refusal) = run(&from, direction);
            let most = states.len() - 1;
            for count in 0..most + 4 {
                let mut machine = from.clone();
                let asked = count as u64;
                let (made, machine) = soon(move || (machine.turns(direction, asked), machine));
                let turns = count.min(most);
                let refusal = if count > most { refusal } else { 0 };
                let want = Made {
                    turns: turns as u64,
                    refusal,
                };
                assert_eq!(made, want, "{name}: {count} {direction:?}");
                assert_eq!(machine, states[turns], "{name}: {count} {direction:?}");
                batches += 1;
            }
        }
    }
    println!("machine: {batches} counts of turns");
    assert!(batches > 200);
}

/// What a call gives, which might else go on for ever.
fn soon<T: Send + 'static>(call: impl FnOnce() -> T + Send + 'static) -> T {
    let (sender, result) = mpsc::channel();
    thread::spawn(move || sender.send(call()));
    result.recv_timeout(PATIENCE).expect("it ends")
}

/// A count that 32 bits can't hold is no smaller one.
#[test]
fn counts_over_32_bits() {
    let counts = [
        u64::from(u32::MAX),
        1 << 32,
        (1 << 32) + 1,
        1 << 33,
        1 << 63,
        u64::MAX,
    ];
    let end = run(&short(), Forward).0.pop().expect("a state");
    for count in counts {
        for (direction, from) in [(Forward, short()), (Back, end.clone())] {
            let (states, refusal) = run(&from, direction);
            let mut machine = from;
            let (made, machine) = soon(move || (machine.turns(direction, count), machine));
            assert_eq!(made, Made { turns: 2, refusal }, "{count} {direction:?}");
            assert_eq!((Some(&machine), refusal), (states.last(), 12), "{count}");
        }
    }
    println!("machine: {} counts up to 64 bits", counts.len());
}

/// What no samples come to.
fn no_turns(given: u8) -> Sampled {
    Sampled {
        forward: 0,
        back: 0,
        refused: 0,
        last: u32::from(given),
        refusal: 0,
    }
}

type ByValue = fn(Record, &mut [u32], &[u32]) -> Turned;

/// What samples come to, by single turns by value.
fn by_single_turns(machine: &Machine, given: u8, samples: &[u8]) -> (Sampled, Machine) {
    let place = |sample: u8| CYCLE.iter().position(|other| *other == sample);
    let (mut machine, mut sum) = (machine.clone(), no_turns(given));
    // The given one first, which is no step from itself.
    for sample in iter::once(&given).chain(samples) {
        let [Some(old), Some(new)] = [sum.last as u8, *sample].map(place) else {
            sum.refusal = 20;
            break;
        };
        let (call, count): (ByValue, _) = match (4 + new - old) % 4 {
            0 => continue,
            1 => (calls::forward, &mut sum.forward),
            3 => (calls::back, &mut sum.back),
            _ => {
                sum.refusal = 19;
                break;
            }
        };
        let turned = call(machine.record, &mut machine.mem, &machine.table);
        match turned.refusal {
            0 => *count += 1,
            _ => sum.refused += 1,
        }
        machine.record = turned.state;
        sum.last = u32::from(*sample);
    }
    (sum, machine)
}

fn samples_as_single_turns(from: &Machine, given: u8, samples: &[u8]) {
    let mut machine = from.clone();
    let sampled = machine.samples(given, samples);
    let want = by_single_turns(from, given, samples);
    assert_eq!((sampled, machine), want, "{given}: {samples:?}");
}

/// Every list of 0 to 4 up to this length.
fn short_lists(length: usize) -> Vec<Vec<u8>> {
    let mut lists = vec![Vec::new()];
    if length > 0 {
        for list in short_lists(length - 1) {
            lists.extend((0..=4).map(|sample| [list.as_slice(), &[sample]].concat()));
        }
    }
    lists
}

/// Every pair of samples, and every short list, in every state of a run.
#[test]
fn lists_of_samples() {
    let (states, _) = run(&short(), Forward);
    let lists = short_lists(4);
    assert_eq!((lists.len(), states.len()), (1 + 5 + 25 + 125 + 625, 3));
    let mut covered = 0;
    for state in &states {
        for (given, sample) in (0..=255).flat_map(|given| (0..=255).map(move |s| (given, s))) {
            samples_as_single_turns(state, given, &[sample]);
            covered += 1;
        }
        for (given, list) in (0..=4).flat_map(|given| lists.iter().map(move |l| (given, l))) {
            samples_as_single_turns(state, given, list);
            covered += 1;
        }
    }
    println!("machine: {covered} lists of samples");
    assert_eq!(covered, 3 * (256 * 256 + 5 * 781));
}

/// Steps along the cycle from 0, each sample twice.
fn steps(count: usize) -> Vec<u8> {
    (1..=count).flat_map(|step| [CYCLE[step % 4]; 2]).collect()
}

/// By samples to the end of a run and three steps on, and back in the same way, then forward once.
#[test]
fn samples_there_and_back() {
    let mut samples = 0;
    for (name, _, mut machine) in examples() {
        let (states, _) = run(&machine, Forward);
        let turns = states.len() - 1;
        let there = steps(turns + 3);
        let back: Vec<u8> = there.iter().rev().copied().chain([0, 1]).collect();
        let made = machine.samples(0, &there);
        let want = Sampled {
            forward: turns as u64,
            refused: 3,
            ..no_turns(CYCLE[(turns + 3) % 4])
        };
        assert_eq!((made, Some(&machine)), (want, states.last()), "{name}");
        let made = machine.samples(made.last as u8, &back);
        let want = Sampled {
            forward: 1,
            back: turns as u64,
            refused: 3,
            ..no_turns(1)
        };
        assert_eq!((made, &machine), (want, &states[1]), "{name}");
        samples += there.len() + back.len();
    }
    println!("machine: {samples} samples there and back");
    assert!(samples > 1_000);
}

/// Two calls, the second given the last sample of the first, are one, wherever the list is cut.
#[test]
fn samples_cut_in_two() {
    let mut cuts = 0;
    for (name, _, machine) in examples() {
        let list = [steps(7).as_slice(), &[3, 1, 0, 2, 0, 0, 1, 2, 9]].concat();
        let (want, end) = by_single_turns(&machine, 0, &list);
        assert_eq!((want.refusal, want.last), (19, 1), "{name}");
        for cut in 0..=list.len() - 2 {
            let mut machine = machine.clone();
            let first = machine.samples(0, &list[..cut]);
            let second = machine.samples(first.last as u8, &list[cut..]);
            let sum = Sampled {
                forward: first.forward + second.forward,
                back: first.back + second.back,
                refused: first.refused + second.refused,
                ..second
            };
            assert_eq!((first.refusal, sum), (0, want), "{name} cut at {cut}");
            assert_eq!(machine, end, "{name} cut at {cut}");
            cuts += 1;
        }
    }
    println!("machine: {cuts} lists of samples cut in two");
    assert!(cuts > 100);
}

#[test]
fn directions() {
    assert_eq!((Forward.reverse(), Back.reverse()), (Back, Forward));
}

#[test]
fn meanings() {
    let calls = [
        Call::Forward,
        Call::Back,
        Call::Samples,
        Call::Load,
        Call::Save,
        Call::Check,
        Call::Make,
    ];
    for call in calls {
        for refusal in 0..=24 {
            let said = meaning(refusal, call);
            assert!(said != UNKNOWN && !said.is_empty(), "{refusal} of {call:?}");
        }
        for refusal in [25, u32::MAX] {
            assert_eq!(meaning(refusal, call), UNKNOWN, "{refusal} of {call:?}");
        }
    }
    // Where a number means something else back, it is said.
    for refusal in [11, 12, 13, 18, 21] {
        let [forward, back] = [Call::Forward, Call::Back].map(|call| meaning(refusal, call));
        assert_ne!(forward, back, "{refusal}");
    }
    let [turn, check, make] =
        [Call::Forward, Call::Check, Call::Make].map(|call| meaning(17, call));
    assert!(turn != check && turn != make && check != make);
    assert_ne!(meaning(12, Call::Forward), meaning(12, Call::Make));
    println!("machine: 0 to 24 in words, for {} calls", calls.len());
}
