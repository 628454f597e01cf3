//! Every call of the lesson bench held against the call by value: what it answers, and what bench,
//! memory and table then hold.

#[path = "support/examples.rs"]
mod examples;
#[path = "support/run.rs"]
mod run;

use crank::calls::{self, Batch, Bench, Cranked, Loaded, Preview, Sampled, Tabled, Turned};
use crank::{image_length, Direction, Kind, Machine, Record, MAKE_LIMIT, MAX_NODES, NODE_WORDS};
use examples::examples;
use run::run;

/// What lent words hold before the call, where nothing else is in them.
const NOISE: u32 = 0xA5A5_A5A5;
/// Lent beyond what is needed.
const EXCESS: usize = 10;
/// The words of a made table.
const TABLE: usize = NODE_WORDS * MAX_NODES;
/// The words of scratch for a memory word.
const SCRATCH: usize = 16;
/// Places in the trailer of an image: its length, and K.
const BACK_WORD: usize = 0;
const K_WORD: usize = 8;

/// What a call answers, and the machine that it leaves.
type Outcome<T> = (T, Machine);

fn on_bench<T>(
    machine: &Machine,
    call: impl FnOnce(&mut Bench, &mut [u32], &mut [u32]) -> T,
) -> Outcome<T> {
    let mut left = machine.clone();
    let state = machine.record;
    let mut bench = Bench { state };
    let answer = call(&mut bench, &mut left.mem, &mut left.table);
    left.record = bench.state;
    (answer, left)
}

/// The call gives the record too.
fn by_value<T>(
    machine: &Machine,
    call: impl FnOnce(Record, &mut [u32], &mut [u32]) -> (T, Record),
) -> Outcome<T> {
    let mut left = machine.clone();
    let (answer, record) = call(machine.record, &mut left.mem, &mut left.table);
    left.record = record;
    (answer, left)
}

/// The same with more lent than the sizes ask for.
fn with_excess(mut machine: Machine) -> Machine {
    machine.mem.extend([NOISE; EXCESS]);
    machine.table.extend([NOISE; EXCESS]);
    machine
}

/// The record with noise in all that is lent with it.
fn noise(machine: &Machine) -> Machine {
    let mut machine = machine.clone();
    machine.mem.fill(NOISE);
    machine.table.fill(NOISE);
    machine
}

/// Every state of every example, with more lent than is needed.
fn states() -> Vec<Machine> {
    let runs = examples().into_iter();
    let states = runs.flat_map(|(_, _, machine)| run(&machine, Direction::Forward).0);
    states.map(with_excess).collect()
}

/// Sizes that fit no call.
fn spoilt(machine: &Machine) -> Vec<Machine> {
    let spoils: [fn(&mut Machine); 5] = [
        |m| m.record = Record::default(),
        |m| m.record.k = m.record.m + 1,
        |m| m.record.m = m.mem.len() as u32 + 1,
        |m| m.record.n = MAX_NODES as u32 + 1,
        |m| m.mem.clear(),
    ];
    let spoil = |spoil: fn(&mut Machine)| {
        let mut machine = machine.clone();
        spoil(&mut machine);
        machine
    };
    spoils.map(spoil).to_vec()
}

type OnBench = fn(&mut Bench, &mut [u32], &[u32]) -> u32;
type ByValue = fn(Record, &mut [u32], &[u32]) -> Turned;
type BatchOnBench = fn(&mut Bench, u32, &mut [u32], &[u32]) -> Cranked;
type BatchByValue = fn(Record, u32, &mut [u32], &[u32]) -> Batch;

fn single(machine: &Machine, bench: OnBench, value: ByValue) -> u32 {
    let found = on_bench(machine, |b, mem, table| bench(b, mem, table));
    let want = by_value(machine, |record, mem, table| {
        let turned = value(record, mem, table);
        (turned.refusal, turned.state)
    });
    assert_eq!(found, want);
    found.0
}

fn batch(machine: &Machine, n: u32, bench: BatchOnBench, value: BatchByValue) {
    let found = on_bench(machine, |b, mem, table| bench(b, n, mem, table));
    let want = by_value(machine, |record, mem, table| {
        let made = value(record, n, mem, table);
        let (turns, refusal) = (made.turns, made.refusal);
        (Cranked { turns, refusal }, made.state)
    });
    assert_eq!(found, want, "{n}");
}

fn samples(machine: &Machine, given: u8, samples: &[u8]) {
    let found = on_bench(machine, |b, mem, table| {
        b.samples(given, samples, mem, table)
    });
    let want = by_value(machine, |record, mem, table| {
        let wheeled = calls::samples(record, given, samples, mem, table);
        let sampled = Sampled {
            forward: wheeled.forward,
            back: wheeled.back,
            refused: wheeled.refused,
            last: wheeled.last,
            refusal: wheeled.refusal,
        };
        (sampled, wheeled.state)
    });
    assert_eq!(found, want, "{given}: {samples:?}");
}

/// Turns, batches and samples; gives how many calls were made, and the refusals of both turns.
fn turns(machine: &Machine) -> (usize, [u32; 2]) {
    let forward = single(machine, Bench::forward, calls::forward);
    let back = single(machine, Bench::back, calls::back);
    let counts = [0, 1, 3, u32::MAX];
    for n in counts {
        batch(machine, n, Bench::forward_batch, calls::forward_batch);
        batch(machine, n, Bench::back_batch, calls::back_batch);
    }
    let lists: [(u8, &[u8]); 5] = [
        (0, &[]),
        (0, &[1, 1, 3, 2, 0, 2, 3]),
        (1, &[0, 2, 3, 3, 0, 1]),
        (2, &[3, 1, 4]),
        (4, &[0]),
    ];
    for (given, list) in lists {
        samples(machine, given, list);
    }
    (2 + 2 * counts.len() + lists.len(), [forward, back])
}

#[test]
fn turns_batches_and_samples() {
    let (mut made, mut waits) = (0, 0);
    let states = states();
    for state in &states {
        made += turns(state).0;
        waits += usize::from(state.record.qifw > 0);
    }
    for machine in spoilt(&states[0]) {
        let (calls, refusals) = turns(&machine);
        assert_eq!(refusals, [10; 2]);
        made += calls;
    }
    println!("bench: {made} calls that turn, in {waits} states that wait too");
    assert!(made > 1_000 && waits > 0);
}

/// Both previews.
fn shown(machine: &Machine) -> [Preview; 2] {
    let found = on_bench(machine, |b, mem, table| {
        [b.preview_forward(mem, table), b.preview_back(mem, table)]
    });
    let record = machine.record;
    let forward = calls::preview_forward(record, &machine.mem, &machine.table);
    let back = calls::preview_back(record, &machine.mem, &machine.table);
    assert_eq!(found, ([forward, back], machine.clone()));
    found.0
}

/// In every state of a run both previews, and what the turns then come to.
#[test]
fn previews() {
    let (mut made, mut changes) = (0, 0);
    let states = states();
    for state in &states {
        let [forward, back] = shown(state);
        for (preview, turn) in [(forward, Bench::forward as OnBench), (back, Bench::back)] {
            let (refusal, left) = on_bench(state, |b, mem, table| turn(b, mem, table));
            assert_eq!((preview.refusal, preview.state), (refusal, left.record));
            made += 1;
            changes += preview.changes;
        }
    }
    for machine in spoilt(&states[0]) {
        assert_eq!(shown(&machine).map(|preview| preview.refusal), [10; 2]);
    }
    println!("bench: {made} previews, {changes} with a word that changes");
    assert!(made > 200 && changes > 0);
}

/// The check, and that of every node, of 0 and of the number after the last; gives the refusals.
fn checked(machine: &Machine) -> Vec<u32> {
    let (record, mem, table) = (machine.record, &machine.mem, &machine.table);
    let nodes = 0..=record.n + 1;
    let found = on_bench(machine, |b, mem, table| {
        let each: Vec<u32> = nodes
            .clone()
            .map(|node| b.check_node(node, mem, table))
            .collect();
        (b.check(mem, table), each)
    });
    let each = nodes.map(|node| calls::check_node(record, node, mem, table));
    let want = (calls::check(record, mem, table), each.collect());
    assert_eq!(found, (want, machine.clone()));
    let (all, each) = found.0;
    [&[all.refusal], each.as_slice()].concat()
}

/// As the examples are, with the first code word replaced, and with a link that has no pair.
#[test]
fn checks() {
    let (mut nodes, mut links) = (0, 0);
    for (_, _, machine) in examples() {
        let machine = with_excess(machine);
        nodes += checked(&machine)
            .iter()
            .filter(|answer| **answer == 0)
            .count();
        let mut changed = machine.clone();
        changed.mem[0] = u32::MAX;
        assert_eq!(checked(&changed)[0], 7);
        if machine.record.n > 0 {
            let mut changed = machine.clone();
            changed.table[0] = machine.record.n + 1;
            let answers = checked(&changed);
            assert_eq!((answers[0], &answers[1..3]), (8, &[17, 8][..]));
            links += 1;
        }
        for machine in spoilt(&machine) {
            assert!(checked(&machine).iter().all(|refusal| *refusal == 10));
        }
    }
    println!("bench: {nodes} checks without a refusal, {links} links that are no good");
    assert!(nodes > 30 && links > 1);
}

/// The load on a bench that holds a record; an accepted one takes its place.
fn loaded(machine: &Machine, file: &[u8]) -> Outcome<Loaded> {
    let found = on_bench(machine, |b, mem, table| b.load(file, mem, table));
    let want = by_value(machine, |record, mem, table| {
        let loaded = calls::load(file, mem, table);
        let kept = match loaded.refusal {
            0 => loaded.state,
            _ => record,
        };
        (loaded, kept)
    });
    assert_eq!(found, want);
    found
}

/// The answer where this machine is loaded.
fn accepted(machine: &Machine) -> Loaded {
    Loaded {
        refusal: 0,
        state: machine.record,
    }
}

/// An example with a fault for each refusal from 1 to 5.
fn damaged(file: &[u8]) -> [Vec<u8>; 5] {
    let (end, trailer) = (file.len() - 1, file.len() - Kind::One.trailer());
    let with_byte = |at: usize, byte: u8| {
        let mut file = file.to_vec();
        file[at] = byte;
        file
    };
    [
        file[file.len() - 91..].to_vec(),
        with_byte(end, 0),
        // K is then above M.
        with_byte(trailer + K_WORD + 3, 1),
        // The length is then odd.
        with_byte(trailer + BACK_WORD, file[trailer + BACK_WORD] + 1),
        file[1..].to_vec(),
    ]
}

/// Refused: zeros in the answer alone.
fn refused_load(machine: &Machine, file: &[u8], refusal: u32) {
    let state = Record::default();
    let zeros = Loaded { refusal, state };
    assert_eq!(loaded(machine, file), (zeros, machine.clone()));
}

/// In every state of a run the bench takes the image that the run began with, and a damaged one leaves it
/// as it was.
#[test]
fn loads() {
    let (mut taken, mut refused) = (0, 0);
    for (_, file, start) in examples() {
        let files = damaged(&file);
        for state in run(&start, Direction::Forward).0 {
            for (file, refusal) in files.iter().zip(1..) {
                refused_load(&state, file, refusal);
            }
            let mut short = state.clone();
            short.mem.pop();
            refused_load(&short, &file, 6);
            refused += files.len() + 1;
            let (state, start) = (with_excess(state), with_excess(start.clone()));
            assert_eq!(loaded(&state, &file), (accepted(&start), start));
            taken += 1;
        }
    }
    println!("bench: {taken} loads over another record, {refused} refused");
    assert!(taken > 100 && refused > 600);
}

/// Whatever record the bench holds, and with noise in what is lent.
#[test]
fn loads_over_noise() {
    let (mut taken, mut refused) = (0, 0);
    for (name, file, machine) in examples() {
        let start = with_excess(machine);
        let records = spoilt(&start).into_iter().map(|machine| machine.record);
        for record in records {
            let given = Machine {
                record,
                ..noise(&start)
            };
            let want = (accepted(&start), start.clone());
            assert_eq!(loaded(&given, &file), want, "{name}");
            taken += 1;
            for (file, refusal) in damaged(&file).iter().zip(1..) {
                refused_load(&given, file, refusal);
                refused += 1;
            }
        }
    }
    println!("bench: {taken} loads over noise, {refused} refused");
    assert!(taken > 50 && refused > 250);
}

/// The refusal and the output, of so many bytes.
fn saved(machine: &Machine, length: usize) -> (u32, Vec<u8>) {
    let (mut out, mut other) = (vec![NOISE as u8; length], vec![NOISE as u8; length]);
    let (refusal, left) = on_bench(machine, |b, mem, table| b.save(mem, table, &mut out));
    let by_value = calls::save(machine.record, &machine.mem, &machine.table, &mut other);
    assert_eq!((refusal, &out, &left), (by_value, &other, machine));
    (refusal, out)
}

/// Into an output that just fits, into a longer one, and into one that is a byte too short.
#[test]
fn saves() {
    let mut made = 0;
    let states = states();
    for state in &states {
        let length = image_length(state.record.m as usize, state.record.n as usize);
        let (refusal, image) = saved(state, length);
        assert_eq!(refusal, 0);
        let again = loaded(&noise(state), &image);
        assert_eq!(again, (accepted(state), state.clone()));
        let noise = vec![NOISE as u8; EXCESS];
        assert_eq!(saved(state, length + EXCESS), (0, [image, noise].concat()));
        assert_eq!(saved(state, length - 1), (9, vec![NOISE as u8; length - 1]));
        made += 3;
    }
    for machine in spoilt(&states[0]) {
        assert_eq!(saved(&machine, EXCESS), (10, vec![NOISE as u8; EXCESS]));
    }
    println!("bench: {made} saves");
    assert!(made > 200);
}

/// The machine without its table, and with room for one.
fn bare(machine: &Machine) -> Machine {
    let mut bare = machine.clone();
    bare.table = vec![NOISE; TABLE + EXCESS];
    bare.record.n = 0;
    bare.record.qifv = 0;
    bare
}

/// The making of a table with so much scratch.
fn made(machine: &Machine, limit: u32, scratch: usize) -> Outcome<Tabled> {
    let mut lent = vec![NOISE; scratch + EXCESS];
    let found = on_bench(machine, |b, mem, table| {
        b.make_table(limit, mem, table, &mut lent[..scratch])
    });
    assert_eq!(lent[scratch..], [NOISE; EXCESS]);
    let want = by_value(machine, |record, mem, table| {
        let made = calls::make_table(record, limit, mem, table, &mut lent[..scratch]);
        let (refusal, cycles) = (made.refusal, made.cycles);
        (Tabled { refusal, cycles }, made.state)
    });
    assert_eq!(found, want);
    found
}

/// Refused: the bench is as it was; so is the table, or it is zeros where the walk had begun.
fn refused_table(machine: &Machine, limit: u32, scratch: usize, refusal: u32) {
    let mut left = machine.clone();
    if ![10, 22].contains(&refusal) {
        left.table[..TABLE].fill(0);
    }
    let cycles = 0;
    let found = made(machine, limit, scratch);
    assert_eq!(found, (Tabled { refusal, cycles }, left));
}

/// Of a program without a table, and of one that has it already.
#[test]
fn tables() {
    let (mut nodes, mut turns) = (0, 0);
    for (name, _, drawn) in examples() {
        let scratch = SCRATCH * drawn.mem.len();
        let bare = bare(&drawn);
        let (tabled, begun) = made(&bare, MAKE_LIMIT, scratch);
        assert_eq!((tabled.refusal, begun.record.qifv), (0, 1), "{name}");
        assert_eq!(begun.record.n, drawn.record.n.max(1), "{name}");
        let (cranked, _) = on_bench(&begun, |b, mem, table| {
            b.forward_batch(u32::MAX, mem, table)
        });
        assert_eq!(cranked.turns, tabled.cycles, "{name}");
        refused_table(&begun, MAKE_LIMIT, scratch, 22);
        refused_table(&bare, MAKE_LIMIT, scratch - 1, 22);
        refused_table(&bare, 0, scratch, 23);
        for machine in spoilt(&bare) {
            refused_table(&machine, MAKE_LIMIT, scratch, 10);
        }
        nodes += begun.record.n;
        turns += cranked.turns;
    }
    println!("bench: tables of {nodes} nodes, {turns} turns over them");
    assert!(nodes > 30 && turns > 700);
}
