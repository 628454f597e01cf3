//! Turns per second, forward and back, in single calls, in batches and from
//! encoder samples, and previews per second, of the library and of the model in
//! one run.
//!
//! The previews are of states that the single turns come through, collected
//! beforehand, each in the largest memory: a preview that copied it would be far
//! slower than a turn, as the model's is. Nothing is turned while they are
//! measured.
//!
//! The last line is about the making of a qif table, of document 003's multiplexor
//! with three coins.
//!
//! Options: `--seconds S`, the time for each figure (default 0.5).

#[path = "../tests/proved/mod.rs"]
mod proved;

use std::env;
use std::hint::black_box;
use std::process::exit;
use std::time::{Duration, Instant};

use crank_model::instruction::{word_i, word_o, word_r};
use crank_model::machine::{self, Record, MAX_M, NODE};
use crank_model::maker::{self, MakeCall, SCRATCH, TABLE};
use crank_model::multiplexor::multiplexor;
use crank_model::preview::{self, PreviewCall};
use crank_model::state::{BatchCall, Machine, Turn, Way, WAYS};
use crank_model::wheel::{self, SampleCall};
use proved::bench::{self, Bench};

/// Turns made in one direction before they are made in the other; a whole
/// number of the samples' cycles.
const STRETCH: u32 = 20_000;

/// The ways of calling, each a row of the table.
const MODES: [&str; 4] = ["single", "batch", "samples", "preview"];

/// The states whose previews are measured, over and over: two rounds of the
/// longer programs, and few enough for what is read of them to stay in cache.
const STATES: usize = 28;

struct Crank {
    name: &'static str,
    turns: [Turn; 2],
    batches: [BatchCall; 2],
    samples: SampleCall,
    previews: [PreviewCall; 2],
}

/// The model last, as the others are compared with it.
fn cranks() -> Vec<Crank> {
    vec![
        Crank {
            name: "library",
            turns: [proved::forward, proved::back],
            batches: [proved::forward_batch, proved::back_batch],
            samples: proved::samples,
            previews: [proved::preview_forward, proved::preview_back],
        },
        Crank {
            name: "bench",
            turns: [bench::forward, bench::back],
            batches: [bench::forward_batch, bench::back_batch],
            samples: bench::samples,
            // Without what the tests compare after each.
            previews: [
                |r, mem, table| Bench::new(r).preview_forward(mem, table),
                |r, mem, table| Bench::new(r).preview_back(mem, table),
            ],
        },
        Crank {
            name: "model",
            turns: [machine::forward, machine::back],
            batches: [machine::forward_batch, machine::back_batch],
            samples: wheel::samples,
            previews: [preview::forward, preview::back],
        },
    ]
}

/// An endless loop over the body, standing at its first word. A branch at the
/// bottom sets br, the same branch at the top clears it.
fn endless(body: &[u32], data: &[u32], table: Vec<u32>) -> Machine {
    let offset = (body.len() as u32 + 1).wrapping_neg();
    let mut mem = vec![word_i(5, 0, offset)];
    mem.extend(body);
    mem.push(word_i(5, 0, offset));
    let k = mem.len() as u32;
    mem.extend(data);
    let mut regs = [0; 16];
    regs[0] = 1;
    for (i, reg) in regs.iter_mut().enumerate().skip(2) {
        *reg = 0x0123_4567 * i as u32;
    }
    let record = Record {
        regs,
        qifv: u32::from(!table.is_empty()),
        qifw: 0,
        k,
        m: mem.len() as u32,
        n: (table.len() / NODE) as u32,
        position: 0,
    };
    Machine { record, mem, table }
}

fn arithmetic() -> Machine {
    let body = [
        word_r(20, 4, 5),
        word_i(3, 5, 17),
        word_r(19, 6, 4),
        word_r(21, 7, 6),
        word_r(18, 8, 9),
        word_o(35, 2, 10, 4, 6),
        word_o(35, 5, 11, 5, 7),
        word_r(22, 9, 0),
        word_i(2, 12, 0x5555),
        word_i(4, 8, 3),
        word_o(34, 2, 13, 12, 0),
        word_r(20, 14, 0),
    ];
    endless(&body, &[], Vec::new())
}

fn exchange() -> Machine {
    let body = [
        word_i(1, 4, 10),
        word_r(16, 5, 10),
        word_r(17, 6, 11),
        word_r(20, 4, 5),
        word_i(1, 7, 11),
        word_r(16, 8, 11),
        word_r(17, 9, 10),
        word_i(1, 4, 12),
    ];
    let mut machine = endless(&body, &[11, 22, 33, 44], Vec::new());
    machine.record.regs[10] = 12;
    machine.record.regs[11] = 13;
    machine
}

/// A qif whose next node is itself; the taken branch has a nested qif of the
/// same kind, and both wait.
fn qifs() -> Machine {
    let nodes: [[u32; NODE]; 6] = [
        [2, 3, 4, 3, 0, 0, 1, 1, 0],
        [5, 6, 5, 6, 1, 0, 4, 0, 2],
        [0, 0, 0, 0, 1, 1, 0, 0, 0],
        [0, 0, 0, 0, 0, 1, 0, 2, 0],
        [0, 0, 0, 0, 2, 2, 0, 0, 3],
        [0, 0, 0, 0, 2, 2, 0, 0, 1],
    ];
    let body = [
        word_r(24, 4, 0),
        word_r(20, 6, 7),
        word_r(24, 5, 0),
        word_i(3, 7, 1),
        word_r(25, 5, 0),
        word_r(19, 8, 6),
        word_r(25, 4, 0),
    ];
    let mut machine = endless(&body, &[], nodes.concat());
    machine.record.regs[4] = 0;
    machine.record.regs[5] = 0;
    machine
}

fn single_stretch(turn: Turn, machine: &mut Machine) {
    for _ in 0..STRETCH {
        let (refusal, record) = turn(
            black_box(machine.record),
            black_box(&mut machine.mem),
            black_box(&machine.table),
        );
        assert_eq!(refusal, 0, "a measured turn is refused");
        machine.record = record;
    }
}

fn batch_stretch(call: BatchCall, machine: &mut Machine) {
    let batch = call(
        black_box(machine.record),
        STRETCH,
        black_box(&mut machine.mem),
        black_box(&machine.table),
    );
    assert_eq!((batch.turns, batch.refusal), (STRETCH, 0));
    machine.record = batch.record;
}

/// The samples after a 0 that turn one stretch, and end at 0 again.
fn stretch_of_samples(way: Way) -> Vec<u8> {
    let cycle = match way {
        Way::Forward => [1, 3, 2, 0],
        Way::Back => [2, 3, 1, 0],
    };
    cycle.repeat(STRETCH as usize / cycle.len())
}

fn sample_stretch(call: SampleCall, samples: &[u8], machine: &mut Machine) {
    let answer = call(
        black_box(machine.record),
        0,
        black_box(samples),
        black_box(&mut machine.mem),
        black_box(&machine.table),
    );
    assert_eq!(answer.forward + answer.back, STRETCH.into());
    machine.record = answer.record;
}

/// The states from `start` on, with as many data words as there can be.
fn states(start: &Machine) -> Vec<Machine> {
    let mut first = start.clone();
    first.mem.resize(MAX_M as usize, 0);
    first.record.m = MAX_M;
    let mut states = vec![first];
    for i in 0..STATES {
        let mut next = states[i].clone();
        assert_eq!(
            next.turn(machine::forward),
            0,
            "a collected turn is refused"
        );
        states.push(next);
    }
    states
}

fn preview_stretch(call: PreviewCall, states: &[Machine]) {
    for state in states.iter().cycle().take(STRETCH as usize) {
        let shown = call(
            black_box(state.record),
            black_box(&state.mem),
            black_box(&state.table),
        );
        assert_eq!(black_box(shown).refusal, 0, "a measured preview is refused");
    }
}

/// Million turns per second in both directions; the machine ends as it began.
/// The median stretch counts, so that other work on the machine shows less.
fn measure(
    start: &Machine,
    time: Duration,
    mut stretch: impl FnMut(Way, &mut Machine),
) -> [f64; 2] {
    let mut machine = start.clone();
    let mut spent = [Vec::new(), Vec::new()];
    let begin = Instant::now();
    while spent[0].is_empty() || begin.elapsed() < 2 * time {
        for way in WAYS {
            let begin = Instant::now();
            stretch(way, &mut machine);
            spent[way as usize].push(begin.elapsed());
        }
        assert_eq!(machine, *start, "the turns do not return");
    }
    spent.map(|mut s| {
        s.sort();
        f64::from(STRETCH) / s[s.len() / 2].as_secs_f64() / 1e6
    })
}

/// Figures of each crank for one program: [crank][mode][way].
fn figures(start: &Machine, time: Duration, cranks: &[Crank]) -> Vec<[[f64; 2]; MODES.len()]> {
    let lists = WAYS.map(stretch_of_samples);
    let states = states(start);
    // What can be turned forward, and what back.
    let shown = [&states[..STATES], &states[1..]];
    let each = |crank: &Crank| {
        let single = measure(start, time, |way, m| {
            single_stretch(crank.turns[way as usize], m);
        });
        let batch = measure(start, time, |way, m| {
            batch_stretch(crank.batches[way as usize], m);
        });
        let samples = measure(start, time, |way, m| {
            sample_stretch(crank.samples, &lists[way as usize], m);
        });
        let preview = measure(start, time, |way, _| {
            preview_stretch(crank.previews[way as usize], shown[way as usize]);
        });
        [single, batch, samples, preview]
    };
    cranks.iter().map(each).collect()
}

fn print_program(name: &str, cranks: &[Crank], found: &[[[f64; 2]; MODES.len()]]) {
    for (mode, mode_name) in MODES.iter().enumerate() {
        for way in WAYS {
            let model = found[found.len() - 1][mode][way as usize];
            let way_name = format!("{way:?}").to_lowercase();
            let mut line = format!("{name:<12}{mode_name:<8}{way_name:<9}");
            for (crank, figures) in cranks.iter().zip(found) {
                let speed = figures[mode][way as usize];
                line += &format!("{speed:>9.2}");
                if crank.name != "model" {
                    line += &format!("{:>7.2}", speed / model);
                }
            }
            println!("{line}");
        }
    }
}

/// The gates of the multiplexor's eight ends, and what the limit counts of it.
const GATES: [u32; 8] = [0, 1, 1, 2, 1, 2, 2, 3];
const WALKED: u32 = 3_225;

/// Microseconds for a table; the median call counts.
fn making(call: MakeCall, time: Duration) -> f64 {
    let mut machine = multiplexor(&GATES, &[0; 4]);
    let mut scratch = vec![0; SCRATCH * machine.mem.len()];
    machine.table = vec![0; TABLE];
    let mut spent = Vec::new();
    let begin = Instant::now();
    while spent.is_empty() || begin.elapsed() < time {
        let begin = Instant::now();
        let made = call(
            black_box(machine.record),
            WALKED,
            black_box(&mut machine.mem),
            black_box(&mut machine.table),
            black_box(&mut scratch),
        );
        spent.push(begin.elapsed());
        assert_eq!((made.refusal, made.record.n), (0, 22), "no table is made");
    }
    spent.sort();
    spent[spent.len() / 2].as_secs_f64() * 1e6
}

fn print_making(time: Duration) {
    let [library, model] = [proved::make_table, maker::make_table].map(|call| making(call, time));
    let speed = |micros: f64| f64::from(WALKED) / micros;
    println!(
        "a qif table of 22 nodes, {WALKED} cycles walked: microseconds; million cycles per second"
    );
    println!(
        "multiplexor make    library {library:.0} us, {:.2}; model {model:.0} us, {:.2}; ratio {:.2}",
        speed(library),
        speed(model),
        model / library
    );
}

fn seconds() -> Option<f64> {
    // `cargo bench` adds --bench.
    let args: Vec<String> = env::args().skip(1).filter(|a| a != "--bench").collect();
    match args.as_slice() {
        [] => Some(0.5),
        [option, value] if option == "--seconds" => {
            value.parse().ok().filter(|s: &f64| *s > 0.0 && *s < 3600.0)
        }
        _ => None,
    }
}

fn main() {
    let Some(seconds) = seconds() else {
        eprintln!("usage: cargo bench --bench speed -- [--seconds S]");
        exit(2);
    };
    let time = Duration::from_secs_f64(seconds);
    let cranks = cranks();
    let mut head = format!("{:<12}{:<8}{:<9}", "program", "calls", "way");
    for crank in &cranks {
        head += &format!("{:>9}", crank.name);
        if crank.name != "model" {
            head += &format!("{:>7}", "ratio");
        }
    }
    println!("million turns or previews per second; ratio to the model");
    println!("{head}");
    for (name, start) in [
        ("arithmetic", arithmetic()),
        ("exchange", exchange()),
        ("qif", qifs()),
    ] {
        print_program(name, &cranks, &figures(&start, time, &cranks));
    }
    print_making(time);
}
