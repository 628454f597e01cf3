//! Left and Right: any list of calls against the single turns that remain.

#[path = "../proved/mod.rs"]
mod proved;

mod bench;
mod sessions;

use crank_model::asides::{self, Asides, ASIDE_CASES};
use crank_model::cover::Cover;
use crank_model::generate::for_run;
use crank_model::lists::{
    count_net, net, other_excess, position_adds_up, run_left, run_right, without_asides, Call,
    Gave, LIST_CASES,
};
use crank_model::machine;
use crank_model::rng::{rounds, Rng};
use crank_model::state::{BatchCall, Machine, Turn, Way, WAYS};
use crank_model::wheel::{self, SampleCall, Wheeled};

/// The calls by value, of the model or of the library.
struct Calls {
    turns: [Turn; 2],
    batches: [BatchCall; 2],
    samples: SampleCall,
    asides: Asides,
}

const MODEL: Calls = Calls {
    turns: [machine::forward, machine::back],
    batches: [machine::forward_batch, machine::back_batch],
    samples: wheel::samples,
    asides: asides::MODEL,
};

const LIBRARY: Calls = Calls {
    turns: [proved::forward, proved::back],
    batches: [proved::forward_batch, proved::back_batch],
    samples: proved::samples,
    asides: Asides {
        previews: [proved::preview_forward, proved::preview_back],
        load: proved::load,
        save: proved::save,
        check: proved::check,
        check_node: proved::check_node,
        make: proved::make_table,
    },
};

fn wheeled(answer: Wheeled) -> Gave {
    Gave::turned([answer.forward, answer.back], answer.refusal)
}

/// Makes one call by value.
fn by_value(machine: &mut Machine, call: &Call, calls: &Calls) -> Gave {
    match call {
        Call::Single(way) => {
            let refusal = machine.turn(calls.turns[*way as usize]);
            Gave::one_way(*way, u32::from(refusal == 0), refusal)
        }
        Call::Batch(way, n) => {
            let batch = machine.batch(*n, calls.batches[*way as usize]);
            Gave::batch(*way, batch)
        }
        Call::Samples(given, list) => wheeled(machine.samples(*given, list, calls.samples)),
        Call::Aside(aside) => Gave::told(aside.by_value(machine, &calls.asides)),
    }
}

/// Random lists; `left` gives what makes the calls from a start.
fn lists<L>(title: &str, seed: u64, turns: [Turn; 2], left: impl Fn(&Machine) -> L)
where
    L: FnMut(&mut Machine, &Call) -> Gave,
{
    let mut rng = Rng::new(seed);
    let mut cover = Cover::default();
    for _ in 0..rounds(6_000) {
        let way: Way = rng.pick(&WAYS);
        let start = for_run(&mut rng, way);
        let mut end = start.clone();
        let list = run_left(&mut rng, &mut end, left(&start), &mut cover);
        position_adds_up(&list, &start, &end);
        without_asides(&list, start.clone(), &end, left(&start));
        let net = net(&list);
        run_right(net, other_excess(&mut rng, &start), &end, turns);
        count_net(&mut cover, net);
    }
    cover.summary(title);
    cover.demand_turns();
    cover.demand(&LIST_CASES);
    cover.demand(&ASIDE_CASES);
}

fn lists_by_value(title: &str, seed: u64, calls: &Calls) {
    lists(title, seed, calls.turns, |_| {
        |m: &mut Machine, call: &Call| by_value(m, call, calls)
    });
}

fn sessions_by_value(title: &str, seed: u64, calls: &Calls) {
    sessions::sessions(title, seed, calls.turns, |_| {
        |m: &mut Machine, call: &Call| by_value(m, call, calls)
    });
}

#[test]
fn model() {
    lists_by_value("model lists", 41, &MODEL);
    sessions_by_value("model sessions", 155, &MODEL);
}

#[test]
fn library() {
    lists_by_value("library lists", 42, &LIBRARY);
    sessions_by_value("library sessions", 156, &LIBRARY);
}
