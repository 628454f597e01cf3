//! Lists and sessions on a lesson bench, which has its record all along.

use crank_model::asides::{Aside, Told};
use crank_model::compare::same_turn;
use crank_model::cover::Cover;
use crank_model::generate::for_turn;
use crank_model::lists::{Call, Gave};
use crank_model::rng::{rounds, Rng};
use crank_model::state::{Machine, Turn, Way, WAYS};

use super::proved::bench::{self, Bench};
use super::sessions::sessions;
use super::{lists, wheeled, LIBRARY};

/// Makes one call beside the turns.
fn aside(bench: &mut Bench, machine: &mut Machine, aside: &Aside) -> Told {
    let (mem, table) = (&mut machine.mem, &mut machine.table);
    match aside {
        Aside::Preview(Way::Forward) => Told::Preview(bench.preview_forward(mem, table)),
        Aside::Preview(Way::Back) => Told::Preview(bench.preview_back(mem, table)),
        Aside::Save(out) => {
            let mut out = out.clone();
            let refusal = bench.save(mem, table, &mut out);
            Told::Save(refusal, out)
        }
        Aside::Check => {
            let (refusal, place) = bench.check(mem, table);
            Told::Check(refusal, place)
        }
        Aside::CheckNode(node) => Told::CheckNode(bench.check_node(*node, mem, table)),
        Aside::Load(file) => {
            let (refusal, record) = bench.load(file, mem, table);
            Told::Load(refusal, record)
        }
        Aside::Make(limit, scratch) => {
            let mut scratch = scratch.clone();
            let made = bench.make_table(*limit, mem, table, &mut scratch);
            Told::made(made, scratch)
        }
    }
}

/// Makes one call on the bench and shows its record in the machine.
fn on_bench(bench: &mut Bench, machine: &mut Machine, call: &Call) -> Gave {
    let (mem, table) = (&mut machine.mem, &machine.table);
    let gave = match call {
        Call::Aside(call) => Gave::told(aside(bench, machine, call)),
        Call::Samples(given, list) => wheeled(bench.samples(*given, list, mem, table)),
        Call::Single(way) => {
            let refusal = match way {
                Way::Forward => bench.forward(mem, table),
                Way::Back => bench.back(mem, table),
            };
            Gave::one_way(*way, u32::from(refusal == 0), refusal)
        }
        Call::Batch(way, n) => {
            let batch = match way {
                Way::Forward => bench.forward_batch(*n, mem, table),
                Way::Back => bench.back_batch(*n, mem, table),
            };
            Gave::batch(*way, batch)
        }
    };
    machine.record = bench.record();
    gave
}

/// What makes the calls on a bench of its own, from a start.
fn calls(start: &Machine) -> impl FnMut(&mut Machine, &Call) -> Gave {
    let mut bench = Bench::new(start.record);
    move |m: &mut Machine, call: &Call| on_bench(&mut bench, m, call)
}

#[test]
fn library() {
    lists("bench lists", 43, LIBRARY.turns, calls);
    sessions("bench sessions", 157, LIBRARY.turns, calls);
}

/// Single turns on the bench from machines for one turn, broken ones too.
#[test]
fn single_turns() {
    let turns: [Turn; 2] = [bench::forward, bench::back];
    let mut rng = Rng::new(44);
    let mut cover = Cover::default();
    for _ in 0..rounds(60_000) {
        for way in WAYS {
            let mut machine = for_turn(&mut rng, way);
            same_turn(way, &mut machine, turns[way as usize], &mut cover);
        }
    }
    cover.summary("bench turns");
    cover.demand_turns();
}
