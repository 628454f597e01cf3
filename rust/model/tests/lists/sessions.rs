//! Lists one after the other, with saves, loads and makes between them.

use std::hint::black_box;

use crank_model::asides::{Aside, Told};
use crank_model::cover::Cover;
use crank_model::forks::{program, Plan};
use crank_model::image::SAVED;
use crank_model::lists::{
    count_net, follow_aside, net, other_excess, position_adds_up, run_left, run_right, Call, Gave,
};
use crank_model::maker::{SCRATCH, TABLE};
use crank_model::rng::{rounds, Rng};
use crank_model::state::{Machine, Turn};

/// A program at its start, without nodes, and words for its table.
fn at_start(rng: &mut Rng) -> Machine {
    let plan = Plan {
        nesting: rng.below(4),
        parts: rng.pick(&[4, 8]),
        rounds: 2,
    };
    let mut machine = program(rng, plan);
    let (more_mem, more_table) = (rng.index(5), rng.index(20));
    machine.mem.extend(rng.words(more_mem));
    machine.table = rng.words(TABLE + more_table);
    machine
}

/// An output that is long enough.
fn save(rng: &mut Rng, m: &Machine) -> Aside {
    Aside::Save(rng.bytes(SAVED.back_length(m.record.m, m.record.n) as usize))
}

/// Enough scratch, and a limit that mostly does.
fn make(rng: &mut Rng, m: &Machine) -> Aside {
    let some = rng.below(40);
    let limit = rng.pick(&[some, u32::MAX, u32::MAX, u32::MAX]);
    Aside::Make(limit, vec![rng.word(); SCRATCH * m.mem.len() + 3])
}

/// What a session has come to, and the images that it saved, each with the
/// machine that was saved.
struct Session<L> {
    left: L,
    machine: Machine,
    images: Vec<(Vec<u8>, Machine)>,
}

impl<L: FnMut(&mut Machine, &Call) -> Gave> Session<L> {
    /// Makes a call beside the turns, and compares with the model's.
    fn aside(&mut self, aside: Aside, cover: &mut Cover) -> Told {
        let mut model = self.machine.clone();
        let gave = (self.left)(&mut self.machine, &Call::Aside(aside.clone()));
        follow_aside(&aside, &mut model, &gave, cover);
        // The compiler may else take words lent for reading as unchanged.
        let same = *black_box(&self.machine) == model;
        assert!(same, "{aside:?}: {:?}", self.machine.record);
        gave.told.expect("a call beside the turns")
    }

    fn save(&mut self, rng: &mut Rng, cover: &mut Cover) {
        let aside = save(rng, &self.machine);
        match self.aside(aside, cover) {
            Told::Save(0, image) => self.images.push((image, self.machine.clone())),
            told => panic!("{told:?} for {:?}", self.machine.record),
        }
    }

    /// Loads an image, after which all that counts is as it was saved.
    fn load(&mut self, at: usize, cover: &mut Cover) {
        let (image, saved) = self.images[at].clone();
        let other = self.machine.record != saved.record;
        assert_eq!(self.aside(Aside::Load(image), cover).refusal(), 0);
        assert_eq!(self.machine.record, saved.record);
        assert_eq!(self.machine.counted(), saved.counted());
        for (name, holds) in [
            ("load over another record", other),
            ("load of a made table", saved.record.n > 0),
        ] {
            if holds {
                cover.count(name);
            }
        }
    }

    fn make(&mut self, rng: &mut Rng, cover: &mut Cover) {
        let aside = make(rng, &self.machine);
        self.aside(aside, cover);
    }

    /// One list, and the turns that remain of it.
    fn list(&mut self, rng: &mut Rng, turns: [Turn; 2], cover: &mut Cover) {
        let start = self.machine.clone();
        let list = run_left(rng, &mut self.machine, &mut self.left, cover);
        position_adds_up(&list, &start, &self.machine);
        let net = net(&list);
        run_right(net, other_excess(rng, &start), &self.machine, turns);
        count_net(cover, net);
        if net != 0 && start.record.n > 1 {
            cover.count("turns over a made table");
        }
    }
}

/// What every session test must have met.
const CASES: [&str; 11] = [
    "save 0",
    "load 0",
    "load over another record",
    "load of a made table",
    "make 0",
    "make 22",
    "make 23",
    "turns over a made table",
    "net 0",
    "net forward",
    "net back",
];

/// Random sessions; `left` gives what makes the calls from a start.
pub fn sessions<L>(title: &str, seed: u64, turns: [Turn; 2], left: impl Fn(&Machine) -> L)
where
    L: FnMut(&mut Machine, &Call) -> Gave,
{
    let mut rng = Rng::new(seed);
    let mut cover = Cover::default();
    for _ in 0..rounds(250) {
        let machine = at_start(&mut rng);
        let mut session = Session {
            left: left(&machine),
            machine,
            images: Vec::new(),
        };
        session.save(&mut rng, &mut cover);
        for _ in 0..rng.between(2, 8) {
            match rng.below(4) {
                0 => session.save(&mut rng, &mut cover),
                1 => session.load(rng.index(session.images.len()), &mut cover),
                2 => session.load(0, &mut cover),
                _ => {}
            }
            if rng.chance(1, 2) {
                session.make(&mut rng, &mut cover);
            }
            session.list(&mut rng, turns, &mut cover);
        }
    }
    cover.summary(title);
    cover.demand(&CASES);
}
