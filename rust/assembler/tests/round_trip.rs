//! Every image that loads has a source that assembles to the same bytes.

#[path = "../../model/tests/proved/records.rs"]
mod records;

use crank::{calls, Kind, Machine, MAX_FILE, MAX_NODES, MAX_WORDS, NODE_WORDS};
use crank_assembler::{assemble, disassemble, files};
use crank_model::cover::Cover;
use crank_model::damage::damage;
use crank_model::generate::{for_run, noise, valid};
use crank_model::rng::{rounds, Rng};
use crank_model::state::{self, WAYS};
use crank_model::structured;
use crank_model::words::EXTREMES;
use records::given;

/// What the images have to bring, each in some of them.
const SEEN: [&str; 17] = [
    "image",
    "crooked link",
    "code word that is no instruction",
    "preface",
    "preface that is no UTF-8",
    "extreme register",
    "node that is none",
    "wait",
    "no position",
    "position 0",
    "position below 0",
    "position over 32 bits",
    "position at an end",
    "jump by label",
    "landing",
    "branch by number",
    "data by label",
];

/// Takes the file there and back, and counts what it brought.
fn there_and_back(file: &[u8], cover: &mut Cover) {
    let source = disassemble(file).expect("it loads");
    let assembled = assemble(&source).unwrap_or_else(|e| panic!("{e}\n{source}"));
    assert!(assembled.image == file, "{source}");
    assert!(source.starts_with("; K "));
    cover.count("image");
    count_state(file, cover);
    count_source(&source, cover);
}

fn count_state(file: &[u8], cover: &mut Cover) {
    let machine = Machine::load(file).expect("it loads");
    let record = machine.record;
    let mut count = |seen: bool, kind: &str| {
        if seen {
            cover.count(kind);
        }
    };
    let code = &machine.mem[..record.k as usize];
    let nodes = machine.table.chunks(NODE_WORDS);
    let mut links = nodes.flat_map(|node| &node[..NODE_WORDS - 1]);
    let preface = calls::preface(file);
    count(links.any(|link| *link > record.n), SEEN[1]);
    count(
        !code.iter().all(|word| calls::is_instruction(*word)),
        SEEN[2],
    );
    count(!preface.is_empty(), SEEN[3]);
    count(std::str::from_utf8(preface).is_err(), SEEN[4]);
    let extreme = |value: &u32| *value > 8192 && EXTREMES.contains(value);
    count(record.regs.iter().any(extreme), SEEN[5]);
    count(record.qifv > record.n, SEEN[6]);
    count(record.qifw > 0, SEEN[7]);
    let position = Kind::of(file)
        .filter(|kind| *kind == Kind::Two)
        .map(|_| record.position);
    count(position.is_none(), SEEN[8]);
    count(position == Some(0), SEEN[9]);
    count(position.is_some_and(|p| p < 0), SEEN[10]);
    count(
        position.is_some_and(|p| i32::try_from(p).is_err()),
        SEEN[11],
    );
    let ends = [i64::MIN, i64::MAX];
    count(position.is_some_and(|p| ends.contains(&p)), SEEN[12]);
}

/// Counts each branch and each `ld` of data by how it is written.
fn count_source(source: &str, cover: &mut Cover) {
    for line in source.lines().filter(|line| !line.contains('"')) {
        let statement = line.split_once(':').map_or(line, |(_, rest)| rest).trim();
        let (mnemonic, operands) = statement.split_once(' ').unwrap_or((statement, ""));
        let last = operands.rsplit(", ").next().unwrap_or_default().trim();
        match mnemonic {
            "bra" | "bez" | "bnz" if last.starts_with("from L") => cover.count("landing"),
            "bra" | "bez" | "bnz" if last.starts_with('L') => cover.count("jump by label"),
            "bra" | "bez" | "bnz" => cover.count("branch by number"),
            "ld" if last.starts_with('D') => cover.count("data by label"),
            _ => {}
        }
    }
}

/// A file of either kind with a preface; none where the sizes do not fit.
fn file_of(rng: &mut Rng, machine: &state::Machine) -> Option<Vec<u8>> {
    let preface = random_preface(rng);
    let machine = Machine {
        record: crank::Record {
            position: rng.pick(&[machine.record.position, 0, -1, i64::MIN, i64::MAX]),
            ..given(machine.record)
        },
        mem: machine.mem.clone(),
        table: machine.table.clone(),
    };
    let image = machine.save_as(rng.pick(&[Kind::One, Kind::Two])).ok()?;
    Some([preface, image].concat())
}

fn random_preface(rng: &mut Rng) -> Vec<u8> {
    let len = rng.pick(&[0, 0, 1, 3, 70, 300]);
    match rng.below(3) {
        0 => rng.bytes(len),
        1 => "Exercise \"1\";\n\\ of \u{DC}bung\n\n".as_bytes()[..len.min(26)].to_vec(),
        _ => (0..len)
            .map(|_| rng.pick(b"ab \n\"\\#;\x00\xC3\xBC"))
            .collect(),
    }
}

fn random_machine(rng: &mut Rng) -> state::Machine {
    let mut machine = match rng.below(5) {
        0 => valid(rng),
        1 => noise(rng),
        2 => structured::running(rng, 50),
        3 => {
            let times = rng.chance(1, 2).then_some(3);
            structured::program(rng, times)
        }
        _ => {
            let way = rng.pick(&WAYS);
            for_run(rng, way)
        }
    };
    if rng.chance(1, 2) {
        damage(rng, &mut machine);
    }
    machine
}

#[test]
fn generated_images() {
    let mut rng = Rng::new(71);
    let mut cover = Cover::default();
    for _ in 0..rounds(20_000) {
        let machine = random_machine(&mut rng);
        match file_of(&mut rng, &machine) {
            Some(file) => there_and_back(&file, &mut cover),
            None => cover.count("refused by save"),
        }
    }
    cover.summary("generated images");
    cover.demand(&SEEN);
}

#[test]
fn damaged_files() {
    let mut rng = Rng::new(72);
    let mut cover = Cover::default();
    for _ in 0..rounds(20_000) {
        let machine = structured::running(&mut rng, 20);
        let mut file = file_of(&mut rng, &machine).expect("its sizes fit");
        for _ in 0..rng.between(1, 4) {
            let place = rng.index(file.len());
            file[place] ^= 1 << rng.below(8);
        }
        if rng.chance(1, 8) {
            file.drain(..rng.index(file.len()));
        }
        match Machine::load(&file) {
            Ok(_) => there_and_back(&file, &mut cover),
            Err(refusal) => {
                assert_eq!(disassemble(&file), Err(refusal));
                cover.count(&format!("refusal {refusal}"));
            }
        }
    }
    cover.summary("damaged files");
    cover.demand(&SEEN[..5]);
    cover.demand(&SEEN[8..13]);
    cover.demand(&[
        "refusal 1",
        "refusal 2",
        "refusal 3",
        "refusal 4",
        "refusal 5",
    ]);
}

/// The longest sources are still read by the assembler.
#[test]
fn biggest_images() {
    let mut rng = Rng::new(73);
    let mut cover = Cover::default();
    let mut longest = 0;
    for (k, m, n) in [
        (1, 1, 0),
        (1, MAX_WORDS, MAX_NODES),
        (MAX_WORDS, MAX_WORDS, MAX_NODES),
    ] {
        for word in [0, 0x0500_8000, 0x2357_8500, u32::MAX] {
            let mem = vec![word; m];
            let table = vec![u32::MAX; NODE_WORDS * n];
            let mut machine = Machine::new(k as u32, mem, table);
            machine.record.regs = [u32::MAX; 16];
            machine.record.position = i64::MIN;
            let image = machine.save().expect("its sizes fit");
            let room = MAX_FILE - image.len();
            for preface in [rng.bytes(room), vec![b'\n'; room], vec![b'a'; room]] {
                let file = [&preface[..], &image].concat();
                there_and_back(&file, &mut cover);
                longest = longest.max(disassemble(&file).expect("it loads").len());
            }
        }
    }
    cover.summary("biggest images");
    println!("longest source: {longest} bytes");
    cover.demand(&["image", "preface"]);
    assert!(longest < files::MAX_SOURCE);
}
