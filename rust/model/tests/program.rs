//! The crank program's output, byte for byte, against the model's.

use std::env;
use std::io::Write;
use std::path::PathBuf;
use std::process::{Command, Stdio};

use crank_model::damage::damage;
use crank_model::generate::valid;
use crank_model::image::{Kind, KINDS, SAVED};
use crank_model::instruction::{word_i, word_o, FINISH, START};
use crank_model::machine::{forward_batch, sizes_fit, Record};
use crank_model::program::output;
use crank_model::rng::{rounds, Rng};
use crank_model::state::Machine;
use crank_model::structured;

/// The program to run; `None` only if asked to skip.
fn program() -> Option<PathBuf> {
    if env::var("CRANK_SKIP_PROGRAM").as_deref() == Ok("1") {
        println!("program: skipped");
        return None;
    }
    let path = env::var_os("CRANK_BIN").map_or_else(
        || PathBuf::from(env!("CARGO_MANIFEST_DIR")).join("../../crates/crank/out/crank"),
        PathBuf::from,
    );
    assert!(path.is_file(), "no program at {}", path.display());
    Some(path)
}

fn run(program: &PathBuf, input: &[u8]) -> Vec<u8> {
    let mut child = Command::new(program)
        .stdin(Stdio::piped())
        .stdout(Stdio::piped())
        .spawn()
        .expect("the program starts");
    // The program may stop reading a file that is too long.
    let _ = child.stdin.take().expect("piped").write_all(input);
    let result = child.wait_with_output().expect("the program ends");
    assert!(result.status.code().is_some(), "ended by a signal");
    result.stdout
}

fn compare(program: &PathBuf, input: &[u8]) -> String {
    let expected = output(input);
    let found = run(program, input);
    assert_eq!(
        String::from_utf8_lossy(&found),
        expected,
        "input of {} bytes",
        input.len()
    );
    expected
}

fn image_of(kind: Kind, m: &Machine, preface: &[u8]) -> Vec<u8> {
    [preface, &kind.image(&m.record, &m.mem, &m.table)].concat()
}

fn random_machine(rng: &mut Rng) -> Machine {
    match rng.below(3) {
        0 => valid(rng),
        1 => structured::program(rng, None),
        _ => {
            let rounds = rng.between(1, 40);
            structured::program(rng, Some(rounds))
        }
    }
}

#[test]
fn generated_images() {
    let Some(program) = program() else { return };
    let mut rng = Rng::new(81);
    let (mut finished, mut refused) = (0, 0);
    for _ in 0..rounds(250) {
        let mut machine = random_machine(&mut rng);
        if rng.chance(1, 5) {
            damage(&mut rng, &mut machine);
        }
        if !sizes_fit(&machine.record, &machine.mem, &machine.table) {
            continue;
        }
        let preface_len = rng.pick(&[0, 0, 7, 100]);
        let preface = rng.bytes(preface_len);
        let text = compare(&program, &image_of(rng.pick(&KINDS), &machine, &preface));
        let line = text.lines().next().unwrap_or("");
        finished += u32::from(line.ends_with("refusal 12"));
        refused += u32::from(!line.ends_with("refusal 12"));
    }
    println!("program: {finished} ended at finish, {refused} otherwise");
    assert!(finished > 0 && refused > 0);
}

#[test]
fn refused_loads() {
    let Some(program) = program() else { return };
    let mut rng = Rng::new(82);
    let mut seen = [0; 7];
    for _ in 0..rounds(120) {
        let kind = rng.pick(&KINDS);
        let mut file = image_of(kind, &random_machine(&mut rng), &[]);
        let len = file.len();
        let trailer = len - kind.trailer();
        match rng.below(6) {
            0 => file.truncate(rng.index(92)),
            1 => file[len - 1] ^= 4 << rng.below(6),
            2 => file[trailer + 4 * rng.between(1, 3) as usize + 3] = 1,
            3 => file[trailer] ^= 1,
            4 => {
                file.drain(..len.saturating_sub(rng.between(92, 99) as usize));
            }
            _ => {
                file.drain(..1 + rng.index(trailer));
            }
        }
        let text = compare(&program, &file);
        for (number, times) in seen.iter_mut().enumerate() {
            *times += u32::from(text == format!("refusal {number}\n"));
        }
    }
    println!("program: refused loads by number {seen:?}");
    assert!((1..=5).all(|number| seen[number] > 0));
}

#[test]
fn file_lengths() {
    let Some(program) = program() else { return };
    let mut rng = Rng::new(83);
    let machine = structured::program(&mut rng, None);
    compare(&program, &[]);
    for image in KINDS.map(|kind| image_of(kind, &machine, &[])) {
        for length in [65_535, 65_536, 65_537, 100_000, 300_000] {
            let preface = rng.bytes(length - image.len());
            let text = compare(&program, &[&preface[..], &image].concat());
            assert_eq!(text == "refusal 1\n", length > 65_536);
        }
    }
}

/// Three lines, the same for both kinds and wherever the position is, unless it
/// comes to its end.
#[test]
fn positions() {
    let Some(program) = program() else { return };
    let mut rng = Rng::new(85);
    for _ in 0..rounds(10) {
        let rounds = rng.between(1, 40);
        let mut machine = structured::program(&mut rng, Some(rounds));
        let old = compare(&program, &image_of(KINDS[0], &machine, &[]));
        let turns = machine.clone().batch(u32::MAX, forward_batch).turns;
        assert!(old.starts_with(&format!("turns {turns} refusal 12\n")));
        assert_eq!(old.lines().count(), 3);
        let far = i64::MAX - i64::from(turns);
        for position in [0, 1, -1, i64::MIN, far - 1] {
            machine.record.position = position;
            let new = compare(&program, &image_of(SAVED, &machine, &[]));
            assert_eq!(new, old, "at {position}");
        }
        for less in [0, 1, turns] {
            machine.record.position = far + i64::from(less);
            let text = compare(&program, &image_of(SAVED, &machine, &[]));
            let line = format!("turns {} refusal 21\n", turns - less);
            assert!(text.starts_with(&line), "{text}");
            assert_eq!(text.lines().count(), 3);
        }
    }
}

/// start; xori r2,5; fetr r1,r2; xori r2,5; finish; and the constant at 5, which
/// is the last code word and no instruction. There is no data.
#[test]
fn constant_in_code() {
    let Some(program) = program() else { return };
    let mem = vec![
        0x1A00_0000,
        0x0250_0005,
        0x1145_0000,
        0x0250_0005,
        0x1B00_0000,
        0xFFFF_FFFE,
    ];
    let record = Record {
        k: 6,
        m: 6,
        ..Record::default()
    };
    let mut machine = Machine {
        record,
        mem,
        table: Vec::new(),
    };
    let done = "turns 4 refusal 12\n4 0 0 0 4294967294 0 0 0 0 0 0 0 0 0 0 0\nnode 0 wait 0\n";
    let refused = "turns 2 refusal 15\n2 0 0 0 0 6 0 0 0 0 0 0 0 0 0 0\nnode 0 wait 0\n";
    // At K-1, and then at M.
    for (r2, text) in [(0, done), (3, refused)] {
        machine.record.regs[5] = r2;
        for kind in KINDS {
            assert_eq!(compare(&program, &image_of(kind, &machine, &[])), text);
        }
    }
}

/// start; bnz r4,-4; subi r1,300; addi r4,1; arib less r3,r1,r2; bez r3,-4; finish:
/// r1 falls until it is below r2, and r4 counts the rounds.
#[test]
fn length_below_zero() {
    let Some(program) = program() else { return };
    let mem = vec![
        0x1A00_0000,
        0x0770_FFFC,
        0x0440_012C,
        0x0370_0001,
        0x2364_5500,
        0x0660_FFFC,
        0x1B00_0000,
    ];
    let record = Record {
        k: 7,
        m: 7,
        ..Record::default()
    };
    let mut machine = Machine {
        record,
        mem,
        table: Vec::new(),
    };
    machine.record.regs[4] = 1_000;
    // To 0 it ends at -200, and to -500 at -800.
    for (r2, turns, r1, r4) in [
        (0, 21, 4_294_967_096u32, 4),
        (4_294_966_796, 31, 4_294_966_496, 6),
    ] {
        machine.record.regs[5] = r2;
        let registers = format!("6 0 0 0 {r1} {r2} 1 {r4} 0 0 0 0 0 0 0 0");
        let text = format!("turns {turns} refusal 12\n{registers}\nnode 0 wait 0\n");
        for kind in KINDS {
            assert_eq!(compare(&program, &image_of(kind, &machine, &[])), text);
        }
    }
}

/// `pad` words, a loop of `rounds` with 4 turns each, and finish.
fn counted_loop(rounds: u32, pad: usize) -> Machine {
    let mut mem = vec![START];
    mem.extend(vec![word_i(3, 9, 1); pad]);
    let offset = 3u32.wrapping_neg();
    mem.extend([word_i(7, 4, offset), word_i(3, 4, 1)]);
    mem.extend([word_o(35, 4, 6, 4, 5), word_i(6, 6, offset), FINISH]);
    let mut record = Record {
        k: mem.len() as u32,
        m: mem.len() as u32,
        ..Record::default()
    };
    record.regs[5] = rounds;
    Machine {
        record,
        mem,
        table: Vec::new(),
    }
}

/// Runs that end just before, at and after 1,000,000 turns.
#[test]
fn long_runs() {
    let Some(program) = program() else { return };
    // start and 4 turns in each round
    for (pad, line) in [
        (2, "turns 999999 refusal 12"),
        (3, "turns 1000000 refusal 0"),
        (4, "turns 1000000 refusal 0"),
    ] {
        let machine = counted_loop(249_999, pad);
        for kind in KINDS {
            let text = compare(&program, &image_of(kind, &machine, &[]));
            assert_eq!(text.lines().next(), Some(line));
        }
    }
    let mut rng = Rng::new(84);
    for _ in 0..2 {
        let machine = structured::program(&mut rng, Some(1_000_000));
        compare(&program, &image_of(SAVED, &machine, &[]));
    }
}
