//! Tables made for the examples and for small programs: what they hold, that they can be turned over,
//! and what is refused.

#[path = "support/examples.rs"]
mod examples;

use crank::calls::{self, Made};
use crank::{Direction, Machine, Record, MAKE_LIMIT, MAX_NODES, NODE_WORDS};
use examples::examples;

/// The words that hold a made table.
const TABLE: usize = NODE_WORDS * MAX_NODES;
/// The words of scratch for a memory word.
const SCRATCH: usize = 16;
/// What lent words hold before the call.
const NOISE: u32 = 0xA5A5_A5A5;
/// Lent beyond what is asked for.
const EXCESS: usize = 10;

const START: u32 = 0x1A00_0000;
const FINISH: u32 = 0x1B00_0000;
const NEG_R2: u32 = 0x1650_0000;
const QIF_R1: u32 = 0x1840_0000;
const FIQ_R1: u32 = 0x1940_0000;
const FIQ_R2: u32 = 0x1950_0000;
const UNI_R2: u32 = 0x2050_0100;
const XORI_R1_1: u32 = 0x0240_0001;
const XORI_R2_7: u32 = 0x0250_0007;
/// Over two words where r1 is 0, and the landing of that.
const BEZ_R1_3: u32 = 0x0640_0003;
const LD_R2_9: u32 = 0x0150_0009;

/// With coin 0 the branch has three cycles, with coin 1 five; behind them r2 and a data word are
/// exchanged.
const CODE: [u32; 9] = [
    START, QIF_R1, BEZ_R1_3, NEG_R2, NEG_R2, BEZ_R1_3, FIQ_R1, LD_R2_9, FINISH,
];
/// start, qif, the longer branch with its fiq, ld.
const CYCLES: u32 = 8;
/// The same with both branches.
const WALKED: u32 = 11;
const NODES: [[u32; NODE_WORDS]; 4] = [
    [2, 3, 2, 3, 0, 0, 4, 0, 0],
    [0, 0, 0, 0, 1, 1, 0, 0, 2],
    [0, 0, 0, 0, 1, 1, 0, 0, 0],
    [0, 0, 0, 0, 0, 0, 0, 1, 0],
];

/// Places, and the words that are put there.
type Changes = [(usize, u32)];

/// The program above, with other words in some places.
fn program(changes: &Changes) -> Machine {
    let mut code = CODE.to_vec();
    for (place, word) in changes {
        code[*place] = *word;
    }
    code.push(7);
    Machine::new(CODE.len() as u32, code, Vec::new())
}

/// The machine without its table.
fn bare(machine: &Machine) -> Machine {
    let mut bare = machine.clone();
    bare.table.clear();
    bare.record.n = 0;
    bare.record.qifv = 0;
    bare
}

/// A run over the made table has as many turns as it should, and leads back.
#[test]
fn tables_of_the_examples() {
    let (mut nodes, mut turns) = (0, 0);
    for (name, _, drawn) in examples() {
        let mut machine = bare(&drawn);
        let cycles = machine.make_table(MAKE_LIMIT).expect(&name);
        // Every example but those without a qif has its table, made or drawn as one would be made.
        match drawn.record.n {
            0 => assert_eq!((machine.record.n, machine.table.len()), (1, 9), "{name}"),
            _ => assert_eq!(machine, drawn, "{name}"),
        }
        assert_eq!(machine.record.qifv, 1, "{name}");
        let begun = machine.clone();
        let made = machine.turns(Direction::Forward, u64::MAX);
        assert_eq!((made.turns, made.refusal), (cycles.into(), 12), "{name}");
        machine.turns(Direction::Back, cycles.into());
        assert_eq!(machine, begun, "{name}");
        nodes += begun.record.n;
        turns += made.turns;
    }
    println!("make: tables of the examples, {nodes} nodes, {turns} turns over them");
    assert!(nodes > 30 && turns > 700);
}

#[test]
fn every_word() {
    for limit in [WALKED, WALKED + 1, MAKE_LIMIT, u32::MAX] {
        let mut machine = program(&[]);
        machine.record.position = i64::MAX;
        machine.record.regs[4] = 5;
        machine.record.qifv = 77;
        let given = machine.clone();
        assert_eq!(machine.make_table(limit), Ok(CYCLES), "{limit}");
        let record = Record {
            n: 4,
            qifv: 1,
            ..given.record
        };
        assert_eq!((machine.record, &machine.mem), (record, &given.mem));
        assert_eq!(machine.table, NODES.concat());
    }
    // uni is idle, so that both branches leave r2 as it is.
    let mut machine = program(&[(3, UNI_R2)]);
    assert_eq!(machine.make_table(WALKED), Ok(CYCLES));
    assert_eq!(machine.table, NODES.concat());
}

#[test]
fn refused() {
    let programs: &[(u32, &Changes)] = &[
        (11, &[(8, NEG_R2)]),
        (12, &[(3, FINISH)]),
        (13, &[(3, 0)]),
        (15, &[(7, LD_R2_9 + 1)]),
        (17, &[(1, NEG_R2)]),
        // bra -3, to start.
        (18, &[(3, 0x0500_FFFD)]),
        (22, &[(0, NEG_R2)]),
        (24, &[(6, FIQ_R2)]),
        // The coin is lost.
        (24, &[(2, NEG_R2), (3, XORI_R1_1)]),
        // With coin 1 alone r2 changes, and then a data word.
        (24, &[(3, XORI_R2_7)]),
        (24, &[(3, LD_R2_9), (4, XORI_R2_7)]),
    ];
    for (refusal, changes) in programs {
        let mut machine = program(changes);
        let given = machine.clone();
        assert_eq!(
            machine.make_table(MAKE_LIMIT),
            Err(*refusal),
            "{changes:x?}"
        );
        assert_eq!(machine, given, "{changes:x?}");
    }
    for limit in 0..WALKED {
        assert_eq!(program(&[]).make_table(limit), Err(23), "{limit}");
    }
    println!("make: {} programs refused", programs.len());
}

type Spoil = fn(&mut Machine);

/// States that are not as they should be; 10 comes first.
#[test]
fn states_that_do_not_fit() {
    let spoils: &[(u32, Spoil)] = &[
        (10, |m| m.record.k = 0),
        (10, |m| m.record.m += 1),
        (10, |m| m.record.n = 1),
        (10, |m| m.mem.clear()),
        (22, |m| m.record.qifw = 1),
        (22, |m| m.record.regs[0] = 1),
        (22, |m| m.record.regs[0] = m.record.k),
        (22, |m| m.record.regs[0] = u32::MAX),
        (22, |m| {
            m.record.n = 1;
            m.table = vec![0; NODE_WORDS];
        }),
    ];
    for (refusal, spoil) in spoils {
        let mut machine = program(&[]);
        spoil(&mut machine);
        let given = machine.clone();
        assert_eq!(machine.make_table(MAKE_LIMIT), Err(*refusal), "{given:?}");
        assert_eq!(machine, given);
    }
    let mut machine = program(&[]);
    machine.make_table(MAKE_LIMIT).expect("a table");
    assert_eq!(machine.make_table(MAKE_LIMIT), Err(22));
    println!("make: {} states refused", spoils.len());
}

/// The call with so much lent, all of it noise; gives the answer and what the lent words hold then.
fn lent(machine: &Machine, table: usize, scratch: usize) -> (Made, Vec<u32>, Vec<u32>) {
    let mut mem = [machine.mem.as_slice(), &[NOISE; EXCESS]].concat();
    let [mut table, mut scratch] = [table, scratch].map(|length| vec![NOISE; length]);
    let given = mem.clone();
    let made = calls::make_table(
        machine.record,
        MAKE_LIMIT,
        &mut mem,
        &mut table,
        &mut scratch,
    );
    assert_eq!(mem, given);
    (made, table, scratch)
}

/// What is lent beyond the table and the scratch stays as it is, and all does where nothing is
/// written.
#[test]
fn lent_words() {
    let machine = program(&[]);
    let needed = SCRATCH * machine.mem.len();
    let is_noise = |words: &[u32]| words.iter().all(|word| *word == NOISE);
    let spoilt = program(&[(6, FIQ_R2)]);
    for (machine, refusal, nodes) in [(&machine, 0, NODES.concat()), (&spoilt, 24, Vec::new())] {
        let (made, table, scratch) = lent(machine, TABLE + EXCESS, needed + EXCESS);
        assert_eq!(made.refusal, refusal);
        let zeros = vec![0; TABLE - nodes.len()];
        assert_eq!(table[..TABLE], [nodes, zeros].concat());
        assert!(is_noise(&table[TABLE..]) && is_noise(&scratch[needed..]));
        let refused = (made.cycles, made.state) == (0, machine.record);
        assert_eq!(refused, refusal != 0);
    }
    assert_eq!(lent(&machine, TABLE, needed).0.refusal, 0);
    for (table, scratch) in [(TABLE - 1, needed), (TABLE, needed - 1), (0, 0)] {
        let (made, table, scratch) = lent(&machine, table, scratch);
        assert_eq!(
            (made.refusal, made.cycles, made.state),
            (22, 0, machine.record)
        );
        assert!(is_noise(&table) && is_noise(&scratch));
    }
}
