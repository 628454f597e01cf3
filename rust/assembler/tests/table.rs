//! `.table make`: the image is that of the same nodes written by hand, and what is refused is said at
//! its line.

use crank::{Machine, Record, NODE_WORDS};
use crank_assembler::{assemble, disassemble};

/// Two qifs one after the other, the second with another in its branch of coin 1; `.data` and a
/// position beside them.
const CODE: &str = "\
        .preface \"two and one\\n\"
        start
        qif  r1
a0:     bez  r1, a1
        uni  x, r4
        uni  x, r5
a1:     bez  r1, from a0
        fiq  r1
        ld   r6, d
        qif  r2
b0:     bez  r2, b1
        qif  r3
c0:     bnz  r3, c1
        unib cnot, r3, r4
c1:     bnz  r3, from c0
        fiq  r3
b1:     bez  r2, from b0
        fiq  r2
        finish
        .data
d:      .word 77
        .reg r1 1
        .position -3
";

/// Numbered as they are made: the children of a qif, then what its branches have, then its next.
const NODES: &str = "\
        .qifv root
        .node root  fc0=a0 fc1=a1 lc0=a0 lc1=a1 nx=next
        .node a0    cf=root cl=root w=2
        .node a1    cf=root cl=root
        .node next  pr=root fc0=b0 fc1=b1 lc0=b0 lc1=inner nx=last
        .node b0    cf=next cl=next w=5
        .node b1    cf=next fc0=c0 fc1=c1 lc0=c0 lc1=c1 nx=inner
        .node c0    cf=b1 cl=b1
        .node c1    cf=b1 cl=b1 w=1
        .node inner pr=b1 cl=next
        .node last  pr=next
";

/// start, a qif and its longer branch, ld, a qif and its longer branch with a qif in it.
const CYCLES: u64 = 1 + (1 + 5) + 1 + (1 + 8);
/// The same with all branches; of the second qif 3 words, and 3 beside the inner one with its 4 and 3.
const WALKED: u32 = 1 + (1 + 3 + 5) + 1 + (1 + 3 + 3 + 1 + 4 + 3);

fn image(source: &str) -> Vec<u8> {
    let assembled = assemble(source).unwrap_or_else(|e| panic!("{e}\n{source}"));
    assert_eq!(assembled.warnings, [], "{source}");
    assembled.image
}

fn refused(source: &str) -> String {
    assemble(source).expect_err(source).to_string()
}

#[test]
fn as_written_by_hand() {
    let written = image(&format!("{CODE}{NODES}"));
    for line in [
        ".table make".to_string(),
        ".TABLE Make".to_string(),
        ".table make 0xFFFFFFFF ; far".to_string(),
        format!(".table make {WALKED}"),
        // It says what is so anyway.
        ".table make\n.qifv 1".to_string(),
        ".qifv 1\n.table make".to_string(),
    ] {
        assert!(image(&format!("{CODE}{line}\n")) == written, "{line}");
        assert!(image(&format!("{line}\n{CODE}")) == written, "{line}");
    }
    // Nothing tells how it was written.
    let source = disassemble(&written).expect("it loads");
    assert!(source.contains(".node 10 pr=4\n") && !source.contains(".table"));
    assert!(image(&source) == written);
}

#[test]
fn every_choice_of_coins() {
    for coins in 0..8 {
        let values = [1, 2, 3].map(|r| format!(".reg r{r} {}\n", coins >> (r - 1) & 1));
        let code = CODE.replace("        .reg r1 1\n", "");
        let source = format!("{code}{}.table make\n", values.concat());
        let mut machine = Machine::load(&image(&source)).expect("an image");
        assert_eq!((machine.record.n, machine.record.qifv), (10, 1));
        let made = machine.turns(crank::Direction::Forward, 1000);
        assert_eq!((made.turns, made.refusal), (CYCLES, 12), "{coins}");
        assert_eq!(machine.record.qifv, 10, "{coins}");
    }
}

/// A code without a qif has one node.
#[test]
fn no_qif() {
    let machine = Machine::load(&image("start\nfinish\n.table make")).expect("an image");
    let record = Record {
        k: 2,
        m: 2,
        n: 1,
        qifv: 1,
        ..Record::default()
    };
    assert_eq!(
        (machine.record, machine.table),
        (record, vec![0; NODE_WORDS])
    );
    let made = assemble("start\nfinish\n.table make").expect("a table");
    assert_eq!(made.nodes, [None]);
}

/// Qifs one after the other.
fn wide(qifs: usize) -> String {
    let code = "qif r1\nfiq r1\n".repeat(qifs);
    format!("start\n{code}finish\n.table make")
}

/// Each qif in the branch of coin 1 of the one before.
fn deep(qifs: usize) -> String {
    let within = |inner, r| {
        format!("qif r{r}\nl{r}: bez r{r}, m{r}\n{inner}m{r}: bez r{r}, from l{r}\nfiq r{r}\n")
    };
    let code = (1..=qifs).rev().fold(String::new(), within);
    format!("start\n{code}finish\n.table make")
}

/// As many nodes as there may be, and as deep.
#[test]
fn at_the_limits() {
    for (source, n) in [(wide(170), 511), (deep(8), 25)] {
        let machine = Machine::load(&image(&source)).expect("an image");
        assert_eq!((machine.record.n, machine.check().refusal), (n, 0));
    }
}

/// A loop without end, whose landing is told by r2 from the way in.
const ENDLESS: &str = "start\nl: bnz r2, from j\naddi r2, 1\nj: bra l\nfinish\n";

#[test]
fn refusals() {
    let table = [
        ("start\n.table make", 2, "11: pc is not at a code word"),
        (
            "start\nqif r1\nfinish\n.table make",
            4,
            "12: a branch reaches finish",
        ),
        (
            ".table make\nstart\n.word 7",
            1,
            "13: the word at pc is no instruction",
        ),
        (
            "start\nldr r1, pc\n.table make",
            3,
            "15: the address is not in K to M-1 (ld, ldr) or not below M (fetr)",
        ),
        (
            "start\nfiq r1\nfinish\n.table make",
            4,
            "17: a fiq stands in no branch",
        ),
        (
            "start\nbra -1\n.table make",
            3,
            "18: the next word would be start",
        ),
    ];
    for (source, line, why) in table {
        let want = format!("line {line}: the table is refused by {why}");
        assert_eq!(refused(source), want, "{source}");
    }
}

#[test]
fn over_the_limits() {
    let over =
        "the table is refused by 23: over 511 nodes, 8 nested qifs or the limit of cycles would \
                be needed";
    let sources = [
        (deep(9), 39),
        (wide(171), 345),
        (format!("{ENDLESS}.table make"), 6),
        (format!("{ENDLESS}.table make 100"), 6),
        ("start\nfinish\n.table make 0".to_string(), 3),
        (
            format!("{CODE}.table make {}", WALKED - 1),
            CODE.lines().count() + 1,
        ),
    ];
    for (source, line) in sources {
        assert_eq!(refused(&source), format!("line {line}: {over}"), "{source}");
    }
}

/// The branches of a qif that do not meet.
#[test]
fn branches_apart() {
    for inside in [
        "fiq r2",
        "xori r1, 1\nfiq r1",
        "bez r1, 2\naddi r2, 1\nbez r1, 2\nfiq r1",
    ] {
        let source = format!(".table make\nstart\nqif r1\n{inside}\nfinish");
        let want =
            "line 1: the table is refused by 24: the branches of a qif do not meet: a fiq names \
                    another register, its coin is lost, or something else differs";
        assert_eq!(refused(&source), want, "{source}");
    }
}

/// A source has one table.
#[test]
fn two_tables() {
    let twice = "start\n.table make\n.Table MAKE 5";
    assert_eq!(refused(twice), "line 3: .table make is written twice");
    let want = "line 3: a source has .node lines or .table make, not both";
    for source in ["start\n.node a\n.table make", "start\n.table make\n.node a"] {
        assert_eq!(refused(source), want, "{source}");
    }
}

/// First values from which no table is made.
#[test]
fn first_values() {
    let want = "line 4: the table is refused by 22: pc is not at start, there are nodes or a wait \
                already, or the lent words are too few";
    for line in [".reg pc 1", ".reg pc 2", ".reg pc -1", ".qifw 1"] {
        let source = format!("start\nfinish\n{line}\n.table make\n");
        assert_eq!(refused(&source), want, "{line}");
    }
    // A start need not be the first word.
    image("finish\nstart\nbra -2\n.reg pc 1\n.reg r1 9\n.reg br 0\n.table make");
    let want = "line 3: a made table begins at node 1, so .qifv is 1 or left out";
    for node in ["0", "2", "4294967295"] {
        let source = format!("start\nfinish\n.qifv {node}\n.table make\n");
        assert_eq!(refused(&source), want, "{node}");
    }
    let source = "start\nfinish\n.qifv root\n.table make\n";
    assert_eq!(refused(source), "line 3: there is no node \"root\"");
}
