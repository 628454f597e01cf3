//! What is refused, word for word.

use crank_assembler::assemble;

/// The message on line 2, behind a line that is in order.
fn refused(table: &[(&str, &str)]) {
    for (line, message) in table {
        let error = assemble(&format!("start\n{line}\n")).expect_err(line);
        assert_eq!(error.message, *message, "{line}");
        assert_eq!(error.line, 2, "{line}");
    }
    println!("messages: {}", table.len());
}

/// Operands that the instruction set does not allow.
const NO_INSTRUCTIONS: &[(&str, &str)] = &[
    ("add r1, r1", "r1 is named twice; registers must differ"),
    (
        "arib +, r1, pc, pc",
        "pc is named twice; registers must differ",
    ),
    ("xor r1, br", "br is never named in an instruction"),
    ("swbr pc", "pc cannot stand in this place"),
    ("swap r1, pc", "pc cannot stand in this place"),
    ("unib cnot, r1, pc", "pc cannot stand in this place"),
    ("addi pc, 1", "pc cannot stand in this place"),
    ("xori r1, 65536", "65536 is out of range: 0 to 65535"),
    ("xori r1, -1", "-1 is out of range: 0 to 65535"),
    ("bra 32768", "32768 is out of range: -32768 to 32767"),
    ("bra -32769", "-32769 is out of range: -32768 to 32767"),
    ("arib 6, r1, r2, r3", "6 is out of range: 1 to 5"),
    ("uni 0, r1", "0 is out of range: 1 to 1"),
    ("uni h, r1", "\"h\" is none of x"),
    (
        "arib sub, r1, r2, r3",
        "\"sub\" is none of add, mul, div, eq, lt",
    ),
    ("add r1, r13", "\"r13\" is not a register"),
    ("add r1, 5", "\"5\" is not a register"),
    ("bra here", "there is no label \"here\""),
    ("bra from here", "there is no label \"here\""),
    ("ld r1, [3]", "\"[3]\" is not a number"),
];

#[test]
fn what_is_no_instruction() {
    refused(NO_INSTRUCTIONS);
}

/// What is written from habit, or left out.
const SLIPS: &[(&str, &str)] = &[
    (
        "bra from",
        "from takes the label of the jump that lands here",
    ),
    (
        "bez r1, FROM",
        "from takes the label of the jump that lands here",
    ),
    (
        "# a comment",
        "# has no meaning here; a comment begins with ;",
    ),
    (
        "xori r1, #5",
        "# has no meaning here; a comment begins with ;",
    ),
    (
        "xori r1, 5 // five",
        "// has no meaning here; a comment begins with ;",
    ),
    (
        "mul r1, r2",
        "unknown instruction \"mul\"; it is written with arib",
    ),
    ("jmp r1", "unknown instruction \"jmp\""),
    ("(start)", "unknown instruction \"(start)\""),
    (
        "loop",
        "unknown instruction \"loop\"; a label ends with a colon",
    ),
    (
        "loop bra 2",
        "unknown instruction \"loop\"; a label ends with a colon",
    ),
    (
        "tab .word 2",
        "unknown instruction \"tab\"; a label ends with a colon",
    ),
    (
        "add r1",
        "add takes 2 operands (register, register or pc), here is 1",
    ),
    ("finish r1", "finish takes no operand, here is 1"),
    ("qif", "qif takes 1 operand (register), here is none"),
    (
        "neg r1, r2, r3",
        "neg takes 1 operand (register), here are 3",
    ),
    (
        "ld r1 3",
        "ld takes 2 operands (register, value), here is 1; commas stand between operands",
    ),
    (
        "unib cnot r1, r2",
        "unib takes 3 operands (cnot|swap, register, register), here are 2; commas stand between operands",
    ),
    ("add (r1, r2", "a parenthesis is missing"),
    ("add r1,", "an operand is missing beside a comma"),
    (
        "xori r1, r2",
        "r2 is a register; here a number or a label stands",
    ),
];

#[test]
fn what_a_newcomer_writes() {
    refused(SLIPS);
}

#[test]
fn names() {
    let rule = "a letter or _, then letters, digits, _ and .";
    refused(&[
        ("r1: finish", "r1 is a register and cannot be a name"),
        ("R1: finish", "R1 is a register and cannot be a name"),
        ("from: finish", "from marks a landing and cannot be a name"),
        ("1a: finish", &format!("\"1a\" is not a name: {rule}")),
        ("a-b: finish", &format!("\"a-b\" is not a name: {rule}")),
        (".node a-b", &format!("\"a-b\" is not a name: {rule}")),
        (".node pc", "pc is a register and cannot be a name"),
        ("a: a: finish", "the label a is defined twice"),
        (
            &format!("{}!: finish", "a".repeat(50)),
            &format!("\"{}...\" is not a name: {rule}", "a".repeat(40)),
        ),
    ]);
}

/// Directives but for `.node`.
const DIRECTIVES: &[(&str, &str)] = &[
    (".stop", "unknown directive \".stop\""),
    (".data 5", ".data takes no operand"),
    (".word", ".word takes at least one value"),
    (
        ".word 4294967296",
        "\"4294967296\" is out of range: a word has 32 bits",
    ),
    (
        ".word -2147483649",
        "-2147483649 is out of range: -2147483648 to 4294967295",
    ),
    (".word 0x", "\"0x\" is not a number"),
    (".word +5", "\"+5\" is not a number"),
    (".space", ".space takes a number of words"),
    (".space 0", ".space takes 1 to 8192 words, not 0"),
    (".space 8192", "more than 8192 memory words"),
    (".reg", ".reg takes a register and a value, as in .reg r1 5"),
    (
        ".reg r1",
        ".reg takes a register and a value, as in .reg r1 5",
    ),
    (
        ".reg r1,",
        ".reg takes a register and a value, as in .reg r1 5",
    ),
    (
        ".reg r1=5",
        ".reg takes a register and a value, as in .reg r1 5",
    ),
    (
        ".reg r1 = 5",
        ".reg takes a register and a value, as in .reg r1 5",
    ),
    (".reg r13 5", "\"r13\" is not a register"),
    (".qifv", ".qifv takes a node, by name or number"),
    (".qifv a", "there is no node \"a\""),
    (".qifv -1", "-1 is out of range: 0 to 4294967295"),
    (".qifw", ".qifw takes a number"),
    (".qifw -1", "-1 is out of range: 0 to 4294967295"),
    (
        ".table",
        ".table takes make, then a limit of cycles or nothing",
    ),
    (
        ".table draw",
        ".table takes make, then a limit of cycles or nothing",
    ),
    (
        ".table 100",
        ".table takes make, then a limit of cycles or nothing",
    ),
    (
        ".table make,",
        ".table takes make, then a limit of cycles or nothing",
    ),
    (".table make all", "\"all\" is not a number"),
    (".table make -1", "-1 is out of range: 0 to 4294967295"),
    (
        ".table make 4294967296",
        "\"4294967296\" is out of range: a word has 32 bits",
    ),
    (".position", ".position takes a number"),
    (".position start", "\"start\" is not a number"),
    (".position -", "\"-\" is not a number"),
    (".position +1", "\"+1\" is not a number"),
    (".position 0x", "\"0x\" is not a number"),
    (
        ".position 9223372036854775808",
        "\"9223372036854775808\" is out of range: \
         -9223372036854775808 to 9223372036854775807",
    ),
    (
        ".position -9223372036854775809",
        "\"-9223372036854775809\" is out of range: \
         -9223372036854775808 to 9223372036854775807",
    ),
    (
        ".position 0x8000000000000000",
        "\"0x8000000000000000\" is out of range: \
         -9223372036854775808 to 9223372036854775807",
    ),
    (
        ".preface hello",
        "the preface text stands between two quotation marks \"",
    ),
    (".preface \"a", "a quotation mark is missing"),
    (
        ".preface \"a\"b\"\"",
        "a quotation mark in the text is written \\\"",
    ),
    (
        ".preface \"\\t\"",
        "after \\ only n, \\, \" or x with two digits may stand",
    ),
    (
        ".preface \"\\x4\"",
        "after \\x two hexadecimal digits stand",
    ),
];

#[test]
fn directives() {
    refused(DIRECTIVES);
}

/// Nodes and their fields.
const NODES: &[(&str, &str)] = &[
    (".node", ".node takes a name, then fields such as nx=2"),
    (".node a,", "an operand is missing beside a comma"),
    (".node 2 w=1", "this is node 1, but it is written as 2"),
    (".node a up=1", "a node has no field \"up\""),
    (".node a nx=b", "there is no node \"b\""),
    (".node a w=1 w=1", "the field w is written twice"),
    (".node a w=-1", "-1 is out of range: 0 to 4294967295"),
    (".node a nx=-1", "-1 is out of range: 0 to 4294967295"),
    (
        ".node a w = 1",
        "\"w\" is not of the form field=value, without blanks",
    ),
    (
        ".node a nx=",
        "\"nx=\" is not of the form field=value, without blanks",
    ),
    (
        ".node a nx=1,, pr=1",
        "an operand is missing beside a comma",
    ),
];

#[test]
fn nodes() {
    refused(NODES);
}

#[test]
fn errors_over_several_lines() {
    let table = [
        ("", "line 1: there is no code word; K must be at least 1"),
        (
            ".data\n.word 1\n",
            "line 2: there is no code word; K must be at least 1",
        ),
        (
            ".data\nstart",
            "line 2: an instruction in the data section; write .code before it",
        ),
        (
            "start\n.data\na .word 6",
            "line 3: unknown instruction \"a\"; a label ends with a colon",
        ),
        ("start\n.reg r1 1\n.reg R1 2", "line 3: r1 is set twice"),
        ("start\n.qifw 1\n.qifw 1", "line 3: qifw is set twice"),
        (
            "start\n.position 0\n.Position 0",
            "line 3: position is set twice",
        ),
        (
            "start\n.node a\n.node a",
            "line 3: the node a is defined twice",
        ),
    ];
    for (source, message) in table {
        let error = assemble(source).expect_err(source);
        assert_eq!(error.to_string(), message, "{source}");
    }
    let many: String = (1..=512).map(|node| format!(".node {node}\n")).collect();
    let error = assemble(&format!("start\n{many}")).unwrap_err();
    assert_eq!(error.to_string(), "line 513: more than 511 nodes");
}
