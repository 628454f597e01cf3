//! The words, table, registers and preface that a source stands for.

use crank::MAX_FILE;
use crank_assembler::{assemble, Assembled, Written};

fn assembled(source: &str) -> Assembled {
    assemble(source).expect(source)
}

/// The words of an image without preface.
fn words(image: &[u8]) -> Vec<u32> {
    image
        .chunks(4)
        .map(|bytes| u32::from_le_bytes(bytes.try_into().unwrap()))
        .collect()
}

fn first_word(source: &str) -> u32 {
    words(&assembled(source).image)[0]
}

#[test]
fn the_example_image() {
    let source = "start\nxori r1, 5\nfinish\n.data\n.word 0\n";
    let mut bytes = vec![0, 0, 0, 0x1A, 5, 0, 0x40, 2, 0, 0, 0, 0x1B, 0, 0, 0, 0];
    bytes.extend([108, 0, 0, 0, 4, 0, 0, 0, 3, 0, 0, 0, 0, 0, 0, 0]);
    bytes.extend([0; 72]);
    bytes.extend([0x51, 0x52, 0x4D, 0x31]);
    assert_eq!(bytes.len(), 108);
    assert_eq!(assembled(source).image, bytes);
}

#[test]
fn every_instruction_of_type_i_and_r() {
    let table = [
        ("ld r1, 3", 0x0140_0003),
        ("xori r1, 5", 0x0240_0005),
        ("addi sp, 1", 0x0330_0001),
        ("subi r12, 65535", 0x04F0_FFFF),
        ("bra -2", 0x0500_FFFE),
        ("bez r2, 6", 0x0650_0006),
        ("bnz ro, -32768", 0x0720_8000),
        ("ldr r2, sp", 0x1053_0000),
        ("fetr r4, r3", 0x1176_0000),
        ("swap r8, r2", 0x12B5_0000),
        ("xor r1, pc", 0x1340_0000),
        ("add r1, r2", 0x1445_0000),
        ("sub r2, pc", 0x1550_0000),
        ("neg ro", 0x1620_0000),
        ("swbr ro", 0x1720_0000),
        ("qif r4", 0x1870_0000),
        ("fiq r4", 0x1970_0000),
        ("start", 0x1A00_0000),
        ("finish", 0x1B00_0000),
    ];
    for (source, word) in table {
        assert_eq!(first_word(source), word, "{source}");
    }
}

#[test]
fn every_instruction_of_type_o() {
    let table = [
        ("uni x, r9", 0x20C0_0100),
        ("uni 1, r9", 0x20C0_0100),
        ("unib cnot, r1, r2", 0x2145_0100),
        ("unib swap, r1, r2", 0x2145_0200),
        ("ari neg, r1, r2", 0x2245_0100),
        ("ari -, r1, r2", 0x2245_0100),
        ("ari not, r1, pc", 0x2240_0200),
        ("ari ~, r1, pc", 0x2240_0200),
        ("arib add, r2, r4, r5", 0x2357_8100),
        ("arib +, r2, r4, r5", 0x2357_8100),
        ("arib mul, r2, r4, r5", 0x2357_8200),
        ("arib *, r2, r4, r5", 0x2357_8200),
        ("arib div, r2, r4, r5", 0x2357_8300),
        ("arib /, r2, r4, r5", 0x2357_8300),
        ("arib eq, r2, r4, r5", 0x2357_8400),
        ("arib =, r2, r4, r5", 0x2357_8400),
        ("arib lt, r2, r4, r5", 0x2357_8500),
        ("arib <, r2, r4, r5", 0x2357_8500),
        ("arib 5, r1, r2, pc", 0x2345_0500),
        ("arib 1, r12, pc, r11", 0x23F0_E100),
    ];
    for (source, word) in table {
        assert_eq!(first_word(source), word, "{source}");
    }
}

#[test]
fn the_form_of_document_003() {
    assert_eq!(first_word("  arib(+,r2,r4,r5) ; a sum"), 0x2357_8100);
    assert_eq!(first_word("START()"), 0x1A00_0000);
    assert_eq!(first_word("l0: bra( l0 )"), 0x0500_0000);
}

#[test]
fn marks_blanks_and_case() {
    let plain = assembled("start\nxori r1, 5\nbra from l0\nl0: finish\n.data\n.word 0x1F\n");
    let source =
        "\u{FEFF}START\r\n\tXORI\tR1,\t5\r\nBra From l0\r\nl0 : Finish\r\n.DATA\r\n.Word 0X1f";
    assert_eq!(assembled(source).image, plain.image);
}

#[test]
fn labels() {
    let source = "
        l0: bez r1, l2
        xori r2, 0x10
        l2: bra from l0
        bra l0
        ld r3, @n
        finish
        .data
        @n: .word &n
        &n: .word 7, -1, &n+1
        .code
        bra l2";
    let want = [
        0x0640_0002,
        0x0250_0010,
        0x0500_0002,
        0x0500_FFFD,
        0x0160_0007,
        0x1B00_0000,
        0x0500_FFFC,
        8,
        7,
        0xFFFF_FFFF,
        9,
    ];
    let found = assembled(source);
    assert_eq!(words(&found.image)[..11], want);
    let labels = [("l0", 0), ("l2", 2), ("@n", 7), ("&n", 8)];
    let labels = labels.map(|(name, address)| (name.to_string(), address));
    assert_eq!(found.labels, labels);
    let lines = [2, 3, 4, 5, 6, 7, 12, 9, 10, 10, 10];
    let written: Vec<Written> = want
        .into_iter()
        .zip(lines)
        .map(|(word, line)| Written { word, line })
        .collect();
    assert_eq!(found.words, written);
}

#[test]
fn words_beside_a_label() {
    let source = "l0: start\nbra l0 + 2\nbra from l0-1\nxori r1, l0+5";
    let want = [0x1A00_0000, 0x0500_0001, 0x0500_0003, 0x0240_0005];
    assert_eq!(words(&assembled(source).image)[..4], want);
}

#[test]
fn labels_by_address() {
    // Code comes before data; labels of one address stay in the order written.
    let source = ".data\nd: .word 1\n.code\na: start\nend: x: finish\n.data\nlast:";
    let labels = [("a", 0), ("end", 1), ("x", 1), ("d", 2), ("last", 3)];
    let labels = labels.map(|(name, address)| (name.to_string(), address));
    assert_eq!(assembled(source).labels, labels);
}

#[test]
fn table_registers_and_preface() {
    let source = r#"
        .preface "A;\n"
        main: start
        .reg r1, 1
        .reg pc main
        .qifv root
        .qifw 2
        .node root fc0=2 fc1=one nx=4
        .node 2 cf=root cl=root w=3
        .node one, CF=root, cl=root
        .node last pr=root w=0x10"#;
    let found = assembled(source);
    assert_eq!(&found.image[..3], b"A;\n");
    let words = words(&found.image[3..]);
    assert_eq!(words[1..10], [2, 3, 0, 0, 0, 0, 4, 0, 0]);
    assert_eq!(words[10..19], [0, 0, 0, 0, 1, 1, 0, 0, 3]);
    assert_eq!(words[19..28], [0, 0, 0, 0, 1, 1, 0, 0, 0]);
    assert_eq!(words[28..37], [0, 0, 0, 0, 0, 0, 0, 1, 16]);
    assert_eq!(words[37..41], [4 + 36 * 4 + 92, 1, 1, 4]);
    assert_eq!(words[41..47], [0, 0, 0, 0, 1, 0]);
    assert_eq!(words[57..60], [1, 2, 0x314D_5251]);
    assert_eq!(words.len(), 60);
    let names = [Some("root"), None, Some("one"), Some("last")];
    assert_eq!(found.nodes, names.map(|name| name.map(str::to_string)));
}

#[test]
fn extreme_values() {
    let source = "start\n.reg br -2147483648\n.reg r12 4294967295\n.qifv 4294967295\n\
                  .qifw 0xFFFFFFFF\n.node 1 fc0=4294967295 w=4294967295";
    let words = words(&assembled(source).image);
    assert_eq!(words[1..10], [u32::MAX, 0, 0, 0, 0, 0, 0, 0, u32::MAX]);
    assert_eq!(words[14..16], [0, 0x8000_0000]);
    assert_eq!(words[29..32], [u32::MAX; 3]);
}

/// The position stands before the last four bytes, low word first; a source without one has an image
/// of kind 1.
#[test]
fn positions() {
    let table = [
        ("0", [0, 0]),
        ("-0", [0, 0]),
        ("7", [7, 0]),
        ("-1", [u32::MAX; 2]),
        ("-0x10", [0xFFFF_FFF0, u32::MAX]),
        ("0X123456789aBCDEF0", [0x9ABC_DEF0, 0x1234_5678]),
        ("4294967296", [0, 1]),
        ("9223372036854775807", [u32::MAX, 0x7FFF_FFFF]),
        ("0x7fffffffffffffff", [u32::MAX, 0x7FFF_FFFF]),
        ("-9223372036854775808", [0, 0x8000_0000]),
        ("-0x8000000000000000", [0, 0x8000_0000]),
    ];
    let old = words(&assembled("start\n.qifw 3").image);
    assert_eq!((old[1], old[22..].to_vec()), (96, vec![3, 0x314D_5251]));
    for (number, [low, high]) in table {
        let new = words(&assembled(&format!(".POSITION\t{number}\nstart\n.qifw 3")).image);
        assert_eq!(new[22..], [3, low, high, 0x324D_5251], "{number}");
        assert_eq!((new[1], &new[2..22]), (104, &old[2..22]), "{number}");
        assert_eq!(new[0], old[0], "{number}");
    }
}

#[test]
fn bytes_of_a_preface() {
    let source = r#"start
        .preface "\x00\xfF\x0a\"\\;#ü"
        .preface "b""#;
    let want = b"\x00\xFF\n\"\\;#\xC3\xBCb";
    assert_eq!(&assembled(source).image[..want.len()], want);
}

#[test]
fn size_of_the_file() {
    for (length, more) in [(96, ""), (104, ".position 0")] {
        let text = "x".repeat(MAX_FILE - length);
        let image = assembled(&format!("start\n{more}\n.preface \"{text}\"")).image;
        assert_eq!(image.len(), MAX_FILE);
        let refused = assemble(&format!("start\n{more}\n.preface \"{text}y\"")).unwrap_err();
        let message = "line 3: the image would be longer than 65536 bytes";
        assert_eq!(refused.to_string(), message);
    }
}
