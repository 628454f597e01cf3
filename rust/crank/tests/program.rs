//! The program `crank`: what it prints on the examples, and its exit status.

use crank::Machine;
use std::fs::{self, File};
use std::io::Write;
use std::path::{Path, PathBuf};
use std::process::{Command, Output, Stdio};

const CRANK: &str = env!("CARGO_BIN_EXE_crank");

fn examples() -> PathBuf {
    Path::new(env!("CARGO_MANIFEST_DIR")).join("../../examples")
}

fn run(input: Stdio, output: Stdio, arguments: &[&str]) -> Output {
    Command::new(CRANK)
        .args(arguments)
        .stdin(input)
        .stdout(output)
        .stderr(Stdio::piped())
        .spawn()
        .and_then(|child| child.wait_with_output())
        .expect("the program runs")
}

fn open(path: &Path) -> Stdio {
    Stdio::from(File::open(path).expect("it can be read"))
}

/// What was printed, on which of the two, and the status.
fn said(output: &Output) -> (String, String, Option<i32>) {
    let text = |bytes: &[u8]| String::from_utf8_lossy(bytes).into_owned();
    (
        text(&output.stdout),
        text(&output.stderr),
        output.status.code(),
    )
}

#[test]
fn examples_end_with_0() {
    let mut count = 0;
    for entry in fs::read_dir(examples()).expect("the examples") {
        let image = entry.expect("an entry").path();
        if image.extension().is_none_or(|e| e != "img") {
            continue;
        }
        let expected = fs::read_to_string(image.with_extension("out")).expect("its output");
        let found = said(&run(open(&image), Stdio::piped(), &[]));
        assert_eq!(found, (expected, String::new(), Some(0)), "{image:?}");
        count += 1;
    }
    println!("crank: {count} examples");
    assert!(count > 0);
}

/// What is printed of these bytes, and the status.
fn of_bytes(bytes: &[u8]) -> (String, String, Option<i32>) {
    let (reader, mut writer) = std::io::pipe().expect("a pipe");
    // A pipe takes so many bytes before anybody reads.
    assert!(bytes.len() < 4096);
    writer.write_all(bytes).expect("the pipe");
    drop(writer);
    said(&run(Stdio::from(reader), Stdio::piped(), &[]))
}

/// The position is not printed, and no turn but one at its end is refused for it.
#[test]
fn images_with_a_position() {
    let file = fs::read(examples().join("loop.img")).expect("an example");
    let out = fs::read_to_string(examples().join("loop.out")).expect("its output");
    let at = |position: i64| {
        let mut machine = Machine::load(&file).expect("an image");
        machine.record.position = position;
        machine.save().expect("an image")
    };
    for position in [0, -1, i64::MIN, i64::MAX - 36] {
        let found = of_bytes(&at(position));
        assert_eq!(found, (out.clone(), String::new(), Some(0)), "{position}");
    }
    // At finish too, since 21 comes before 12.
    let found = of_bytes(&at(i64::MAX - 35));
    let end = out.replace("refusal 12", "refusal 21");
    assert_eq!(found, (end, String::new(), Some(0)));
    let zeros = ["0"; 16].join(" ");
    let none = format!("turns 0 refusal 21\n{zeros}\nnode 0 wait 0\n");
    let found = of_bytes(&at(i64::MAX));
    assert_eq!(found, (none, String::new(), Some(0)));
    let image = at(0);
    for (length, refusal) in [(99, 1), (100, 5), (139, 5)] {
        let found = of_bytes(&image[image.len() - length..]);
        let expected = format!("refusal {refusal}\n");
        assert_eq!(found, (expected, String::new(), Some(1)), "{length}");
    }
}

#[test]
fn a_refused_load_ends_with_1() {
    for (input, refusal) in [("/dev/null", 1), ("/dev/zero", 1)] {
        let found = said(&run(open(Path::new(input)), Stdio::piped(), &[]));
        let expected = format!("refusal {refusal}\n");
        assert_eq!(found, (expected, String::new(), Some(1)), "{input}");
    }
    let text = open(&examples().join("README.md"));
    let found = said(&run(text, Stdio::piped(), &[]));
    assert_eq!(found, ("refusal 2\n".into(), String::new(), Some(1)));
}

#[test]
fn arguments_end_with_2() {
    let line = "crank: takes no arguments; give it an image by crank < IMAGE\n";
    for arguments in [&["--help"][..], &["examples/first.img"], &["", "x"]] {
        let input = open(&examples().join("first.img"));
        let found = said(&run(input, Stdio::piped(), arguments));
        assert_eq!(
            found,
            (String::new(), line.into(), Some(2)),
            "{arguments:?}"
        );
    }
}

#[test]
fn a_failed_write_ends_with_3() {
    let line = "crank: standard output can't be written\n";
    let full = || {
        let file = File::options().write(true).open("/dev/full");
        Stdio::from(file.expect("a full disk"))
    };
    for input in [examples().join("first.img"), PathBuf::from("/dev/null")] {
        let found = said(&run(open(&input), full(), &[]));
        assert_eq!(found, (String::new(), line.into(), Some(3)), "{input:?}");
    }
}

#[test]
fn a_closed_pipe_ends_with_3() {
    let (reader, writer) = std::io::pipe().expect("a pipe");
    drop(reader);
    let input = open(&examples().join("first.img"));
    let found = said(&run(input, Stdio::from(writer), &[]));
    let line = "crank: standard output can't be written\n";
    assert_eq!(found, (String::new(), line.into(), Some(3)));
}
