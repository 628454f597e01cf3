//! Runs what the documents show: every block fenced by ```console, as in docs/BENCH.md and in
//! `transcripts/`, must give exactly the output that stands there.
//!
//! A line `$ COMMAND` is run by a shell in a scratch folder with a copy of the examples; lines
//! `> ...` right behind it continue it, as a shell shows them. Where a block begins with
//! `$ bench FILE` and nothing else, its lines `> ...` are commands typed at a terminal.
//!
//! With `TRANSCRIPTS=write` the documents get the output that came, to be read before it is kept.

#[path = "support/pty.rs"]
mod pty;
#[path = "support/scratch.rs"]
mod scratch;

use pty::{Terminal, CTRL_D};
use scratch::{scratch, top};
use std::env;
use std::ffi::OsString;
use std::fs;
use std::io::{self, Read};
use std::path::Path;
use std::process::{Command, Stdio};

const BENCH: &str = env!("CARGO_BIN_EXE_bench");
const CONSOLE: &str = "```console";
const FENCE: &str = "```";
const TRANSCRIPTS: &str = "rust/bench/tests/transcripts";
/// Where blocks may stand.
const DOCUMENTS: [&str; 6] = [
    "README.md",
    "docs/BENCH.md",
    "docs/ASSEMBLER.md",
    "docs/MANUAL.md",
    "docs/CALLS.md",
    "examples/README.md",
];
/// The commands in this one are run by `tests/c/check.sh`, where the header is.
const RUN_IN_C: &str = "docs/CALLS.md";
/// So many of these must have some, like every transcript.
const MUST: usize = 2;

/// The built programs come first, and all must be there.
fn path() -> OsString {
    let built = Path::new(BENCH).parent().expect("its folder");
    for program in ["bench", "assemble", "disassemble", "crank"] {
        let found = built.join(program).is_file();
        assert!(found, "{program} is not built: run cargo build --release");
    }
    let mut folders = vec![built.to_path_buf()];
    folders.extend(env::split_paths(&env::var_os("PATH").unwrap_or_default()));
    env::join_paths(folders).expect("a path")
}

fn with_newline(text: &str) -> String {
    match text.is_empty() || text.ends_with('\n') {
        true => text.to_string(),
        false => format!("{text}\n"),
    }
}

/// What a shell's command writes, on both outputs.
fn shell(command: &str, folder: &Path) -> String {
    let (mut reader, writer) = io::pipe().expect("a pipe");
    let mut child = Command::new("timeout")
        .args(["60", "sh", "-c", command])
        .current_dir(folder)
        .env("PATH", path())
        .stdin(Stdio::null())
        .stdout(writer.try_clone().expect("the pipe"))
        .stderr(writer)
        .spawn()
        .expect("a shell");
    let mut bytes = Vec::new();
    reader.read_to_end(&mut bytes).expect("its output");
    child.wait().expect("its end");
    with_newline(&String::from_utf8_lossy(&bytes))
}

/// What a terminal shows while these commands are typed at `bench FILE`.
fn typed(file: &str, commands: &[&str], folder: &Path) -> String {
    let mut bench = Command::new(BENCH);
    bench.arg(file).current_dir(folder);
    let mut terminal = Terminal::spawn(bench);
    let mut going = terminal.prompt().1;
    for command in commands {
        assert!(going, "it ended before {command:?}:\n{}", terminal.screen);
        terminal.press(&format!("{command}\n"));
        going = terminal.prompt().1;
    }
    if !going {
        return with_newline(&terminal.end().0);
    }
    terminal.press(CTRL_D);
    let screen = terminal.end().0;
    let shown = screen.strip_suffix("> \n").expect("a last prompt");
    shown.to_string()
}

/// The block with the output that came, and the commands in it.
fn run_block(block: &[&str], folder: &Path) -> (String, usize) {
    let first: Vec<&str> = block
        .first()
        .map_or(vec![], |line| line.split(' ').collect());
    let inputs: Vec<&str> = block
        .iter()
        .filter_map(|line| line.strip_prefix("> "))
        .collect();
    if let (["$", "bench", file], false) = (first.as_slice(), inputs.is_empty()) {
        let shown = typed(file, &inputs, folder);
        return (format!("$ bench {file}\n{shown}"), 1 + inputs.len());
    }
    let (mut text, mut count) = (String::new(), 0);
    let mut lines = block.iter().peekable();
    while let Some(line) = lines.next() {
        // Output that was expected; what came stands behind the command already.
        let Some(first) = line.strip_prefix("$ ") else {
            continue;
        };
        let mut command = first.to_string();
        text += &format!("{line}\n");
        while let Some(line) = lines.next_if(|line| line.starts_with("> ")) {
            command += &format!("\n{}", &line[2..]);
            text += &format!("{line}\n");
        }
        text += &shell(&command, folder);
        count += 1;
    }
    (text, count)
}

/// What came of a document.
#[derive(Default)]
struct Ran {
    /// With the output that came.
    text: String,
    blocks: usize,
    commands: usize,
    /// Commands in blocks of another kind.
    not_run: usize,
}

fn run_document(text: &str, folder: &Path) -> Ran {
    let mut ran = Ran::default();
    let mut lines = text.lines();
    while let Some(line) = lines.next() {
        ran.text += &format!("{line}\n");
        if !line.starts_with(FENCE) {
            continue;
        }
        let block: Vec<&str> = lines.by_ref().take_while(|line| *line != FENCE).collect();
        if line == CONSOLE {
            let (shown, count) = run_block(&block, folder);
            assert!(count > 0, "a block without a command: {block:?}");
            ran.text += &shown;
            ran.blocks += 1;
            ran.commands += count;
        } else {
            ran.not_run += block.iter().filter(|line| line.starts_with("$ ")).count();
            ran.text
                .extend(block.iter().map(|line| format!("{line}\n")));
        }
        ran.text += &format!("{FENCE}\n");
    }
    ran
}

/// Runs a document, and says what differs.
fn check(name: &str, number: usize) -> (Ran, String) {
    let document = top().join(name);
    let text = fs::read_to_string(&document).unwrap_or_else(|e| panic!("{name}: {e}"));
    let folder = scratch(&format!("document{number}"));
    let ran = run_document(&text, &folder);
    let _ = fs::remove_dir_all(folder);
    println!("{name}: {} blocks, {} commands", ran.blocks, ran.commands);
    if ran.text == text {
        return (ran, String::new());
    }
    if env::var_os("TRANSCRIPTS").is_some_and(|value| value == "write") {
        fs::write(document, &ran.text).expect("the document");
    }
    let differs = |(place, (old, new)): (usize, (&str, &str))| {
        (old != new).then(|| format!("{name}:{}\n  has  {old}\n  came {new}\n", place + 1))
    };
    let mut lines = text.lines().zip(ran.text.lines()).enumerate();
    let first = lines.find_map(differs);
    let fault = first.unwrap_or_else(|| format!("{name}: ends otherwise\n"));
    (ran, fault)
}

fn transcripts() -> Vec<String> {
    let mut found: Vec<String> = fs::read_dir(top().join(TRANSCRIPTS))
        .expect("the transcripts")
        .map(|entry| entry.expect("a transcript").file_name())
        .map(|name| format!("{TRANSCRIPTS}/{}", name.to_string_lossy()))
        .filter(|name| name.ends_with(".md"))
        .collect();
    found.sort();
    assert!(!found.is_empty(), "no transcripts");
    found
}

#[test]
fn documents_show_what_comes() {
    let documents = DOCUMENTS.map(str::to_string).into_iter();
    let all: Vec<String> = documents.chain(transcripts()).collect();
    let (mut blocks, mut commands, mut faults) = (0, 0, String::new());
    for (number, name) in all.iter().enumerate() {
        let (ran, fault) = check(name, number);
        let must = number < MUST || number >= DOCUMENTS.len();
        assert!(ran.blocks > 0 || !must, "{name}: no block");
        assert!(
            ran.not_run == 0 || name == RUN_IN_C,
            "{name}: {} commands that are not run",
            ran.not_run
        );
        blocks += ran.blocks;
        commands += ran.commands;
        faults += &fault;
    }
    println!(
        "{} documents, {blocks} blocks, {commands} commands",
        all.len()
    );
    assert!(faults.is_empty(), "\n{faults}");
}
