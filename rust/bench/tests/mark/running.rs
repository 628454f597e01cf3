//! A list while it is marked: on all cores, each line at once, and no longer than it is wanted.

use crate::scratch::{example, Folder, Ran};
use crank::{Direction, Machine};
use std::fs;
use std::io::{BufRead, BufReader};
use std::process::{Child, ChildStdout, Stdio};
use std::sync::mpsc;
use std::thread;
use std::time::{Duration, Instant};

/// What is waited for comes much sooner, and all that is marked meanwhile takes longer.
const PATIENCE: Duration = Duration::from_secs(30);
/// The most that a list turns a hand-in: seconds.
const LONG: u64 = 1_000_000_000;
/// Of those, over a minute on two cores.
const MANY: usize = 30;

/// The program, ended with its test.
struct Running(Child);

impl Drop for Running {
    fn drop(&mut self) {
        let _ = self.0.kill();
        let _ = self.0.wait();
    }
}

/// Two jumps, each the other's landing: any number of turns, either way.
fn endless() -> Machine {
    let code = vec![0x1A00_0000, 0x0340_0001, 0x0500_FFFF, 0x0500_FFFF];
    let mut machine = Machine::new(4, code, Vec::new());
    machine.record.regs[0] = 3;
    machine
}

/// Begins to mark a list: so many quick hand-ins, then long ones.
fn begin(folder: &Folder, quick: usize, long: usize, turns: u64) -> Running {
    folder.write("quick.img", example("loop").save().expect("an image"));
    folder.write("long.img", endless().save().expect("an image"));
    let list = "quick.img 0 0\n".repeat(quick) + &format!("long.img {turns} 0\n").repeat(long);
    folder.write("list", list);
    let mut command = folder.command(&["--list", "list"]);
    command.stdout(Stdio::piped()).stderr(Stdio::piped());
    Running(command.spawn().expect("bench runs"))
}

/// The lines as they come; the output stays open until the receiver is dropped.
fn lines(output: ChildStdout) -> mpsc::Receiver<String> {
    let (sender, lines) = mpsc::sync_channel(0);
    thread::spawn(move || {
        for line in BufReader::new(output).lines() {
            if sender.send(line.expect("a line")).is_err() {
                break;
            }
        }
    });
    lines
}

#[test]
fn all_cores() {
    let cores = thread::available_parallelism().map_or(1, usize::from);
    if cores < 2 {
        println!("running: one core only, so threads can't be told");
        return;
    }
    let folder = Folder::new("running-cores");
    let mut bench = begin(&folder, 0, MANY, LONG);
    let tasks = format!("/proc/{}/task", bench.0.id());
    let began = Instant::now();
    // The first thread writes, and each other one marks.
    loop {
        let threads = fs::read_dir(&tasks).map_or(0, Iterator::count);
        if threads > 2 {
            println!("running: {threads} threads on {cores} cores");
            break;
        }
        let ended = bench.0.try_wait().expect("its status");
        assert!(ended.is_none(), "it ended with {threads} threads");
        assert!(began.elapsed() < PATIENCE, "{threads} threads");
        thread::sleep(Duration::from_millis(10));
    }
}

#[test]
fn each_line_at_once() {
    let folder = Folder::new("running-lines");
    let mut bench = begin(&folder, 3, MANY, LONG);
    let lines = lines(bench.0.stdout.take().expect("a pipe"));
    for number in 1..=3 {
        let line = lines.recv_timeout(PATIENCE).expect("a line");
        assert_eq!(line, "quick.img: comes back to start; at start");
        let ended = bench.0.try_wait().expect("its status");
        assert!(ended.is_none(), "it ended before line {number} came");
    }
    println!("running: 3 lines came while {MANY} hand-ins were marked");
}

/// The shortest of some times of so many turns.
fn time_of_one(turns: u64) -> Duration {
    let time = |_| {
        let began = Instant::now();
        assert_eq!(endless().turns(Direction::Back, turns).turns, turns);
        began.elapsed()
    };
    (0..3).map(time).min().expect("a time")
}

/// Nobody reads any more: what is begun is ended, and nothing else begun.
#[test]
fn a_closed_output_ends_it() {
    let (count, turns) = (400, 20_000_000);
    let cores = thread::available_parallelism().map_or(1, usize::from);
    let whole = time_of_one(turns) * count as u32 / cores as u32;
    let folder = Folder::new("running-closed");
    let mut bench = begin(&folder, 1, count, turns);
    let mut output = BufReader::new(bench.0.stdout.take().expect("a pipe"));
    let mut line = String::new();
    output.read_line(&mut line).expect("a line");
    assert_eq!(line, "quick.img: comes back to start; at start\n");
    drop(output);
    let began = Instant::now();
    let error = std::io::read_to_string(bench.0.stderr.take().expect("a pipe"));
    let ended = bench.0.wait().expect("its status");
    let took = began.elapsed();
    let ran = Ran {
        status: ended.code().expect("ended by no signal"),
        out: String::new(),
        err: error.expect("text"),
    };
    assert_eq!(ran, Ran::fault("standard output: Broken pipe"));
    println!("running: closed, it ended after {took:.2?}; all would take {whole:.2?}");
    assert!(took < whole / 4, "{took:?} of {whole:?}");
}
