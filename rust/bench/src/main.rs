//! The bench at a desk: `bench FILE` turns an exercise to and fro, `bench mark` marks what is
//! handed in.
//!
//! Every turn, preview, load, save and check is a proved call, and so is the making of a table. Of the
//! machine nothing is written here but how a preview names its instruction: by the pc and the wait of
//! the earlier state.

mod commands;
mod desk;
mod exercise;
mod interrupt;
mod mark;
mod picture;
mod session;
mod show;
mod terminal;
mod typed;
mod wheel;
mod words;

use std::env;
use std::ffi::OsString;
use std::process::ExitCode;

/// The status of bad input: arguments, files, commands.
const BAD_INPUT: u8 = 2;

fn main() -> ExitCode {
    let arguments: Vec<OsString> = env::args_os().skip(1).collect();
    let done = match arguments.first() {
        Some(first) if first == "mark" => mark::run(&arguments[1..]),
        _ => session::run(&arguments),
    };
    ExitCode::from(done.unwrap_or_else(|line| {
        terminal::complain(&line);
        BAD_INPUT
    }))
}
