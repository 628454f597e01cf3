//! The crank program with an exit status: `crank < IMAGE`.
//!
//! All that it does is the proved library's, which answers the status that is handed over here: 0; 1
//! after a refused load; 2 for arguments; 3 where a write failed.

use std::env;
use std::process::ExitCode;

extern "C" {
    fn crank_program(words: usize) -> u32;
}

fn main() -> ExitCode {
    // SAFETY: takes and answers plain numbers.
    ExitCode::from(unsafe { crank_program(env::args_os().count()) } as u8)
}
