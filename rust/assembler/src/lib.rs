//! The assembler of QINS and its inverse: source text to an image, an image to source text.
//!
//! The syntax is in `docs/ASSEMBLER.md`. A source is read once into words, labels, nodes and
//! settings (`source`); with the number of code words known, every operand is resolved (`resolve`)
//! and the image is written by the proved library (`image`). The instructions stand in one table
//! (`forms`), from which words are written and read.
//!
//! ```
//! let assembled = crank_assembler::assemble("start\nxori r1, 5\nfinish\n").unwrap();
//! let source = crank_assembler::disassemble(&assembled.image).unwrap();
//! assert_eq!(crank_assembler::assemble(&source).unwrap().image, assembled.image);
//! ```

pub mod files;
pub mod program;

mod branches;
mod disassemble;
mod forms;
mod image;
mod instruction;
mod listing;
mod preface;
mod resolve;
mod source;
mod text;
mod warnings;

pub use disassemble::disassemble;
pub use listing::listing;

use std::fmt;

/// Why a source was refused, and in which line (counted from 1).
#[derive(Clone, Debug, PartialEq, Eq)]
pub struct Error {
    pub line: usize,
    pub message: String,
}

impl fmt::Display for Error {
    fn fmt(&self, f: &mut fmt::Formatter<'_>) -> fmt::Result {
        write!(f, "line {}: {}", self.line, self.message)
    }
}

impl std::error::Error for Error {}

/// What is taken, but refused in every turn that comes to it.
#[derive(Clone, Debug, PartialEq, Eq)]
pub struct Warning {
    pub line: usize,
    pub message: String,
}

impl fmt::Display for Warning {
    fn fmt(&self, f: &mut fmt::Formatter<'_>) -> fmt::Result {
        write!(f, "line {}: warning: {}", self.line, self.message)
    }
}

/// A memory word and the line that wrote it.
#[derive(Clone, Copy, Debug, PartialEq, Eq)]
pub struct Written {
    pub word: u32,
    pub line: usize,
}

/// An image, and what of its source is not in it.
#[derive(Clone, Debug, PartialEq, Eq)]
pub struct Assembled {
    /// The bytes of the image, behind those of the preface.
    pub image: Vec<u8>,
    /// Labels and their addresses, in the order of addresses.
    pub labels: Vec<(String, u32)>,
    /// The name of node i + 1, none where it is written by number or made.
    pub nodes: Vec<Option<String>>,
    /// The memory words by address.
    pub words: Vec<Written>,
    /// In the order of lines.
    pub warnings: Vec<Warning>,
}

/// A message without its line, which is added where it is known.
type Checked<T> = Result<T, String>;

/// Assembles a source.
///
/// # Errors
///
/// A line that is not understood, or that the instruction set or the image does not allow.
pub fn assemble(source: &str) -> Result<Assembled, Error> {
    source::Source::read(source)?.assembled()
}

/// The instruction as it is written in a source, offsets and addresses as numbers; none where the
/// word is no instruction.
pub fn instruction_text(word: u32) -> Option<String> {
    Some(instruction::Instruction::of(word)?.text(None))
}
