//! The wheel: encoder samples, typed or in a file, and what they come to at the desk.
//!
//! What a sample stands for is known to the proved call alone.

use crate::desk::{progress_text, Desk, CHUNK};
use crate::interrupt;
use crate::terminal::{self, Progress};
use crate::typed;
use crank::calls::Sampled;
use crank::Machine;
use crank_assembler::files;
use std::fs::{self, File};
use std::io::{self, Cursor, Read};
use std::path::Path;

/// Samples, a byte each, and the name of the file that has them.
pub struct Samples {
    name: String,
    bytes: Box<dyn Read>,
}

impl Samples {
    /// Numbers with blanks between them, or `@` and the name of a file.
    ///
    /// # Errors
    ///
    /// A line that says what is wrong with them.
    pub fn typed(text: &str) -> Result<Samples, String> {
        if let Some(name) = text.strip_prefix('@') {
            return Samples::open(typed::file_name(name));
        }
        let numbers = text.split_whitespace().map(typed::sample);
        let bytes: Vec<u8> = numbers.collect::<Result<_, String>>()?;
        Ok(Samples {
            name: String::new(),
            bytes: Box::new(Cursor::new(bytes)),
        })
    }

    /// At a terminal a regular file only: Ctrl-C could not stop a read that waits for more. In a
    /// script no pipe that the commands come from.
    fn open(path: &Path) -> Result<Samples, String> {
        if path.as_os_str().is_empty() {
            return Err("@ needs the name of a file behind it".to_string());
        }
        let name = files::shown(path);
        let fault = |e: io::Error| format!("{name}: {}", files::reason(&e));
        let kind = fs::metadata(path).map_err(fault)?;
        if kind.is_dir() || interrupt::installed() && !kind.is_file() {
            return Err(format!("{name}: is no regular file"));
        }
        if terminal::brings_commands(&kind) {
            return Err(format!("{name}: the commands come from there"));
        }
        let bytes = Box::new(File::open(path).map_err(fault)?);
        Ok(Samples { name, bytes })
    }

    /// The next ones: [`CHUNK`] of them, fewer at the end; and what broke the reading off.
    fn chunk(&mut self) -> (Vec<u8>, Option<String>) {
        let mut chunk = Vec::new();
        let read = self.bytes.by_ref().take(CHUNK).read_to_end(&mut chunk);
        let fault = |e| format!("{}: {}", self.name, files::reason(&e));
        (chunk, read.err().map(fault))
    }
}

/// How samples ended.
pub enum End {
    /// All were taken.
    Complete,
    /// This one is refused; its place counts from 1, and 0 is the given one.
    Refused { sample: u8, place: u64 },
    /// By Ctrl-C.
    Stopped,
    /// The rest can't be read, for the reason given.
    Unread(String),
}

/// What samples came to.
pub struct Wheel {
    /// As one call would answer for all of them.
    pub sampled: Sampled,
    /// The samples taken.
    pub taken: u64,
    pub end: End,
}

/// Turns as the samples say. The given one is looked at before any is read.
pub fn turn(desk: &mut Desk, given: u8, samples: &mut Samples) -> Wheel {
    let first = desk.samples(given, &[]);
    if first.refusal != 0 {
        let end = End::Refused {
            sample: given,
            place: 0,
        };
        return Wheel {
            sampled: first,
            taken: 0,
            end,
        };
    }
    by_chunks(desk, first, samples)
}

/// Turns on from what came before, until all samples are taken, one is refused, or Ctrl-C.
fn by_chunks(desk: &mut Desk, mut sampled: Sampled, samples: &mut Samples) -> Wheel {
    interrupt::clear();
    let mut progress = Progress::new();
    let mut taken = 0;
    let end = loop {
        let (chunk, fault) = samples.chunk();
        let before = sampled.last as u8;
        sampled = sum(&sampled, desk.samples(before, &chunk));
        if sampled.refusal != 0 {
            break refused(before, &chunk, taken);
        }
        let length = chunk.len() as u64;
        taken += length;
        if let Some(line) = fault {
            break End::Unread(line);
        }
        if length < CHUNK {
            break End::Complete;
        }
        if interrupt::raised() {
            break End::Stopped;
        }
        progress.show(|| progress_text(taken, "samples"));
    };
    Wheel {
        sampled,
        taken,
        end,
    }
}

/// What two lists come to, one behind the other.
fn sum(first: &Sampled, second: Sampled) -> Sampled {
    Sampled {
        forward: first.forward + second.forward,
        back: first.back + second.back,
        refused: first.refused + second.refused,
        ..second
    }
}

/// Which of these samples is refused, so many being taken before them. The list that ends with it is
/// the shortest that is refused, by any machine: here by one without words.
fn refused(before: u8, samples: &[u8], taken: u64) -> End {
    let mut machine = Machine::new(0, Vec::new(), Vec::new());
    let lengths: Vec<usize> = (1..=samples.len()).collect();
    let at = lengths.partition_point(|length| {
        let list = &samples[..*length];
        machine.samples(before, list).refusal == 0
    });
    End::Refused {
        sample: samples[at],
        place: taken + at as u64 + 1,
    }
}

#[cfg(test)]
mod tests {
    use super::*;
    use crate::exercise::Exercise;

    /// Bytes, and then a fault where the end would be.
    struct Broken(Cursor<Vec<u8>>);

    impl Read for Broken {
        fn read(&mut self, into: &mut [u8]) -> io::Result<usize> {
            match self.0.read(into)? {
                0 => Err(io::Error::other("broken off")),
                length => Ok(length),
            }
        }
    }

    /// What samples come to where they can't be read on.
    fn broken(given: u8, bytes: Vec<u8>) -> (Wheel, Desk) {
        let path = concat!(env!("CARGO_MANIFEST_DIR"), "/../../examples/first.img");
        let mut desk = Desk::new(Exercise::open(Path::new(path)).expect("an example"));
        let mut samples = Samples {
            name: "samples".to_string(),
            bytes: Box::new(Broken(Cursor::new(bytes))),
        };
        (turn(&mut desk, given, &mut samples), desk)
    }

    /// Wheels at a start: to and fro, against it, and along to the finish and on. Each sample is one
    /// turn, so every count is one over all chunks.
    const WHEELS: [&[u8]; 3] = [&[1, 0], &[2, 3, 1, 0], &[1, 3, 2, 0]];

    #[test]
    fn what_was_read_before_a_fault_is_turned() {
        let chunk = CHUNK as usize;
        let mut most = [0; 3];
        for (length, samples) in [0, 1, chunk - 1, chunk, chunk + 1, 2 * chunk + 7]
            .into_iter()
            .flat_map(|length| WHEELS.map(|wheel| (length, wheel)))
        {
            let list = samples.iter().copied().cycle().take(length).collect();
            let (wheel, desk) = broken(0, list);
            assert_eq!(wheel.taken, length as u64);
            assert!(matches!(wheel.end, End::Unread(line) if line.starts_with("samples: ")));
            let came = &wheel.sampled;
            let counts = [came.forward, came.back, came.refused];
            assert_eq!(counts.iter().sum::<u64>(), length as u64);
            assert_eq!(
                [desk.counts.forward, desk.counts.back],
                [came.forward, came.back]
            );
            most = [0, 1, 2].map(|i| counts[i].max(most[i]));
        }
        let [forward, back, refused] = most;
        assert!(forward > CHUNK / 2 && back > CHUNK / 2 && refused > CHUNK);
    }

    #[test]
    fn a_refused_sample_comes_before_a_fault_behind_it() {
        let end = broken(0, vec![1, 2, 0]).0.end;
        assert!(matches!(
            end,
            End::Refused {
                sample: 2,
                place: 2
            }
        ));
        let end = broken(9, Vec::new()).0.end;
        assert!(matches!(
            end,
            End::Refused {
                sample: 9,
                place: 0
            }
        ));
    }
}
