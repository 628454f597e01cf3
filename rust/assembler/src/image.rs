//! The image of a source, written by the proved library.

use crate::source::{Making, Place, Source, Word};
use crate::{warnings, Assembled, Checked, Error, Written};
use crank::{meaning, Call, Machine, MAX_FILE};

/// Where a made table begins.
const ROOT: u32 = 1;

impl Source<'_> {
    /// Resolves everything and writes the image.
    pub fn assembled(&self) -> Result<Assembled, Error> {
        if self.code.is_empty() {
            return Err(self.about("there is no code word; K must be at least 1".into()));
        }
        let machine = self.machine()?;
        let saved = machine
            .save_as(self.kind())
            .map_err(|refusal| self.about(format!("the image is refused by {refusal}")))?;
        if self.preface.len() + saved.len() > MAX_FILE {
            let message = format!("the image would be longer than {MAX_FILE} bytes");
            return Err(self.about(message));
        }
        let lines = self.memory().map(|(line, _)| *line);
        let words = machine.mem.iter().zip(lines);
        Ok(Assembled {
            image: [&self.preface[..], &saved].concat(),
            labels: self.addresses(),
            nodes: self.node_names(machine.record.n),
            words: words
                .map(|(word, line)| Written { word: *word, line })
                .collect(),
            warnings: warnings::of(self, &machine),
        })
    }

    /// The state that the source describes.
    fn machine(&self) -> Result<Machine, Error> {
        let mut mem = Vec::new();
        for (line, word) in self.memory() {
            mem.push(at(*line, self.word(word, mem.len()))?);
        }
        let mut table = Vec::new();
        for node in &self.nodes {
            table.extend(at(node.line, self.fields(node.fields))?);
        }
        let mut machine = Machine::new(self.code.len() as u32, mem, table);
        for set in &self.settings {
            at(set.line, self.set(set, &mut machine.record))?;
        }
        if let Some(making) = &self.making {
            self.make_table(making, &mut machine)?;
        }
        Ok(machine)
    }

    /// Makes the table, from the first values that the source sets.
    fn make_table(&self, making: &Making, machine: &mut Machine) -> Result<(), Error> {
        let qifv = self.settings.iter().find(|set| set.place == Place::Qifv);
        if let Some(set) = qifv.filter(|_| machine.record.qifv != ROOT) {
            let message = "a made table begins at node 1, so .qifv is 1 or left out";
            return at(set.line, Err(message.into()));
        }
        let made = machine.make_table(making.limit).map_err(|refusal| {
            let why = meaning(refusal, Call::Make);
            format!("the table is refused by {refusal}: {why}")
        });
        at(making.line, made.map(|_| ()))
    }

    /// None of a made table.
    fn node_names(&self, n: u32) -> Vec<Option<String>> {
        let written = self.nodes.iter().map(|node| node.name);
        let mut names: Vec<_> = written.map(|name| name.map(str::to_string)).collect();
        names.resize(n as usize, None);
        names
    }

    /// All words, by address.
    fn memory(&self) -> impl Iterator<Item = &(usize, Word<'_>)> {
        self.code.iter().chain(&self.data)
    }

    fn addresses(&self) -> Vec<(String, u32)> {
        let address = |name: &str| self.address(name).expect("it is a label of the source");
        let mut labels: Vec<(String, u32)> = self
            .labels
            .iter()
            .map(|(name, ..)| (name.to_string(), address(name) as u32))
            .collect();
        labels.sort_by_key(|(_, address)| *address);
        labels
    }

    /// An error about the whole source.
    fn about(&self, message: String) -> Error {
        let line = self.last;
        Error { line, message }
    }
}

fn at<T>(line: usize, result: Checked<T>) -> Result<T, Error> {
    result.map_err(|message| Error { line, message })
}
