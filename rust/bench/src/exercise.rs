//! An exercise as it is opened: an image, or a source that is assembled first.

use crank::{calls, meaning, Call, Kind, Machine};
use crank_assembler::{assemble, files};
use std::path::Path;

/// The refusal of a file that is no image at all.
const NO_IMAGE: u32 = 2;

/// What was read from a file.
pub struct Exercise {
    pub machine: Machine,
    /// Whether the file has a position; without one the machine's is 0.
    pub has_position: bool,
    /// What stood before the image; a save keeps it.
    pub preface: Vec<u8>,
    /// Whether it was assembled: only a source has labels and names its nodes.
    pub is_source: bool,
    /// The labels of a source with their addresses; an image has none.
    pub labels: Vec<(String, u32)>,
    /// The names that a source gives the nodes, from node 1; an image has none.
    pub nodes: Vec<Option<String>>,
    /// A line each on what the assembler takes but doubts.
    pub warnings: Vec<String>,
}

impl Exercise {
    /// Reads a source (`.qasm`) or an image (any other name).
    ///
    /// # Errors
    ///
    /// One line that names the file and says what is wrong.
    pub fn open(path: &Path) -> Result<Exercise, String> {
        let name = files::shown(path);
        let bytes = files::read(path)?;
        if !files::is_source(path) {
            return Exercise::load(path, &bytes);
        }
        let source = files::text(bytes).map_err(|why| format!("{name}: {why}"))?;
        let assembled = assemble(&source).map_err(|e| format!("{name}: {e}"))?;
        let warnings = assembled.warnings.iter();
        Ok(Exercise {
            warnings: warnings.map(|line| format!("{name}: {line}")).collect(),
            is_source: true,
            labels: assembled.labels,
            nodes: assembled.nodes,
            ..Exercise::load(path, &assembled.image)?
        })
    }

    fn load(path: &Path, image: &[u8]) -> Result<Exercise, String> {
        let machine = Machine::load(image).map_err(|refusal| {
            let why = meaning(refusal, Call::Load);
            let hint = match refusal {
                NO_IMAGE => "; a source has a name that ends in .qasm",
                _ => "",
            };
            format!("{}: refused by {refusal}: {why}{hint}", files::shown(path))
        })?;
        Ok(Exercise {
            machine,
            has_position: Kind::of(image) == Some(Kind::Two),
            preface: calls::preface(image).to_vec(),
            is_source: false,
            labels: Vec::new(),
            nodes: Vec::new(),
            warnings: Vec::new(),
        })
    }

    /// The address of a label.
    pub fn address_of(&self, label: &str) -> Option<u32> {
        let found = self.labels.iter().find(|(name, _)| name == label)?;
        Some(found.1)
    }

    /// The node to which the source gives a name.
    pub fn node_of(&self, name: &str) -> Option<u32> {
        let mut names = (1..).zip(&self.nodes);
        let (node, _) = names.find(|(_, found)| found.as_deref() == Some(name))?;
        Some(node)
    }

    /// The name of a node, if the source gives it one.
    pub fn node_name(&self, node: u32) -> Option<&str> {
        let place = (node as usize).checked_sub(1)?;
        self.nodes.get(place)?.as_deref()
    }
}
