//! The wheel: turns from the samples of its encoder (document 02, #101).

use crate::machine::Record;
use crate::state::{Machine, Way};

/// The samples in the order of forward turns, up to where it begins again.
const CYCLE: [u8; 5] = [0, 1, 3, 2, 0];
const LARGEST: u8 = 3;

/// What samples give: the turns accepted forward and back, the turns that the
/// machine refused, the last sample before a 19 or 20, that refusal or 0, and
/// the record.
#[derive(Clone, Copy, Debug, PartialEq, Eq)]
pub struct Wheeled {
    pub forward: u64,
    pub back: u64,
    pub refused: u64,
    pub last: u32,
    pub refusal: u32,
    pub record: Record,
}

/// A sample call, of the model or of the library: the record, the sample
/// before the list, the list, and the lent memory and table.
pub type SampleCall = fn(Record, u8, &[u8], &mut [u32], &[u32]) -> Wheeled;

/// Whether a step between two samples goes along the cycle.
fn along(from: u8, to: u8) -> bool {
    CYCLE.windows(2).any(|step| step == [from, to])
}

/// The turn that a sample names after the one before it, none if they are
/// equal; refused by 20, then by 19.
pub fn named(before: u8, sample: u8) -> Result<Option<Way>, u32> {
    if before > LARGEST || sample > LARGEST {
        Err(20)
    } else if sample == before {
        Ok(None)
    } else if along(before, sample) {
        Ok(Some(Way::Forward))
    } else if along(sample, before) {
        Ok(Some(Way::Back))
    } else {
        Err(19)
    }
}

/// What the samples name, one by one, up to a 19 or 20.
pub fn steps(given: u8, samples: &[u8]) -> Vec<Option<Way>> {
    let before = std::iter::once(&given).chain(samples);
    before
        .zip(samples)
        .map_while(|(before, sample)| named(*before, *sample).ok())
        .collect()
}

impl Wheeled {
    /// Makes one turn and counts it; a refused one leaves the record.
    fn turn(&mut self, way: Way, mem: &mut [u32], table: &[u32]) {
        let (refusal, record) = way.model()(self.record, mem, table);
        self.record = record;
        match (refusal, way) {
            (0, Way::Forward) => self.forward += 1,
            (0, Way::Back) => self.back += 1,
            _ => self.refused += 1,
        }
    }
}

/// The turns that samples name, `given` being the sample before them. A 19 or
/// 20 ends them; the turns before it stand.
pub fn samples(r: Record, given: u8, samples: &[u8], mem: &mut [u32], table: &[u32]) -> Wheeled {
    let mut answer = Wheeled {
        forward: 0,
        back: 0,
        refused: 0,
        last: given.into(),
        refusal: 0,
        record: r,
    };
    // Looked at before any sample, so also if there is none.
    if given > LARGEST {
        answer.refusal = 20;
        return answer;
    }
    let mut before = given;
    for &sample in samples {
        match named(before, sample) {
            Ok(None) => {}
            Ok(Some(way)) => answer.turn(way, mem, table),
            Err(refusal) => {
                answer.refusal = refusal;
                break;
            }
        }
        before = sample;
    }
    answer.last = before.into();
    answer
}

impl Machine {
    /// Makes a sample call and gives its answer.
    pub fn samples(&mut self, given: u8, samples: &[u8], call: SampleCall) -> Wheeled {
        let answer = call(self.record, given, samples, &mut self.mem, &self.table);
        self.record = answer.record;
        answer
    }
}
