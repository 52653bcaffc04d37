//! What an answer holds, and the answers of verdicts, of vertices, of a string and of one that is not cut.
use crate::classes::Grazed;
use crate::lists::flat;
use crate::numbered::{self, Vertex};
use crate::random::Xyz;
use crate::request::{Call, Places};

/// A finished answer, before any look at the room for it: the single numbers before those of a buffer. What the margin did to the pairs
/// of legs is for the summary, and no part of what is compared.
#[derive(Default)]
pub struct Answer {
    pub floats: Vec<f64>,
    pub buoys: Vec<u32>,
    pub bytes: Vec<u8>,
    pub numbers: Vec<u64>,
    pub grazed: Grazed,
}

impl Answer {
    /// how long each buffer of a call has to be for it
    pub fn needed(&self, call: Call) -> Places {
        let fixed = call.fixed();
        call.buffers(Places {
            floats: self.floats.len().saturating_sub(fixed.floats),
            buoys: self.buoys.len(),
            bytes: self.bytes.len().saturating_sub(fixed.bytes),
            numbers: self.numbers.len().saturating_sub(fixed.numbers),
        })
    }
}

/// an answer, or the number of a refusal
pub type Expected = Result<Answer, u32>;

pub fn verdict(yes: bool) -> Answer {
    Answer { bytes: vec![yes as u8], ..Answer::default() }
}

pub fn vertices(points: &[Xyz]) -> Answer {
    Answer { floats: flat(points), numbers: vec![points.len() as u64], ..Answer::default() }
}

/// of a cut that cuts nothing
pub fn uncut() -> Answer {
    Answer { numbers: vec![0], ..Answer::default() }
}

pub fn string(v: &[Vertex]) -> Answer {
    Answer { buoys: v.iter().map(|v| v.1).collect(), ..vertices(&numbered::xyzs(v)) }
}
