//! A few requests of each kind with what is expected of them, short enough to be stored: crates/replay answers them under the gate.
use crate::calls::Left;
use crate::request::Request;
use std::collections::BTreeMap;
use std::io;
use std::path::Path;

/// how many of a kind are stored, how long a stored line may be, and the longest buffer of crates/replay
const EACH: usize = 3;
const LONGEST: usize = 1200;
const ROOM: usize = 255;

#[derive(Default)]
pub struct Sample {
    chosen: BTreeMap<String, Vec<(String, String)>>,
}

impl Sample {
    /// the first ones of each kind that fit; a kind that none fits is left out
    pub fn offer(&mut self, kind: &str, r: &Request, answer: &Left) {
        let chosen = self.chosen.entry(kind.to_string()).or_default();
        let room = r.places();
        if chosen.len() == EACH || room.floats.max(room.buoys).max(room.bytes).max(room.numbers) > ROOM {
            return;
        }
        let (request, answer) = (r.line(kind), answer.line(kind));
        if request.len() <= LONGEST && answer.len() <= LONGEST && !chosen.iter().any(|c| c.0 == request) {
            chosen.push((request, answer));
        }
    }

    /// the requests as `stdin` and the answers as `stdout` of a folder
    pub fn store(&self, folder: &Path) -> io::Result<()> {
        let (mut requests, mut answers, mut lines) = (String::new(), String::new(), 0);
        for (kind, chosen) in &self.chosen {
            if chosen.is_empty() {
                println!("none short enough: {kind}");
            }
            for (request, answer) in chosen {
                requests += &format!("{request}\n");
                answers += &format!("{answer}\n");
                lines += 1;
            }
        }
        let kinds = self.chosen.values().filter(|chosen| !chosen.is_empty()).count();
        println!("stored: {lines} requests of {kinds} kinds, {} and {} bytes", requests.len(), answers.len());
        std::fs::write(folder.join("stdin"), requests)?;
        std::fs::write(folder.join("stdout"), answers)
    }
}
