//! Compares, counts by kind of case, and shows a difference so that it can be run again.
use crate::answers::Expected;
use crate::calls;
use crate::expected;
use crate::kinds::kind;
use crate::request::Request;
use crate::sample::Sample;
use std::collections::BTreeMap;
use std::time::Instant;

/// How often each kind came.
#[derive(Default)]
struct Counts(BTreeMap<String, u64>);

impl Counts {
    fn add(&mut self, kind: &str, times: u64) {
        match self.0.get_mut(kind) {
            Some(n) => *n += times,
            None => {
                self.0.insert(kind.to_string(), times);
            }
        }
    }

    fn print(&self) {
        for (kind, n) in &self.0 {
            println!("    {n:>10}  {kind}");
        }
    }
}

pub struct Tally {
    pub done: u64,
    pub different: u64,
    name: &'static str,
    started: Instant,
    kinds: Counts,
    seen: Counts,
    pub sample: Option<Sample>,
}

impl Tally {
    pub fn new(name: &'static str, sample: Option<Sample>) -> Self {
        Self { done: 0, different: 0, name, started: Instant::now(), kinds: Counts::default(), seen: Counts::default(), sample }
    }

    /// something that the inputs held: counted in the summary, and no comparison
    pub fn see(&mut self, kind: &str) {
        self.see_times(kind, 1);
    }

    pub fn see_times(&mut self, kind: &str, times: u64) {
        self.seen.add(kind, times);
    }

    /// one comparison of the kind; `input` is shown where the two differ
    pub fn compare(&mut self, kind: &str, same: bool, input: impl Fn() -> String) {
        self.done += 1;
        self.kinds.add(kind, 1);
        if !same {
            self.different += 1;
            if self.different <= 10 {
                println!("DIFFERENT {kind}\n{}", input());
            }
        }
        if self.done % (1 << 16) == 0 {
            eprint!("\r{}: {} compared, {} s ", self.name, self.done, self.started.elapsed().as_secs());
        }
    }

    /// a request's answer beside what is expected of it
    pub fn request(&mut self, r: &Request, expected: &Expected) {
        let (ours, theirs) = (calls::answer(r), expected::left(r, expected));
        let kind = kind(r, expected, &theirs);
        self.compare(&kind, ours == theirs, || format!("{}\nours\n{}\nexpected\n{}", r.line(&kind), ours.line(&kind), theirs.line(&kind)));
        if let Some(sample) = &mut self.sample {
            sample.offer(&kind, r, &theirs);
        }
    }

    pub fn summary(&self) {
        eprint!("\r");
        let mut calls: BTreeMap<&str, u64> = BTreeMap::new();
        self.seen.print();
        self.kinds.print();
        for (kind, n) in &self.kinds.0 {
            *calls.entry(kind.split(':').next().unwrap_or(kind)).or_default() += n;
        }
        let calls: Vec<String> = calls.iter().map(|(call, n)| format!("{call} {n}")).collect();
        println!("{}: by call: {}", self.name, calls.join(", "));
        println!("{}: {} compared, {} different, {} s", self.name, self.done, self.different, self.started.elapsed().as_secs());
    }
}
