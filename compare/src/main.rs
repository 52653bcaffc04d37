//! Compares the proved libraries with the published Rust and with the processor, bit for bit (any NaN with any NaN), the calls on marks
//! with another reading of their request, and the vertices that are built with unit length.
//! A line for each kind of case says how often it came; a difference prints its request and ends the run with 1.
mod answers;
mod bench;
mod bench_inputs;
mod bench_marks;
mod bench_strings;
mod buoys;
mod calls;
mod classes;
mod edits;
mod exact;
mod expected;
mod expected_edit;
mod expected_mark;
mod found;
mod inputs;
mod kinds;
mod lists;
mod margin;
mod margins;
mod mark_laws;
mod mark_points;
mod mark_strings;
mod marks;
mod midpoints;
mod narrow;
mod numbered;
mod plane;
mod random;
mod request;
mod roots;
#[cfg(feature = "s2")]
mod s2;
mod sample;
mod small;
mod stored;
mod strings;
mod table;
mod tally;
mod timing;
mod unit;
mod unit_points;
mod vectors;

use request::Request;
use sample::Sample;
use std::path::Path;
use tally::Tally;

type Work = fn(&mut Tally, u64);

/// What can be compared, with the usual number of comparisons; the found and the small requests are as many as there are.
const COMPARISONS: [(&str, u64, Work); 13] = [
    ("found", 1, found::run),
    ("roots", 12_000_000, roots::run),
    ("vectors", 3_000_000, vectors::run),
    ("small", 1, small::run),
    ("strings", 6_150_000, strings::run),
    ("narrow", 5_100_000, narrow::run),
    ("margin", 4_000_000, margin::run),
    ("plane", 3_000_000, plane::run),
    ("midpoints", 1_000_000, midpoints::run),
    ("edits", 1_000_000, edits::run),
    ("buoys", 3_000_000, buoys::run),
    ("marks", 6_000_000, marks::run),
    ("unit", 40_000_000, unit::run),
];

fn run(name: &'static str, n: u64, work: Work) -> Tally {
    let mut tally = Tally::new(name, None);
    work(&mut tally, n);
    tally.summary();
    tally
}

/// every comparison whose name is among the words, at the size that follows it, or all of them
fn compare(words: &[String]) -> bool {
    let (mut done, mut different) = (0, 0);
    for (name, usual, work) in COMPARISONS {
        let given = words.iter().position(|w| w == name);
        if given.is_none() && !words.is_empty() {
            continue;
        }
        let n = given.and_then(|i| words.get(i + 1)).and_then(|n| n.parse().ok()).unwrap_or(usual);
        let tally = run(name, n, work);
        done += tally.done;
        different += tally.different;
    }
    if done > 0 {
        println!("in all: {done} compared, {different} different");
    }
    different == 0
}

/// the requests of a file, one a line, each beside what is expected
fn requests(file: &str) -> bool {
    let mut tally = Tally::new("requests", None);
    for line in std::fs::read_to_string(file).expect("a file of requests").lines() {
        let r = Request::parse(line).unwrap_or_else(|| panic!("no request: {line}"));
        println!("{}", calls::answer(&r).line(r.call.name()));
        tally.request(&r, &expected::result(&r));
    }
    tally.summary();
    tally.different == 0
}

/// what a sample is taken from
const SAMPLED: [(&str, u64, Work); 8] = [
    ("found", 1, found::run),
    ("edits", 60_000, edits::run),
    ("buoys", 200_000, buoys::run),
    ("strings", 200_000, strings::run),
    ("margin", 60_000, margin::run),
    ("marks", 200_000, marks::run),
    ("small", 1, small::run),
    ("midpoints", 20_000, midpoints::run),
];

/// stores a sample of the found, the random and the small requests in a folder
fn sample(folder: &str) -> bool {
    let mut sample = Sample::default();
    let mut same = true;
    for (name, n, work) in SAMPLED {
        let mut tally = Tally::new(name, Some(sample));
        work(&mut tally, n);
        same &= tally.different == 0;
        sample = tally.sample.unwrap_or_default();
    }
    sample.store(Path::new(folder)).expect("the sample is stored");
    same
}

fn main() {
    expected_edit::quiet_panics();
    let words: Vec<String> = std::env::args().skip(1).collect();
    let same = match words.first().map(String::as_str) {
        Some("requests") => requests(words.get(1).expect("a file")),
        Some("sample") => sample(words.get(1).expect("a folder")),
        Some("bench") => {
            bench::run();
            true
        }
        _ => compare(&words),
    };
    std::process::exit(if same { 0 } else { 1 });
}
