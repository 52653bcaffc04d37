//! Requests on which the library once answered otherwise than the published Rust: compared in every run, and the first of the stored sample.
use crate::request::{Call, Request};
use crate::small::send;
use crate::tally::Tally;

pub fn run(tally: &mut Tally, _: u64) {
    // a grazing pair whose signs agree, with its point at the start of the first leg: the published `arcs_crossing` answers that point
    let first = [-0.5, -0.5, -0.5, -1.0, 1.0, 1.0];
    let second = [-1.0, -1.0, 0.5, 1.0, 1.0, -1.0];
    send(tally, Request::new(Call::Pair, &[&first, &[], &second]));
}
