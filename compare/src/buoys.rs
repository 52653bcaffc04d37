//! Random requests of the calls that carry buoys, with strings on which each call moves vertices: ones that close when they are built, that
//! lose vertices in one round or in several, points put in on several legs, several cuts, pieces that close. Each with every room for the
//! buoys that decides something, and with buoys that are not as many as points.
use crate::answers::Answer;
use crate::edits::can_be_split;
use crate::expected;
use crate::inputs::{Inputs, between, within_range};
use crate::lists::{flat, triples};
use crate::numbered;
use crate::random::Xyz;
use crate::request::{Call, Places, Request};
use crate::strings::send_renumbered;
use crate::tally::Tally;

const CALLS: [Call; 7] = [Call::Build, Call::BuildFlagged, Call::WalkBack, Call::Restart, Call::Simplify, Call::InsertVertices, Call::Split];

// ---- strings and points

/// each vertex past the second between the first and the one before it: a round removes one
fn nearing(i: &mut Inputs) -> Vec<Xyz> {
    let mut points = i.course(2, false);
    for _ in 0..1 + i.below(5) {
        points.push(between(points[0], points[points.len() - 1], 0.5));
    }
    points
}

/// a course that comes back to its first vertex at its end, and now and then on its way
fn returning(i: &mut Inputs) -> Vec<Xyz> {
    let n = 2 + i.below(6) as usize;
    let mut points = i.course(n, true);
    if i.one_in(2) {
        points[n / 2] = points[0];
    }
    points.push(points[0]);
    points
}

fn string(i: &mut Inputs) -> Vec<f64> {
    match i.below(8) {
        0 => flat(&nearing(i)),
        1 => flat(&[nearing(i), nearing(i)].concat()),
        2 | 3 => flat(&returning(i)),
        4 | 5 => i.string(),
        _ => i.course_or_string(),
    }
}

/// points to put in or to cut at; among them the ends of the string, where pieces close, and one point twice
fn points(i: &mut Inputs, v: &[f64]) -> Vec<f64> {
    let (mut points, ends) = (i.extra(v), triples(v));
    for _ in 0..i.below(3) {
        let p = match (i.below(3), ends.first(), ends.last()) {
            (0, Some(first), _) => *first,
            (1, _, Some(last)) => *last,
            _ => points.first_chunk().copied().unwrap_or_default(),
        };
        points.extend(within_range(p));
    }
    points
}

// ---- requests

/// counts in how many rounds a string is simplified, and at how many legs a point is put in
fn see(tally: &mut Tally, r: &Request, answer: &Answer) {
    let number = |n: usize| ["none", "one", "two", "three or more"][n.min(3)];
    if r.call == Call::Simplify {
        let rounds = numbered::simplify(&mut numbered::vertices(&r.lists[0], &r.buoys[0]), r.flags[0] != 0);
        tally.see(&format!("simplify: rounds, {}", number(rounds)));
    }
    if r.call == Call::InsertVertices {
        for buoy in &r.buoys[1] {
            let legs = answer.buoys.iter().filter(|b| *b == buoy).count();
            tally.see(&format!("insert_vertices: legs that a point is put in at, {}", number(legs)));
        }
    }
}

/// the request with room for its answer, and beside it for no buoys, one too few, just enough and more
fn rooms(tally: &mut Tally, mut r: Request) {
    let expected = expected::result(&r);
    let needed = expected.as_ref().map_or(Places::default(), |answer| answer.needed(r.call));
    let n = needed.buoys;
    let mut around = vec![0, n.saturating_sub(1), n, n + 1, n + 9];
    around.dedup();
    for buoys in around {
        r.room = Places { buoys, ..needed };
        tally.request(&r, &expected);
    }
    if let Ok(answer) = &expected {
        see(tally, &r, answer);
    }
}

fn requests(tally: &mut Tally, i: &mut Inputs) {
    let (v, flag) = (string(i), i.flag());
    let (points, at) = (points(i, &v), i.position(v.len() / 3));
    for call in CALLS {
        let both: [&[f64]; 3] = [&v, &[], &points];
        let r = Request::new(call, if call.buoy_lists() == 2 { &both } else { &both[..1] }).flags(flag, 0).at(at, 0);
        if call != Call::Split || can_be_split(&v) {
            send_renumbered(tally, i, r.clone(), 2);
            rooms(tally, r);
        }
    }
}

pub fn run(tally: &mut Tally, n: u64) {
    let mut i = Inputs::new(17);
    while tally.done < n {
        i.long = i.one_in(200);
        requests(tally, &mut i);
    }
}
