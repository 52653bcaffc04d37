//! Random requests of simplify, insert_vertices, the splits, equals and overlaps, with which they really remove, insert, cut and panic:
//! vertices that lie along the string, points beyond the end of a leg, vertices as points, legs of length zero, results around 1,024
//! points.
use crate::calls;
use crate::expected;
use crate::inputs::{Inputs, between, within_range};
use crate::lists::{flat, triples};
use crate::request::{Call, Request};
use crate::strings::send;
use crate::tally::Tally;

fn simplifies(tally: &mut Tally, i: &mut Inputs) {
    let (v, flag) = (i.course_or_string(), i.flag());
    let r = Request::new(Call::Simplify, &[&v]).flags(flag, 0);
    if let Ok(simple) = expected::result(&r) {
        let again = Request::new(Call::Simplify, &[&simple.floats]).flags(flag, 0).room_for(simple.floats.len() / 3);
        let left = calls::answer(&again);
        let same = left.number == 0 && left.floats == calls::bits(&simple.floats) && left.buoys == again.buoys[0];
        tally.compare("simplify, twice", same, || again.line("simplify, twice"));
    }
    send(tally, i, r);
}

fn inserts(tally: &mut Tally, i: &mut Inputs) {
    let (v, flag) = (i.course_or_string(), i.flag());
    let points = i.extra(&v);
    send(tally, i, Request::new(Call::InsertVertices, &[&v, &[], &points]).flags(flag, 0));
}

fn split_legs(tally: &mut Tally, i: &mut Inputs) {
    let leg = if i.one_in(2) { flat(&i.course(2, false)) } else { i.singles(2) };
    let mut points = i.extra(&leg);
    if i.long && i.one_in(3) {
        points = i.cycle();
    } else if i.long {
        // beyond the leg's end, and then others: each cuts the pieces of length zero that the ones before it made
        let ends = triples(&leg);
        let count = if i.one_in(4) { 500 + i.below(24) } else { 6 + i.below(12) };
        let others = i.course(count as usize, false);
        points = within_range(between(ends[0], ends[1], 1.5)).to_vec();
        points.extend(flat(&others));
    }
    send(tally, i, Request::new(Call::SplitLeg, &[&leg, &[], &points]));
}

/// legs of length zero are cut at every one of them: with many, too many pieces to be worked out
pub fn can_be_split(v: &[f64]) -> bool {
    v.chunks_exact(3).zip(v[3.min(v.len())..].chunks_exact(3)).filter(|w| w.0 == w.1).count() <= 40
}

fn splits(tally: &mut Tally, i: &mut Inputs) {
    let (v, flag) = (i.course_or_string(), i.flag());
    let points = i.extra(&v);
    if can_be_split(&v) {
        send(tally, i, Request::new(Call::Split, &[&v, &[], &points]).flags(flag, 0));
    }
}

/// another string that simplifies to the same, or nearly: points put in along it, points taken out, backwards, another last point,
/// every point moved by less than the nearness of points
fn alike(i: &mut Inputs, v: &[f64]) -> Vec<f64> {
    let mut points = triples(v);
    match i.below(8) {
        0 => {
            points.truncate(2);
            points.extend(i.course(1, false));
            return flat(&points);
        }
        1 => {
            for p in &mut points {
                let step = i.points.random.of(&[1e-6, -1e-6, 3e-6]);
                let at = i.points.random.below(3) as usize;
                p[at] = (p[at] + step).clamp(-1.0, 1.0);
            }
            return flat(&points);
        }
        _ => {}
    }
    for _ in 0..i.below(4) {
        let n = points.len();
        if n < 2 {
            break;
        }
        let k = i.below(n as u64 - 1) as usize;
        match i.below(5) {
            0 => {
                points.remove(k);
            }
            1 => points.reverse(),
            2 => points.push(between(points[n - 2], points[n - 1], 1.5)),
            _ => points.insert(k + 1, between(points[k], points[k + 1], 0.5)),
        }
    }
    flat(&points)
}

fn comparisons(tally: &mut Tally, i: &mut Inputs) {
    let a = if i.one_in(4) { flat(&i.course(3, false)) } else { i.course_or_string() };
    let b = if i.one_in(4) { i.course_or_string() } else { alike(i, &a) };
    let (mut a_near, mut b_near) = (i.near(&a), i.near(&b));
    if i.one_in(4) {
        let far = i.course(2, false);
        (a_near, b_near) = (flat(&far[..1]), flat(&far[1..]));
    }
    let fa = i.flag();
    let fb = if i.one_in(4) { i.flag() } else { fa };
    for call in [Call::Equals, Call::Overlaps] {
        send(tally, i, Request::new(call, &[&a, &a_near, &b, &b_near]).flags(fa, fb));
    }
}

pub fn run(tally: &mut Tally, n: u64) {
    let mut i = Inputs::new(5);
    while tally.done < n {
        i.long = i.one_in(24);
        simplifies(tally, &mut i);
        inserts(tally, &mut i);
        split_legs(tally, &mut i);
        splits(tally, &mut i);
        // two strings of 1,024 vertices cost a million tests of a point and a leg
        i.long &= i.one_in(24);
        comparisons(tally, &mut i);
        comparisons(tally, &mut i);
    }
}
