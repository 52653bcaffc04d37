//! Listings and counts where a first look at the side values of a pair of legs decides narrowly: values at zero and next to it, zeros of
//! both signs, subnormal values and products that vanish, rows of legs of which none, some or all need a second look, strings around 64
//! and 1,024 legs, and rooms at and next to the kept points and all pairs.
use crate::classes::{legs, sides};
use crate::expected;
use crate::inputs::{Inputs, between, unit, within_range};
use crate::lists::{flat, triples};
use crate::margin;
use crate::random::Xyz;
use crate::request::{Call, Places, Request};
use crate::small::send;
use crate::tally::Tally;
use sphersgeo::sphericalpoint::xyz_cross;

/// numbers of legs around the edges of a list; a string of 1,024 legs is closed, or refused
const LONG: [usize; 5] = [63, 64, 65, 1023, 1024];

/// how far from a leg a string is woven along it: plainly, by an ulp or two, by what vanishes in products, not at all
const OFF: [f64; 9] = [0.3, 1e-3, 1e-8, 1e-11, 2.3e-16, 1e-60, 1e-160, 5e-324, 0.0];

/// the sides on which a woven string's vertices lie, over and over: every leg crosses, every second one, one in eight, none, or they touch
const WEAVES: [&[f64]; 6] = [&[1.0, -1.0], &[1.0, 1.0, -1.0, -1.0], &[1.0, 1.0, 1.0, 1.0, 1.0, 1.0, 1.0, -1.0], &[1.0], &[1.0, 0.0, -1.0, 0.0], &[0.0]];

// ---- vertices

/// a step of one or two floats in one coordinate
pub fn ulps_off(i: &mut Inputs, mut p: Xyz) -> Xyz {
    let at = i.below(3) as usize;
    let step = i.points.random.of(&[f64::next_up, f64::next_down]);
    p[at] = if i.one_in(2) { step(p[at]) } else { step(step(p[at])) };
    within_range(p)
}

/// n vertices by themselves: unit points, points of one plane of coordinates, grid points, points of every kind, small steps
fn alone(i: &mut Inputs, n: usize) -> Vec<Xyz> {
    let (kind, axis) = (i.below(5), i.below(3) as usize);
    let step = i.points.random.of(&[0.1, 1e-3, 1e-8, 1e-11, 1e-15]);
    let mut points = i.course(n, false);
    let first = points[0];
    for p in &mut points {
        match kind {
            0 => p[axis] = i.points.random.of(&[0.0, -0.0]),
            1 => *p = p.map(|_| i.points.random.of(&[0.0, -0.0, 0.5, -0.5, 1.0, -1.0])),
            2 => *p = i.points.point(),
            3 => *p = within_range([0, 1, 2].map(|k| first[k] + step * p[k])),
            _ => {}
        }
    }
    points
}

/// a vertex at a leg: an end of it, opposite to one, on its great circle, an ulp off that; now and then anywhere
fn at_leg(i: &mut Inputs, (p, q): (Xyz, Xyz)) -> Xyz {
    let t = i.points.random.of(&[-0.5, 0.25, 0.5, 0.75, 1.0, 1.5]);
    let on = within_range(between(p, q, t));
    match i.below(8) {
        0 | 1 => p,
        2 => p.map(|c| -c),
        3 => [0, 1, 2].map(|k| (p[k] + q[k]) / 2.0),
        4 => on,
        5 => ulps_off(i, on),
        6 => ulps_off(i, p),
        _ => i.points.point(),
    }
}

/// n vertices along a leg, on its sides in turn
fn woven(i: &mut Inputs, (p, q): (Xyz, Xyz), n: usize) -> Vec<Xyz> {
    let (off, sides) = (i.points.random.of(&OFF), i.points.random.of(&WEAVES));
    let plane = unit(xyz_cross(&p, &q));
    let mut vertex = |side: &f64| {
        let on = between(p, q, 0.5 + 0.4 * i.points.random.coordinate());
        within_range([0, 1, 2].map(|k| on[k] + side * off * plane[k]))
    };
    sides.iter().cycle().take(n).map(&mut vertex).collect()
}

/// n vertices around the legs of another string
fn beside(i: &mut Inputs, other: &[Xyz], n: usize) -> Vec<Xyz> {
    let legs = legs(other, true);
    let leg = i.points.random.of(&legs);
    match i.below(8) {
        0 => alone(i, n),
        1 => other.iter().copied().cycle().take(n).collect(),
        2..=4 => woven(i, leg, n),
        _ => {
            let mut vertex = |_| {
                let leg = i.points.random.of(&legs);
                at_leg(i, leg)
            };
            (0..n).map(&mut vertex).collect()
        }
    }
}

/// vertices made so short that a product of `factors` coordinates is about the least normal float or the least of all: all, some or none
fn shrunk(i: &mut Inputs, mut points: Vec<Xyz>, factors: u64) -> Vec<Xyz> {
    let mut scale = || 0.5f64.powi(((1000 + i.below(90)) / factors) as i32);
    let (all, some) = (scale(), scale());
    let kind = i.below(8);
    for p in &mut points {
        match kind {
            0 => *p = p.map(|c| c * all),
            1 if i.one_in(2) => *p = p.map(|c| c * some),
            _ => {}
        }
    }
    points
}

// ---- strings and rooms

/// the legs of two strings, or of one with itself: mostly few; each long size by itself and each two of them in turn; long ones with few
fn sizes(i: &mut Inputs, turn: usize) -> (usize, Option<usize>) {
    let (round, few) = (turn / 8000, 1 + i.below(6) as usize);
    match (turn % 8000, i.below(16384)) {
        (0, _) => (LONG[round % 5], Some(LONG[round / 5 % 5])),
        (4000, _) => (LONG[round % 5], None),
        (_, 0..8) => (i.points.random.of(&LONG[3..]), Some(few)),
        (_, 8..24) => (i.points.random.of(&LONG[..3]), Some(i.points.random.of(&LONG[..3]))),
        (_, 24..128) => (i.points.random.of(&LONG[..3]), Some(few)),
        (_, 128..1024) => (few, None),
        _ => (few, Some(1 + i.below(6) as usize)),
    }
}

/// a flag for a string of so many legs; of an open string of 1,024 legs, which is refused, only one now and then
fn flag(i: &mut Inputs, legs: usize) -> u8 {
    if legs == 1024 && !i.one_in(8) { 1 } else { i.flag() }
}

/// room for points, in floats, and for marks: none; for the kept points and for all pairs, each exactly, a float short of a point
/// and a mark short; for the one in points and for the other in marks; far more than either
fn rooms(kept: usize, pairs: usize) -> Vec<(usize, usize)> {
    let mut rooms = vec![(0, 0), (3 * kept, pairs), (3 * pairs, kept), (6 * pairs + 99, 2 * pairs + 33)];
    for n in [kept, pairs] {
        rooms.push((3 * n, n));
        if n > 0 {
            rooms.extend([(3 * n - 1, n), (3 * n, n - 1)]);
        }
    }
    rooms.sort();
    rooms.dedup();
    rooms
}

/// a listing, with every room, or with one room in three where it has very many pairs
fn listed(tally: &mut Tally, i: &mut Inputs, mut r: Request) {
    let expected = expected::result(&r);
    let (kept, pairs) = expected.as_ref().map_or((1, 2), |a| (a.bytes.len(), a.numbers[1..].iter().sum::<u64>() as usize));
    for (floats, bytes) in rooms(kept, pairs) {
        if pairs < 100_000 || i.one_in(3) {
            r.room = Places { floats, bytes, ..Places::default() };
            tally.request(&r, &expected);
        }
    }
}

// ---- what the inputs held

/// by the zeros among its side values, and by their signs where none is zero
fn kind_of_pair(sides: [f64; 4]) -> &'static str {
    let zeros = |sign: bool| sides.iter().any(|s| *s == 0.0 && s.is_sign_negative() == sign);
    match (zeros(false), zeros(true)) {
        _ if sides == [0.0; 4] => "pair of legs: side values all zero",
        (true, true) => "pair of legs: side values zero of both signs",
        (true, false) => "pair of legs: a side value +0",
        (false, true) => "pair of legs: a side value -0",
        _ if plainly_apart(sides) => "pair of legs: no side value zero, both signs",
        _ => "pair of legs: no side value zero, one sign",
    }
}

/// what a first look sees, with no second one: no side value is zero, and they have both signs
fn plainly_apart(sides: [f64; 4]) -> bool {
    !sides.contains(&0.0) && sides.iter().any(|s| *s > 0.0) && sides.iter().any(|s| *s < 0.0)
}

/// counts the pairs of two strings' legs by their side values, and the first one's rows by how many of their pairs are plainly apart
fn see(tally: &mut Tally, a: &[f64], a_closed: bool, b: &[f64], b_closed: bool) {
    let (first, second) = (legs(&triples(a), a_closed), legs(&triples(b), b_closed));
    for (role, n, closed) in [("first", first.len(), a_closed), ("second", second.len(), b_closed)] {
        if LONG.contains(&n) {
            tally.see(&format!("string of {n:>4} legs, {role}, {}", if closed { "closed" } else { "open" }));
        }
    }
    for l in first {
        let mut apart = 0;
        for s in second.iter().map(|m| sides(l, *m)) {
            apart += plainly_apart(s) as usize;
            tally.see(kind_of_pair(s));
            if s.iter().any(|x| x.is_subnormal()) {
                tally.see("pairs with a subnormal side value");
            }
            let greatest = s.iter().fold(0.0, |m: f64, x| m.max(x.abs()));
            if s.iter().any(|x| *x != 0.0 && x.abs() < 1e-12 * greatest) {
                tally.see("pairs with a side value next to zero");
            }
        }
        tally.see(match apart {
            0 => "row of pairs: none plainly apart",
            n if n == second.len() => "row of pairs: all plainly apart",
            _ => "row of pairs: some plainly apart",
        });
    }
}

// ---- requests

/// two strings with their flags, the second laid out beside the first or the other way round
pub fn strings(i: &mut Inputs, turn: usize) -> [(Vec<f64>, u8); 2] {
    let (n, m) = sizes(i, turn);
    let factors = i.points.random.of(&[1, 2, 3, 4, 5, 5, 7, 7]);
    let fa = flag(i, n);
    let a = alone(i, n + (fa == 0) as usize);
    let first = (flat(&shrunk(i, a.clone(), factors)), fa);
    let Some(m) = m else {
        return [first.clone(), first];
    };
    let fb = flag(i, m);
    let b = beside(i, &a, m + (fb == 0) as usize);
    let second = (flat(&shrunk(i, b, factors)), fb);
    if turn % 2 == 0 { [first, second] } else { [second, first] }
}

fn requests(tally: &mut Tally, i: &mut Inputs, turn: usize) {
    let [(a, fa), (b, fb)] = strings(i, turn);
    let two = |call: Call| Request::new(call, &[&a, &a, &b, &b]).flags(fa, fb);
    let start = 3 * i.below(a.len() as u64 / 3) as usize;
    let leg: Vec<f64> = a.iter().copied().cycle().skip(start).take(6).collect();
    if a.len().max(b.len()) <= 3 * 1024 {
        see(tally, &a, fa != 0, &b, fb != 0);
    }
    listed(tally, i, two(Call::Crossings));
    send(tally, two(Call::Count));
    send(tally, two(Call::Crosses));
    listed(tally, i, Request::new(Call::LegCrossings, &[&leg, &[], &b]).flags(0, fb));
    send(tally, Request::new(Call::SameSide, &[&leg, &[], &b]).flags(0, fb));
    listed(tally, i, Request::new(Call::CrossingsWithSelf, &[&a]));
    send(tally, Request::new(Call::CrossesSelf, &[&a]).flags(fa, 0));
    margin::also(tally, i, margin::Lists { a: &a, b: &b, leg: &leg, flags: [fa, fb] });
}

pub fn run(tally: &mut Tally, n: u64) {
    let mut i = Inputs::new(11);
    let mut turn = 0;
    while tally.done < n {
        requests(tally, &mut i, turn);
        turn += 1;
    }
}
