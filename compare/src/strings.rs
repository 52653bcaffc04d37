//! Random requests of the calls that build, walk, cross and compare strings.
use crate::calls;
use crate::expected;
use crate::inputs::Inputs;
use crate::lists::{flat, triples};
use crate::margin;
use crate::numbered::vertices;
use crate::request::{Call, Places, Request};
use crate::tally::Tally;

/// compares a request, with other buoys now and then, and with room around its answer
pub fn send(tally: &mut Tally, i: &mut Inputs, r: Request) {
    send_renumbered(tally, i, r, 8);
}

/// the same with each list of buoys another one time in so many
pub fn send_renumbered(tally: &mut Tally, i: &mut Inputs, r: Request, one_in: u64) {
    let r = i.renumbered(r, one_in);
    let expected = expected::result(&r);
    let r = i.roomed(r, &expected);
    tally.request(&r, &expected);
}

fn singles(tally: &mut Tally, i: &mut Inputs) {
    for (call, points) in [(Call::XyzEq, 2), (Call::XyzsCoplanar, 3), (Call::Point, 1)] {
        let a = i.singles(points);
        send(tally, i, Request::new(call, &[&a]));
    }
    let (a, b) = (i.singles(2), i.singles(2));
    send(tally, i, Request::new(Call::Pair, &[&a, &[], &b]));
}

fn moves(tally: &mut Tally, i: &mut Inputs) {
    let (v, flag) = (i.string(), i.flag());
    for call in [Call::Build, Call::BuildFlagged, Call::WalkBack, Call::Restart, Call::Run] {
        let at = i.position(v.len() / 3);
        let to = i.position(v.len() / 3);
        send(tally, i, Request::new(call, &[&v]).flags(flag, 0).at(at, to));
    }
}

fn listings(tally: &mut Tally, i: &mut Inputs) {
    let (a, b, leg, ends) = (i.string(), i.string(), i.singles(2), i.singles(2));
    let (fa, fb) = (i.flag(), i.flag());
    for call in [Call::Crossings, Call::Count] {
        send(tally, i, Request::new(call, &[&a, &[], &b]).flags(fa, fb));
    }
    for (call, list) in [(Call::LegCrossings, &leg), (Call::SameSide, &ends)] {
        send(tally, i, Request::new(call, &[list, &[], &b]).flags(0, fb));
    }
    for call in [Call::CrossingsWithSelf, Call::CrossesSelf] {
        send(tally, i, Request::new(call, &[&a]).flags(fa, 0));
    }
    margin::also(tally, i, margin::Lists { a: &a, b: &b, leg: &leg, flags: [fa, fb] });
}

/// near lists that are the vertices, a part of them, or other points; strings that share vertices
fn relations(tally: &mut Tally, i: &mut Inputs) {
    let (a, mut b) = (i.string(), i.string());
    if i.one_in(3) {
        b = shared(&a, i);
    }
    let (a_near, b_near, p) = (i.near(&a), i.near(&b), i.singles(1));
    let (fa, fb) = (i.flag(), i.flag());
    send(tally, i, Request::new(Call::Along, &[&p, &[], &b, &b_near]).flags(0, fb));
    for call in [Call::Eq, Call::Crosses] {
        send(tally, i, Request::new(call, &[&a, &a_near, &b, &b_near]).flags(fa, fb));
    }
    send(tally, i, Request::new(Call::Within, &[&a, &[], &b, &b_near]).flags(fa, fb));
    send(tally, i, Request::new(Call::Contains, &[&a, &a_near, &b]).flags(fa, fb));
    for call in [Call::TurnOrientations, Call::Midpoints] {
        send(tally, i, Request::new(call, &[&a]).flags(fa, 0));
    }
}

/// a string like another: backwards, with a midpoint put in, or a few vertices of it
fn shared(a: &[f64], i: &mut Inputs) -> Vec<f64> {
    let mut points = triples(a);
    match i.below(3) {
        0 => points.reverse(),
        1 => points.truncate(1 + i.below(points.len() as u64 + 1) as usize),
        _ if points.len() > 1 => {
            let (p, q) = (points[0], points[1]);
            points.insert(1, [0, 1, 2].map(|k| (p[k] + q[k]) / 2.0));
        }
        _ => {}
    }
    flat(&points)
}

/// The counts and the clean points of a listing, by value and without their sequence; none where the call refuses.
fn counts_and_clean_points(mut r: Request) -> Option<(Vec<u64>, Vec<[u64; 3]>)> {
    let second = if r.call == Call::CrossingsWithSelf { 0 } else { 2 };
    let pairs = r.lists[0].len() * r.lists[second].len() / 9;
    r.room = Places { floats: 3 * pairs, bytes: pairs, ..Places::default() };
    let left = calls::answer(&r);
    let kept = left.numbers[0] as usize;
    let by_value = |bits: u64| if bits << 1 == 0 { 0 } else { bits };
    let mut clean: Vec<[u64; 3]> = vec![];
    if left.number == 0 {
        let points = left.floats[..3 * kept].chunks_exact(3).zip(&left.bytes);
        clean.extend(points.filter(|p| *p.1 == 1).map(|p| [by_value(p.0[0]), by_value(p.0[1]), by_value(p.0[2])]));
    }
    clean.sort();
    (left.number == 0).then_some((left.numbers[1..].to_vec(), clean))
}

/// the listing of two held strings
fn crossed([a, b]: &[Request; 2], margin: f64) -> Request {
    Request::new(Call::Crossings, &[&a.lists[0], &[], &b.lists[0]]).flags(a.flags[0], b.flags[0]).margin(margin)
}

/// the vertices of two held strings by their bits, each with its buoy, without their sequence
fn carried(held: &[Request; 2]) -> Vec<([u64; 3], u32)> {
    let mut all: Vec<([u64; 3], u32)> =
        held.iter().flat_map(|r| vertices(&r.lists[0], &r.buoys[0])).map(|(xyz, buoy)| (xyz.map(f64::to_bits), buoy)).collect();
    all.sort();
    all
}

/// The counts and the clean points at one margin after a random list of changes are those before it, refused changes among them, and every
/// vertex has kept its buoy. A string is held as the request of its change.
pub fn changed(tally: &mut Tally, i: &mut Inputs, mut held: [Request; 2], margin: f64) {
    if held[0].lists[0].len() * held[1].lists[0].len() > 90_000 {
        return;
    }
    let before = (counts_and_clean_points(crossed(&held, margin)), carried(&held));
    for _ in 0..i.below(6) {
        let Some(call) = i.points.random.of(&[None, Some(Call::WalkBack), Some(Call::Restart)]) else {
            held.swap(0, 1);
            continue;
        };
        let at = i.position(held[0].lists[0].len() / 3);
        let mut change = Request { call, ..held[0].clone() }.at(at, 0);
        if i.one_in(16) {
            change.buoys[0].pop();
        }
        let change = i.roomed(change.clone(), &expected::result(&change));
        let left = calls::answer(&change);
        if left.number == 0 {
            let (floats, buoys) = (change.lists[0].len(), change.buoys[0].len());
            held[0].lists[0] = left.floats[..floats].iter().map(|x| f64::from_bits(*x)).collect();
            held[0].buoys[0] = left.buoys[..buoys].to_vec();
        }
    }
    if before.0.is_some() {
        let same = before == (counts_and_clean_points(crossed(&held, margin)), carried(&held));
        let kind = if margin == 0.0 { "counts and clean points after changes" } else { "counts and clean points after changes: a margin" };
        tally.compare(kind, same, || crossed(&held, margin).line("after changes"));
    }
}

/// the same of a string with itself, walked backwards
pub fn walked_back(tally: &mut Tally, v: &[f64], margin: f64) {
    let listing = |v: &[f64]| Request::new(Call::CrossingsWithSelf, &[v]).margin(margin);
    if v.len() <= 300 && let Some(before) = counts_and_clean_points(listing(v)) {
        let mut back = triples(v);
        back.reverse();
        let same = counts_and_clean_points(listing(&flat(&back))) == Some(before);
        tally.compare("crossings_with_self: walked backwards", same, || listing(v).line("walked backwards"));
    }
}

pub fn run(tally: &mut Tally, n: u64) {
    let mut i = Inputs::new(3);
    while tally.done < n {
        i.long = i.one_in(500);
        singles(tally, &mut i);
        moves(tally, &mut i);
        listings(tally, &mut i);
        relations(tally, &mut i);
        let held = [0, 1].map(|_| Request::new(Call::WalkBack, &[&i.string()]).flags(i.flag(), 0));
        changed(tally, &mut i, held, 0.0);
    }
}
