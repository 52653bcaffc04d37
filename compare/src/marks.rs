//! Random requests of the calls on marks: legs and marks around everything that decides the test; strings cut in any piece, at vertices,
//! at earlier marks and at their ends; every room around the answer; several causes of a refusal at a time.
use crate::classes::Leg;
use crate::expected;
use crate::expected_mark::{Fate, Place, cut, opened, place};
use crate::inputs::Inputs;
use crate::lists::{flat, triples};
use crate::mark_laws::{at_one, backwards, by_leg, by_legs, by_string, of_pieces, to_cut};
use crate::mark_points::{beside, narrow};
use crate::mark_strings::{around_the_limit, marks, string};
use crate::numbered::{Vertex, vertices};
use crate::random::Xyz;
use crate::request::{Call, Places, Request};
use crate::strings::send;
use crate::tally::Tally;
use sphersgeo::sphericalpoint::{xyz_abs, xyz_add_xyz, xyz_cross, xyz_dot, xyz_eq, xyz_sub_xyz, xyz_sum, xyzs_coplanar};

// ---- a mark and a leg

/// counts where a mark and its neighbour have another verdict
fn see_neighbours(tally: &mut Tally, two: &[(Leg, Xyz); 2]) {
    let [one, other] = two.map(|((start, end), mark)| place(&start, &end, &mark));
    if one.holds() != other.holds() {
        let (yes, no) = if one.holds() { (one, other) } else { (other, one) };
        tally.see(&format!("neighbours: {}; {}", yes.name(), no.name()));
    }
}

/// counts what the inherited test says, and which comparisons are of equals
fn see_leg(tally: &mut Tally, (start, end): Leg, mark: Xyz) {
    tally.see(match (xyzs_coplanar(&start, &mark, &end), place(&start, &end, &mark).holds()) {
        (false, false) => "legs: both tests say no",
        (true, false) => "legs: the inherited test alone says yes",
        (false, true) => "legs: the new test alone says yes",
        (true, true) => "legs: both tests say yes",
    });
    let (normal, ends) = (xyz_cross(&start, &end), xyz_dot(&start, &end));
    let length = xyz_dot(&normal, &normal).sqrt();
    let equal = [
        ("equal: the normal's length and 2e-8", length == 2e-8),
        ("equal: start . end and -1 + 2e-8", ends == -1.0 + 2e-8),
        ("equal: the distance off the plane and 2e-8", xyz_dot(&mark, &normal).abs() / length == 2e-8),
        ("equal: mark . start and start . end", xyz_dot(&mark, &start) == ends),
        ("equal: mark . end and start . end", xyz_dot(&mark, &end) == ends),
        ("equal: mark . (start + end) and 0", xyz_dot(&mark, &xyz_add_xyz(&start, &end)) == 0.0),
        ("equal: differences to an end and 3e-11", [start, end].iter().any(|e| xyz_sum(&xyz_abs(&xyz_sub_xyz(&mark, e))) == 3e-11)),
    ];
    equal.iter().filter(|e| e.1).for_each(|e| tally.see(e.0));
}

/// a leg by itself, backwards, and as a string; now and then cut at the mark and at another one
fn on_leg(tally: &mut Tally, i: &mut Inputs) {
    let two = narrow(i);
    see_neighbours(tally, &two);
    for (leg, mark) in two {
        see_leg(tally, leg, mark);
        backwards(tally, leg, mark);
        send(tally, i, by_leg(leg, mark));
        let (v, flag) = ([leg.0, leg.1], i.flag());
        send(tally, i, by_string(mark, &v, flag));
        if i.one_in(4) {
            let second = beside(i, leg);
            cuts(tally, i, to_cut(&v, flag, &[mark, second]));
        }
    }
}

fn on_string(tally: &mut Tally, i: &mut Inputs, v: &[Xyz], marks: &[Xyz]) {
    for mark in marks.iter().take(3) {
        let flag = i.flag();
        send(tally, i, by_string(*mark, v, flag));
        by_legs(tally, *mark, v, flag);
        at_one(tally, *mark, v, flag);
    }
}

// ---- cuts

/// counts what becomes of the points of a cut that is not refused
fn see(tally: &mut Tally, r: &Request) {
    let closed = r.flags[0] != 0;
    let (v, points) = (vertices(&r.lists[0], &r.buoys[0]), vertices(&r.lists[2], &r.buoys[1]));
    let one = opened(v.clone(), closed);
    for (fate, point) in cut(v, closed, &points).map_or(vec![], |cut| cut.fates).iter().zip(&points) {
        tally.see(match fate {
            Fate::Nowhere => "points: on no leg",
            Fate::AtPieceStart => "points: at the start of the string",
            Fate::AtPieceEnd if xyz_eq(&one[one.len() - 1].0, &point.0) => "points: at the end of the string",
            Fate::AtPieceEnd => "points: at an earlier cut",
            Fate::Cut { place: Place::Inside, piece: 0, .. } => "points: cut inside a leg, the first piece",
            Fate::Cut { place: Place::Inside, .. } => "points: cut inside a leg, a later piece",
            Fate::Cut { piece: 0, .. } => "points: cut at a vertex, the first piece",
            Fate::Cut { .. } => "points: cut at a vertex, a later piece",
        });
        if let Fate::Cut { piece, leg, .. } = fate {
            see_cut(tally, &one, point, closed && *piece == 0 && leg + 2 == one.len());
        }
    }
}

fn see_cut(tally: &mut Tally, one: &[Vertex], point: &Vertex, closing: bool) {
    if one.windows(2).filter(|ends| place(&ends[0].0, &ends[1].0, &point.0).holds()).count() > 1 {
        tally.see("points: cut, and on several legs of the string");
    }
    if closing {
        tally.see("points: cut in the closing leg of a whole string");
    }
}

/// each buffer by itself shorter than the answer, and longer; the others of its length
fn rooms(tally: &mut Tally, mut r: Request) {
    let expected = expected::result(&r);
    let needed = expected.as_ref().map_or(Places::default(), |answer| answer.needed(r.call));
    let around = |n: usize| [0, n.saturating_sub(1), n + 1];
    let floats = around(needed.floats).map(|floats| Places { floats, ..needed });
    let buoys = around(needed.buoys).map(|buoys| Places { buoys, ..needed });
    let numbers = around(needed.numbers).map(|numbers| Places { numbers, ..needed });
    for room in [floats, buoys, numbers].concat() {
        r.room = room;
        tally.request(&r, &expected);
    }
}

fn cuts(tally: &mut Tally, i: &mut Inputs, r: Request) {
    see(tally, &r);
    of_pieces(tally, r.clone());
    if i.one_in(4) {
        rooms(tally, r.clone());
    }
    send(tally, i, r);
}

// ---- refusals

/// each of these one time in three: over 1,024 points, a coordinate out of range, not whole triples or empty
fn damage(i: &mut Inputs, list: &mut Vec<f64>) {
    if i.one_in(3) {
        let n = 3 * (1024 + i.below(3) as usize);
        *list = list.iter().copied().cycle().take(n).collect();
    }
    if i.one_in(3) {
        out_of_range(i, list);
    }
    if i.one_in(3) {
        let fewer = i.points.random.of(&[1, 2, list.len()]);
        list.truncate(list.len().saturating_sub(fewer));
    }
}

fn out_of_range(i: &mut Inputs, list: &mut [f64]) {
    if !list.is_empty() {
        list[i.below(list.len() as u64) as usize] = i.points.random.of(&[f64::NAN, f64::INFINITY, -f64::INFINITY, 1.0000000000000002, -1.5]);
    }
}

/// for how many refusals a list and its buoys give cause
fn causes(list: &[f64], empty: bool, buoys: &[u32]) -> usize {
    let outside = list.iter().any(|x| !(-1.0..=1.0).contains(x));
    [empty || list.len() % 3 != 0, buoys.len() != list.len() / 3, list.len() > 3072, outside].into_iter().filter(|cause| *cause).count()
}

/// several things wrong at once in either list, and in their buoys, so that the sequence of the refusals shows
fn damaged(tally: &mut Tally, i: &mut Inputs, v: &[Xyz], marks: &[Xyz]) {
    let (mut v, mut points, mut mark, flag) = (flat(v), flat(marks), i.singles(1), i.flag());
    if i.one_in(2) {
        damage(i, &mut v);
    }
    damage(i, &mut points);
    if i.one_in(2) {
        out_of_range(i, &mut mark);
    }
    let r = i.renumbered(Request::new(Call::CutAtMarks, &[&v, &[], &points]).flags(flag, 0), 2);
    let causes = causes(&v, v.is_empty(), &r.buoys[0]) + causes(&points, false, &r.buoys[1]);
    tally.see(&format!("refusals: lists of a cut with {causes} causes of one"));
    send(tally, i, r);
    send(tally, i, Request::new(Call::MarkOnString, &[&mark, &[], &v]).flags(0, flag));
    let (leg, mark) = (i.singles(2), i.singles(1));
    send(tally, i, Request::new(Call::MarkOnLeg, &[&leg, &[], &mark]));
}

pub fn run(tally: &mut Tally, n: u64) {
    let mut i = Inputs::new(23);
    while tally.done < n {
        i.long = i.one_in(400);
        on_leg(tally, &mut i);
        on_leg(tally, &mut i);
        let v = if i.long && i.one_in(4) { triples(&i.cycle()) } else { string(&mut i) };
        let marks = marks(&mut i, &v);
        damaged(tally, &mut i, &v, &marks);
        if v.len() <= 1024 {
            on_string(tally, &mut i, &v, &marks);
            let r = to_cut(&v, i.flag(), &marks);
            cuts(tally, &mut i, r);
        }
        if i.one_in(200) {
            let (v, flag, marks) = around_the_limit(&mut i);
            cuts(tally, &mut i, to_cut(&v, flag, &marks));
        }
    }
}
