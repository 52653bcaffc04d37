//! The test of three points on one leg where its first look, which works out no root, decides narrowly: third points off the plane of the
//! first two by what is around the look's 1e-7 and around the tolerance, planes of short and long vectors, squares around 16, and points
//! beside the ends. As a test of any floats in the vector layer, of points in range, and by way of strings: points on them, strings
//! simplified around the edge of the short lists, points put in and cut at.
use crate::edits::can_be_split;
use crate::inputs::{Inputs, between, unit, within_range};
use crate::lists::flat;
use crate::random::Xyz;
use crate::request::{Call, Request};
use crate::strings;
use crate::tally::Tally;
use crate::vectors;
use sphersgeo::sphericalpoint::{xyz_cross, xyz_dot};

/// how far off the plane, in the size that the look compares or in the distance that the tolerance is held against
const OFF: [f64; 8] = [0.0, 1e-11, 1e-8, 2e-8, 2.5e-8, 1e-7, 2e-7, 1e-3];

/// and how close to that
const BY: [f64; 7] = [0.5, 0.9999999, 1.0 - 2.3e-16, 1.0, 1.0 + 2.3e-16, 1.0000001, 2.0];

/// by how much all three are longer: up to 1 in range; squares around 16 where both first points are of length 2; overflow and underflow
const LONGER: [f64; 10] = [1.0, 0.9, 0.5, 1e-3, 1e-8, 2.0, 1.9999999999, 2.0000000001, 1e3, 1e160];

/// two points, far apart, near each other, around the shortest normals, nearly opposite
pub fn two(i: &mut Inputs) -> (Xyz, Xyz) {
    let points = i.course(2, false);
    let step: f64 = i.points.random.of(&[1.0, 1e-3, 1e-7, 2e-8, 3e-11, -1.0]);
    let near = unit([0, 1, 2].map(|k| step.signum() * points[0][k] + step.abs() * points[1][k]));
    (points[0], if i.one_in(2) { points[1] } else { near })
}

/// a third point between the two, at one, beyond one, opposite, moved off their plane
pub fn third(i: &mut Inputs, (a, b): (Xyz, Xyz)) -> Xyz {
    let t = i.points.random.of(&[0.0, 0.5, 0.25, 1.0, 1.5, -0.5, 1.0000001]);
    let on = if i.one_in(12) { a.map(|x| -x) } else { between(a, b, t) };
    let normal = xyz_cross(&a, &b);
    let square = xyz_dot(&normal, &normal);
    let off = i.points.random.of(&OFF) * i.points.random.of(&BY) * i.points.random.of(&[1.0, -1.0]);
    // c + d * normal lies d * square off in the first size, and d * √square in the second
    let d = if i.one_in(2) { off / square } else { off / square.sqrt() };
    if d.is_finite() { [0, 1, 2].map(|k| on[k] + d * normal[k]) } else { on }
}

fn seen(tally: &mut Tally, a: &Xyz, b: &Xyz, c: &Xyz) {
    let normal = xyz_cross(a, b);
    let (square, off) = (xyz_dot(&normal, &normal), xyz_dot(c, &normal).abs());
    tally.see(match (square <= 16.0, off >= 1e-7) {
        (true, true) => "far off: no root",
        (true, false) if off >= 2e-8 * square.sqrt() => "off the plane by a root",
        (true, false) => "in the plane",
        (false, _) => "a square over 16 or none",
    });
}

fn three_points(tally: &mut Tally, i: &mut Inputs) {
    let (a, b) = two(i);
    let c = third(i, (a, b));
    let longer = i.points.random.of(&LONGER);
    let [a, b, c] = [a, b, c].map(|p| p.map(|x| x * longer));
    // the caller's roles too: what is asked about stands in the second place
    for [a, b, c] in [[a, b, c], [a, c, b], [c, a, b]] {
        seen(tally, &a, &b, &c);
        vectors::coplanar(tally, a, b, c);
    }
    let [a, b, c] = [a, b, c].map(within_range);
    strings::send(tally, i, Request::new(Call::XyzsCoplanar, &[&flat(&[a, b, c])]));
}

/// a course with as many vertices as the short lists hold, and a few fewer or more, and points beside its legs
fn strings(tally: &mut Tally, i: &mut Inputs) {
    let n = if i.one_in(2) { 2 + i.below(6) } else { 62 + i.below(5) };
    let along = i.one_in(2);
    let mut points = i.course(n as usize, along);
    let k = i.below(n - 1) as usize;
    let (flag, (a, b)) = (i.flag(), (points[k], points[k + 1]));
    let p = within_range(third(i, (a, b)));
    let beyond = within_range(third(i, (a, between(a, b, 1.5))));
    let near = i.near(&flat(&points));
    strings::send(tally, i, Request::new(Call::Along, &[&p, &[], &flat(&points), &near]).flags(0, flag));
    for call in [Call::InsertVertices, Call::Split] {
        if can_be_split(&flat(&points)) {
            strings::send(tally, i, Request::new(call, &[&flat(&points), &[], &flat(&[p, beyond])]).flags(flag, 0));
        }
    }
    points[k + 1] = within_range(third(i, (a, b)));
    strings::send(tally, i, Request::new(Call::Simplify, &[&flat(&points)]).flags(flag, 0));
}

pub fn run(tally: &mut Tally, n: u64) {
    let mut i = Inputs::new(11);
    while tally.done < n {
        for _ in 0..4 {
            three_points(tally, &mut i);
        }
        strings(tally, &mut i);
    }
}
