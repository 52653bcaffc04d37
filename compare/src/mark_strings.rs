//! Strings and marks for them: legs of any angle, and legs that lie on each other, so that a mark is on several; marks beside the legs, at
//! vertices, and beside what earlier marks leave of a leg; results around 1,024 points.
use crate::classes::legs;
use crate::inputs::{Inputs, between};
use crate::mark_points::{beside, next, on_one_circle};
use crate::random::Xyz;

fn length(i: &mut Inputs) -> usize {
    match i.below(16) {
        _ if i.long => 1016 + i.below(9) as usize,
        0 => 1,
        1..4 => 2,
        4 => 3,
        5 => 62 + i.below(5) as usize,
        _ => 2 + i.below(8) as usize,
    }
}

/// a course, points of every kind, vertices at any angle from each other or on one great circle, a way back, a way gone twice
pub fn string(i: &mut Inputs) -> Vec<Xyz> {
    let (n, kind) = (length(i), i.below(8));
    let mut points = i.course(n, kind == 0);
    match kind {
        1 => (0..n).for_each(|k| points[k] = i.points.point()),
        2 | 3 => (1..n).for_each(|k| points[k] = next(i, points[k - 1])),
        4 => points = on_one_circle(i, n),
        5 => (n / 2..n).for_each(|k| points[k] = points[n - 1 - k]),
        6 => (n / 2..n).for_each(|k| points[k] = points[k - n / 2]),
        _ => {}
    }
    points
}

/// marks beside legs of the string, beside the two legs that an earlier mark makes of one, at vertices and earlier marks, and elsewhere
pub fn marks(i: &mut Inputs, v: &[Xyz]) -> Vec<Xyz> {
    let (mut ends, mut marks) = (legs(v, true), vec![]);
    let count = match i.below(8) {
        0 => 0,
        1..4 => 1,
        4 if v.len() < 16 => 8 + i.below(24),
        _ => 2 + i.below(5),
    };
    for _ in 0..count {
        let (a, b) = ends[i.below(ends.len() as u64) as usize];
        let mark = match i.below(16) {
            0 | 1 => a,
            2 if !marks.is_empty() => marks[i.below(marks.len() as u64) as usize],
            3 => i.points.point(),
            4..8 => between(a, b, i.points.random.coordinate().abs()),
            _ => beside(i, (a, b)),
        };
        ends.extend([(a, mark), (mark, b)]);
        marks.push(mark);
    }
    marks
}

/// A string, its flag, and marks on its legs and at its start, after which all pieces together have around 1,024 points: few cuts of a
/// long string, or none, or many of a short one. Every second string is a few points over and over, so that it makes a short line.
pub fn around_the_limit(i: &mut Inputs) -> (Vec<Xyz>, u8, Vec<Xyz>) {
    let (flag, cuts) = (i.below(2) as usize, if i.one_in(2) { i.below(5) } else { 505 + i.below(4) } as usize);
    let n = (1022 + i.below(5) as usize - flag - 2 * cuts).min(1024);
    let few = if i.one_in(2) { 2 + i.below(2) as usize } else { n };
    let v: Vec<Xyz> = i.course(few.min(n), false).into_iter().cycle().take(n).collect();
    let mut mark = |_| {
        let k = i.below(n as u64 - 1) as usize;
        between(v[k], v[k + 1], 0.5 + 0.45 * i.points.random.coordinate())
    };
    let mut marks: Vec<Xyz> = (0..cuts).map(&mut mark).collect();
    marks.insert(i.below(cuts as u64 + 1) as usize, v[0]);
    (v, flag as u8, marks)
}
