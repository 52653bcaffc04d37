//! What simplify, insert_vertices, the splits, equals and overlaps are to answer for accepted lists: the published Rust's results, its
//! panics as the refusals 5 and 6, and the 3 of a result, which the published Rust does not have: the points are given a few more at
//! a time, and the first result over 1,024 points ends it, since no cut and no insertion makes a result shorter. The buoys come with the
//! vertices of `numbered`, which must be the published ones.
use crate::answers::{Answer, Expected, string, uncut, verdict};
use crate::calls::bits;
use crate::lists::{flat, triples};
use crate::numbered::{self, Numbered, Vertex};
use crate::random::Xyz;
use crate::request::{Call, Request};
use crate::stored::{both, stored};
use sphersgeo::arcstring::{ArcString, split_arc_at_points, split_arcstring_at_points};
use sphersgeo::geometry::GeometricRelationships;
use sphersgeo::sphericalpoint::SphericalPoint;
use std::cell::Cell;
use std::panic::{AssertUnwindSafe, catch_unwind, resume_unwind};

pub fn accepted(r: &Request) -> Expected {
    let ([a, _, b, _], closed) = (&r.lists, r.flags[0] != 0);
    let (v, points) = (|| numbered::vertices(a, &r.buoys[0]), || numbered::vertices(b, &r.buoys[1]));
    match r.call {
        Call::Simplify => simplify(a, closed, v()),
        Call::InsertVertices => insert_vertices(a, closed, v(), &points()),
        Call::SplitLeg => split_leg(a, b),
        Call::Split => split(a, (v(), closed), &points()),
        Call::Equals => published(|| both(r).0.equals(&both(r).1)).map(verdict),
        _ => published(|| both(r).0.overlaps(&both(r).1)).map(verdict),
    }
}

// ---- panics

thread_local! {
    static EXPECTED: Cell<bool> = const { Cell::new(false) };
}

/// Panics of the published Rust are answers here and print nothing; any other panic prints as usual.
pub fn quiet_panics() {
    let usual = std::panic::take_hook();
    std::panic::set_hook(Box::new(move |info| {
        if !EXPECTED.get() {
            usual(info);
        }
    }));
}

/// what the published call gives, or the refusal's number of its panic
fn published<T>(call: impl FnOnce() -> T) -> Result<T, u32> {
    EXPECTED.set(true);
    let result = catch_unwind(AssertUnwindSafe(call));
    EXPECTED.set(false);
    result.map_err(|panic| {
        let words = panic.downcast_ref::<String>().cloned().or_else(|| panic.downcast_ref::<&str>().map(|s| s.to_string())).unwrap_or_default();
        if words.contains("removal index") {
            5
        } else if words.contains("index out of bounds") {
            6
        } else {
            resume_unwind(panic)
        }
    })
}

// ---- simplify and insert

/// the vertices with their buoys, which must be the published ones
fn carried(v: &[Vertex], published: &[Xyz]) -> Answer {
    let answer = string(v);
    assert_eq!(bits(&answer.floats), bits(&flat(published)), "the vertices that carry buoys are the published ones");
    answer
}

fn simplify(a: &[f64], closed: bool, mut v: Vec<Vertex>) -> Expected {
    let mut s = stored(a, a, closed);
    published(|| s.simplify())?;
    numbered::simplify(&mut v, closed);
    Ok(carried(&v, &s.points.xyzs))
}

fn insert_vertices(a: &[f64], closed: bool, mut v: Vec<Vertex>, points: &[Vertex]) -> Expected {
    let mut s = stored(a, a, closed);
    for point in points {
        s.insert_vertices(&vec![&SphericalPoint { xyz: point.0 }]);
        if s.points.xyzs.len() > 1024 {
            return Err(3);
        }
        numbered::insert(&mut v, closed, *point);
    }
    Ok(carried(&v, &s.points.xyzs))
}

// ---- splits

/// the pieces of a split at all points, or 3 where those at the first few of them have over 1,024 points
fn pieces<T>(points: &[Xyz], few: usize, split: impl Fn(&[Xyz]) -> Vec<T>, size: impl Fn(&T) -> usize) -> Result<Vec<T>, u32> {
    let over = |all: &[T]| all.iter().map(&size).sum::<usize>() > 1024;
    for n in (few..points.len()).step_by(few) {
        if over(&split(&points[..n])) {
            return Err(3);
        }
    }
    let all = split(points);
    if over(&all) { Err(3) } else { Ok(all) }
}

fn split_leg(leg: &[f64], extra: &[f64]) -> Expected {
    let ends = triples(leg);
    let split = |points: &[Xyz]| -> Vec<[Xyz; 2]> {
        split_arc_at_points(vec![&ends[0], &ends[1]], points.iter().collect()).iter().map(|l| [*l[0], *l[1]]).collect()
    };
    // a point at most doubles the legs
    let legs = pieces(&triples(extra), 6, split, |_| 2)?;
    if legs.len() == 1 {
        return Ok(uncut());
    }
    let floats = legs.iter().flatten().flatten().copied().collect();
    Ok(Answer { floats, numbers: vec![legs.len() as u64], ..Answer::default() })
}

fn split(a: &[f64], string: Numbered, points: &[Vertex]) -> Expected {
    let split = |points: &[Xyz]| split_arcstring_at_points(&stored(a, a, string.1), points.iter().collect()).arcstrings;
    let strings: Vec<ArcString> = pieces(&numbered::xyzs(points), 1, split, |s| s.points.xyzs.len())?;
    if strings.len() == 1 {
        return Ok(uncut());
    }
    let shape: Vec<(usize, bool)> = strings.iter().map(|s| (s.points.xyzs.len(), s.closed)).collect();
    let carrying = numbered::split(string, points);
    assert_eq!(carrying.iter().map(|s| (s.0.len(), s.1)).collect::<Vec<_>>(), shape, "the pieces that carry buoys are the published ones");
    let vertices: Vec<Vertex> = carrying.into_iter().flat_map(|s| s.0).collect();
    let xyzs: Vec<Xyz> = strings.into_iter().flat_map(|s| s.points.xyzs).collect();
    let mut numbers = vec![shape.len() as u64];
    numbers.extend(shape.iter().map(|s| s.0 as u64));
    Ok(Answer { bytes: shape.iter().map(|s| s.1 as u8).collect(), numbers, ..carried(&vertices, &xyzs) })
}
