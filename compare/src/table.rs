//! docs/TERMS.md's table of refusals, read independently of the proved library: the list checks of each call, in number
//! order within a list but for 10, which comes right after 1, the lists in the sequence that it gives, and the margin after them.
use crate::request::{Call, Request};

const MOST: usize = 3 * 1024;

fn first(checks: &[(bool, u32)]) -> u32 {
    checks.iter().find(|c| c.0).map_or(0, |c| c.1)
}

fn in_turn(numbers: &[u32]) -> u32 {
    numbers.iter().copied().find(|n| *n != 0).unwrap_or(0)
}

fn outside(list: &[f64]) -> bool {
    list.iter().any(|x| !(-1.0..=1.0).contains(x))
}

/// points or a leg by themselves
fn single(list: &[f64]) -> u32 {
    first(&[(outside(list), 4)])
}

/// a list of points: not whole triples, or empty where it may not be; the buoys lent for it, if any, not as many; too few points; too
/// many; a coordinate out of range
fn points(v: &[f64], empty: bool, buoys: Option<&[u32]>, few: bool) -> u32 {
    let unlike = buoys.is_some_and(|b| b.len() != v.len() / 3);
    first(&[(v.len() % 3 != 0 || empty, 1), (unlike, 10), (few, 2), (v.len() > MOST, 3), (outside(v), 4)])
}

fn stored(v: &[f64]) -> u32 {
    points(v, v.is_empty(), None, false)
}

fn stored_with(v: &[f64], buoys: &[u32]) -> u32 {
    points(v, v.is_empty(), Some(buoys), false)
}

fn extra(list: &[f64]) -> u32 {
    points(list, false, None, false)
}

fn extra_with(list: &[f64], buoys: &[u32]) -> u32 {
    points(list, false, Some(buoys), false)
}

fn to_build(v: &[f64], buoys: &[u32]) -> u32 {
    points(v, false, Some(buoys), v.len() < 6)
}

fn to_halve(v: &[f64], closed: bool) -> u32 {
    points(v, v.is_empty(), None, !closed && v.len() == 3)
}

pub fn margin(margin: f64) -> u32 {
    first(&[(margin < 0.0 || margin.is_nan() || margin.is_infinite(), 9)])
}

/// the number of the first check that refuses, 0 where none does
pub fn refusal(r: &Request) -> u32 {
    let ([a, a_near, b, b_near], [a_buoys, b_buoys]) = (&r.lists, &r.buoys);
    match r.call {
        Call::XyzEq | Call::XyzsCoplanar | Call::Point => single(a),
        Call::Pair | Call::MarkOnLeg => in_turn(&[single(a), single(b)]),
        Call::Build | Call::BuildFlagged => to_build(a, a_buoys),
        Call::WalkBack | Call::Restart | Call::Simplify => stored_with(a, a_buoys),
        Call::CrossesSelf | Call::TurnOrientations => stored(a),
        Call::CrossingsWithSelf => in_turn(&[stored(a), margin(r.margin)]),
        Call::Run => 0,
        Call::SameSide => in_turn(&[single(a), stored(b)]),
        Call::LegCrossings => in_turn(&[single(a), stored(b), margin(r.margin)]),
        Call::Crossings | Call::Count => in_turn(&[stored(a), stored(b), margin(r.margin)]),
        Call::Midpoints => to_halve(a, r.flags[0] != 0),
        Call::Along => in_turn(&[stored(b), stored(b_near), single(a)]),
        Call::MarkOnString => in_turn(&[stored(b), single(a)]),
        Call::InsertVertices | Call::Split | Call::CutAtMarks => in_turn(&[stored_with(a, a_buoys), extra_with(b, b_buoys)]),
        Call::SplitLeg => in_turn(&[single(a), extra(b)]),
        Call::Eq | Call::Equals | Call::Crosses | Call::Overlaps => in_turn(&[stored(a), stored(a_near), stored(b), stored(b_near)]),
        Call::Within => in_turn(&[stored(a), stored(b), stored(b_near)]),
        Call::Contains => in_turn(&[stored(a), stored(a_near), stored(b)]),
    }
}
