//! What each call is to answer: the refusals from `table`, the results from the published Rust, and from both what every place that
//! was lent is to hold. The published listings say which points are kept; the classes are worked out in `classes`, the buoys that go with
//! a string's vertices in `numbered`. The calls on marks, which the published Rust does not have, are read in `expected_mark`.
use crate::answers::{Answer, Expected, string, verdict, vertices};
use crate::calls::{BLANK, BLANK_BUOY, BLANK_BYTE, BLANK_NUMBER, Left, bits};
use crate::classes::{self, Leg, legs};
use crate::expected_edit as edit;
use crate::expected_mark as mark;
use crate::lists::{flat, triples};
use crate::numbered::{self, Vertex};
use crate::random::Xyz;
use crate::request::{Call, Request};
use crate::stored::{both, stored};
use crate::table;
use sphersgeo::arcstring::{ArcString, arc_crossings_with_arcstring, arcs_crossing, point_is_along_arcstring, points_are_on_same_side, xyzs_turn_orientations};
use sphersgeo::geometry::GeometricRelationships;
use sphersgeo::sphericalpoint as published;

pub fn result(r: &Request) -> Expected {
    match table::refusal(r) {
        0 => match r.call {
            Call::Simplify | Call::InsertVertices | Call::SplitLeg | Call::Split | Call::Equals | Call::Overlaps => edit::accepted(r),
            Call::MarkOnLeg | Call::MarkOnString | Call::CutAtMarks => mark::accepted(r),
            _ => Ok(accepted(r)),
        },
        number => Err(number),
    }
}

/// What every place is to hold: 7 where the answer is longer than a buffer, blanks wherever nothing is written.
pub fn left(r: &Request, expected: &Expected) -> Left {
    let places = r.places();
    let mut left = Left {
        number: 0,
        floats: bits(&vec![BLANK; places.floats]),
        buoys: vec![BLANK_BUOY; places.buoys],
        bytes: vec![BLANK_BYTE; places.bytes],
        numbers: vec![BLANK_NUMBER; places.numbers],
    };
    let answer = match expected {
        Ok(answer) => answer,
        Err(number) => return Left { number: *number, ..left },
    };
    if !answer.needed(r.call).fit(r.room) {
        return Left { number: 7, ..left };
    }
    left.floats[..answer.floats.len()].copy_from_slice(&bits(&answer.floats));
    left.buoys[..answer.buoys.len()].copy_from_slice(&answer.buoys);
    left.bytes[..answer.bytes.len()].copy_from_slice(&answer.bytes);
    left.numbers[..answer.numbers.len()].copy_from_slice(&answer.numbers);
    left
}

// ---- what the published Rust gives for accepted lists

fn accepted(r: &Request) -> Answer {
    let [a, _, b, _] = &r.lists;
    let (closed, [from, to]) = (r.flags[0] != 0, r.at);
    let (p, v) = (triples(a), || numbered::vertices(a, &r.buoys[0]));
    match r.call {
        Call::XyzEq => verdict(published::xyz_eq(&p[0], &p[1])),
        Call::XyzsCoplanar => verdict(published::xyzs_coplanar(&p[0], &p[1], &p[2])),
        Call::Point => Answer { floats: published::SphericalPoint::from(p[0]).xyz.to_vec(), ..Answer::default() },
        Call::Build => build(&v(), None),
        Call::BuildFlagged => build(&v(), Some(closed)),
        Call::WalkBack => string(&v().into_iter().rev().collect::<Vec<Vertex>>()),
        Call::Restart => restarted(v(), closed, from),
        Call::Run => run(a, from, to),
        Call::Pair => pair((p[0], p[1]), (triples(b)[0], triples(b)[1])),
        Call::TurnOrientations => {
            let turns = xyzs_turn_orientations(&p, closed);
            Answer { numbers: vec![turns.len() as u64], floats: turns, ..Answer::default() }
        }
        Call::Midpoints => vertices(&stored(a, a, closed).midpoints().xyzs),
        _ => of_strings(r, &p),
    }
}

fn of_strings(r: &Request, p: &[Xyz]) -> Answer {
    let (s, t) = both(r);
    match r.call {
        Call::LegCrossings => listing(r, &[(p[0], p[1])], &t),
        Call::Crossings => listing(r, &legs(p, s.closed), &t),
        Call::Count => counted(listing(r, &legs(p, s.closed), &t)),
        Call::CrossingsWithSelf => listed(r, &s.crossings_with_self().map_or(vec![], |k| k.xyzs)),
        Call::CrossesSelf => verdict(s.crosses_self()),
        Call::SameSide => verdict(points_are_on_same_side(&p[0], &p[1], &t)),
        Call::Along => verdict(point_is_along_arcstring(&p[0], &t)),
        Call::Eq => verdict(s == t),
        Call::Crosses => verdict(s.crosses(&t)),
        Call::Within => verdict(s.within(&t)),
        _ => verdict(s.contains(&t)),
    }
}

fn build(points: &[Vertex], flag: Option<bool>) -> Answer {
    let (v, closed) = numbered::build(points, flag);
    let bytes = if flag.is_none() { vec![closed as u8] } else { vec![] };
    Answer { bytes, ..string(&v) }
}

fn restarted(mut v: Vec<Vertex>, closed: bool, at: usize) -> Answer {
    if closed && at < v.len() {
        v.rotate_left(at);
    }
    string(&v)
}

fn run(v: &[f64], from: usize, to: usize) -> Answer {
    let whole = v.len() % 3 == 0 && from < to && to <= v.len() / 3;
    Answer { numbers: if whole { vec![3 * from as u64, 3 * (to - from) as u64] } else { vec![0, 0] }, ..Answer::default() }
}

/// the published point, and whether the published listing of the first leg with the second keeps one; the class is docs/TERMS.md's, at
/// margin 0
fn pair(a: Leg, b: Leg) -> Answer {
    let point = arcs_crossing((&a.0, &a.1), (&b.0, &b.1));
    let second = flat(&[b.0, b.1]);
    let kept = arc_crossings_with_arcstring((&a.0, &a.1), &stored(&second, &second, false)).is_some();
    Answer { floats: point.map_or(vec![], |p| p.to_vec()), bytes: vec![classes::judge(a, b).class(0.0) as u8, kept as u8], ..Answer::default() }
}

/// the points that the published listing kept, with the marks and counts of the visited pairs at the margin
fn listed(r: &Request, kept: &[Xyz]) -> Answer {
    let (marks, counts, grazed) = classes::tally(classes::pairs(r), r.margin);
    assert_eq!(marks.len(), kept.len(), "the classes keep as many points as the published listing");
    let mut numbers = vec![kept.len() as u64];
    numbers.extend(counts);
    Answer { floats: flat(kept), bytes: marks, numbers, grazed, ..Answer::default() }
}

fn listing(r: &Request, first: &[Leg], t: &ArcString) -> Answer {
    let kept: Vec<Xyz> = first.iter().flat_map(|l| arc_crossings_with_arcstring((&l.0, &l.1), t).unwrap_or_default()).collect();
    listed(r, &kept)
}

/// the counts of a listing alone
fn counted(listing: Answer) -> Answer {
    Answer { numbers: listing.numbers[1..].to_vec(), grazed: listing.grazed, ..Answer::default() }
}
