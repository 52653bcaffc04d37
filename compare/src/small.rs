//! Short requests, every one there is over small sets of coordinates and points.
use crate::expected;
use crate::lists::flat;
use crate::random::Xyz;
use crate::request::{Call, Places, Request};
use crate::tally::Tally;

/// every point whose coordinates are from a set
fn grid(coordinates: &[f64]) -> Vec<Xyz> {
    let mut points = vec![];
    for x in coordinates {
        for y in coordinates {
            points.extend(coordinates.iter().map(|z| [*x, *y, *z]));
        }
    }
    points
}

/// every list of `n` of the points
fn lists(points: &[Xyz], n: usize) -> Vec<Vec<f64>> {
    (0..n).fold(vec![vec![]], |all: Vec<Vec<f64>>, _| all.iter().flat_map(|list| points.iter().map(move |p| [&list[..], &p[..]].concat())).collect())
}

fn lists_up_to(points: &[Xyz], least: usize, most: usize) -> Vec<Vec<f64>> {
    (least..=most).flat_map(|n| lists(points, n)).collect()
}

/// with buffers of exactly the answer's length
pub fn send(tally: &mut Tally, mut r: Request) {
    let expected = expected::result(&r);
    if let Ok(answer) = &expected {
        r.room = answer.needed(r.call);
    }
    tally.request(&r, &expected);
}

/// margins of the calls that take one: as 0, and at side values of the points below
const MARGINS: [f64; 3] = [-0.0, 0.25, 1.0];

/// the same at margin 0 and, where the call takes one, at others
fn send_at_margins(tally: &mut Tally, r: Request) {
    for margin in if r.call.takes_margin() { &MARGINS[..] } else { &[] } {
        send(tally, r.clone().margin(*margin));
    }
    send(tally, r);
}

/// six axis and diagonal points that lie on, between and beyond one another's legs
const COURSE: [Xyz; 6] = [[1.0, 0.0, 0.0], [0.0, 1.0, 0.0], [1.0, 1.0, 0.0], [0.0, 0.0, 1.0], [-1.0, -0.0, 0.0], [1.0, 0.5, 0.5]];

const ONE_STRING: [Call; 9] = [
    Call::Build, Call::BuildFlagged, Call::WalkBack, Call::CrossingsWithSelf, Call::CrossesSelf, Call::TurnOrientations, Call::Midpoints, Call::Simplify, Call::Restart,
];

const TWO_STRINGS: [Call; 8] = [Call::Crossings, Call::Count, Call::Eq, Call::Equals, Call::Crosses, Call::Overlaps, Call::Within, Call::Contains];

/// points by themselves, and every pair of legs of two grids: one with both signs, one with both zeros
fn points(tally: &mut Tally) {
    let signs = grid(&[-1.0, 0.0, 1.0]);
    let zeros = grid(&[-0.0, 0.0, 1.0]);
    let wide = grid(&[-1.0, -0.5, -0.0, 0.0, 0.5, 1.0, 2.0, f64::NAN]);
    for p in &wide {
        send(tally, Request::new(Call::Point, &[p]));
        for q in &wide {
            send(tally, Request::new(Call::XyzEq, &[&flat(&[*p, *q])]));
        }
    }
    for three in lists(&grid(&[-1.0, -0.0, 0.0, 0.5, 1.0]), 2).iter().flat_map(|two| signs.iter().map(move |p| [&two[..], &p[..]].concat())) {
        send(tally, Request::new(Call::XyzsCoplanar, &[&three]));
        send(tally, Request::new(Call::MarkOnLeg, &[&three[..6], &[], &three[6..]]));
    }
    for set in [signs, zeros] {
        let legs = lists(&set, 2);
        for a in &legs {
            for b in &legs {
                send(tally, Request::new(Call::Pair, &[a, &[], b]));
            }
        }
    }
}

fn one_string(tally: &mut Tally) {
    for v in lists_up_to(&COURSE, 0, 5) {
        for flag in [0, 1] {
            for call in ONE_STRING {
                for at in 0..if call == Call::Restart { v.len() / 3 + 1 } else { 1 } {
                    send_at_margins(tally, Request::new(call, &[&v]).flags(flag, 0).at(at, 0));
                }
            }
        }
    }
}

/// a request with room for 0 to 30 floats, for as many buoys, for fewer and for more, and for fewer bytes and numbers beside them
fn rooms(tally: &mut Tally, mut r: Request) {
    let expected = expected::result(&r);
    for room in 0..=30 {
        for buoys in if r.call.buoy_lists() > 0 { vec![room / 4, room / 3, room / 2] } else { vec![0] } {
            r.room = r.call.buffers(Places { floats: room, buoys, bytes: room / 3, numbers: room % 5 });
            tally.request(&r, &expected);
        }
    }
}

/// the same at margin 0 and, where the call takes one, at a margin over 0 and at refused ones
fn rooms_at_margins(tally: &mut Tally, r: Request) {
    for margin in if r.call.takes_margin() { &[0.25, -0.25, f64::NAN, f64::INFINITY][..] } else { &[] } {
        rooms(tally, r.clone().margin(*margin));
    }
    rooms(tally, r);
}

/// a request with 0 to 8 buoys in each list of them that it is lent
fn buoys(tally: &mut Tally, r: &Request) {
    let lists = r.call.buoy_lists();
    for n in 0..if lists > 0 { 9 } else { 0 } {
        for m in 0..if lists > 1 { 9 } else { 1 } {
            send(tally, Request { buoys: [(0..n).collect(), (100..100 + m).collect()], ..r.clone() });
        }
    }
}

/// every length of a list in floats up to 20, with every position and every room
fn lengths(tally: &mut Tally) {
    let long: Vec<f64> = COURSE.iter().cycle().flatten().copied().take(40).collect();
    for n in 0..=20 {
        let v = &long[..n];
        for at in 0..81 {
            send(tally, Request::new(Call::Run, &[v]).at(at / 9, at % 9));
        }
        for call in ONE_STRING {
            let r = Request::new(call, &[v]).flags(1, 0).at(1, 0);
            buoys(tally, &r);
            rooms_at_margins(tally, r);
        }
        for m in [0, 3, 4, 6, 9] {
            for call in [Call::Crossings, Call::InsertVertices, Call::Split, Call::CutAtMarks] {
                let r = Request::new(call, &[v, &[], &long[40 - m..]]).flags(1, 1);
                buoys(tally, &r);
                rooms_at_margins(tally, r);
            }
        }
        rooms(tally, Request::new(Call::SplitLeg, &[&long[..6], &[], &long[40 - n..]]));
    }
}

fn two_strings(tally: &mut Tally) {
    let strings = lists_up_to(&COURSE[..5], 1, 3);
    for a in &strings {
        for b in &strings {
            for flags in [[0, 0], [0, 1], [1, 0], [1, 1]] {
                for call in TWO_STRINGS {
                    send_at_margins(tally, Request::new(call, &[a, a, b, b]).flags(flags[0], flags[1]));
                }
            }
        }
    }
}

/// a point, a leg or extra points, with a string
fn with_string(tally: &mut Tally) {
    let strings = lists_up_to(&COURSE, 1, 3);
    let (extra, marks) = (lists_up_to(&COURSE, 0, 2), lists_up_to(&COURSE, 0, 3));
    for v in &strings {
        for flag in [0, 1] {
            for p in grid(&[-1.0, -0.0, 0.5, 1.0]) {
                send(tally, Request::new(Call::Along, &[&p, &[], v, &v[..3]]).flags(0, flag));
                send(tally, Request::new(Call::MarkOnString, &[&p, &[], v]).flags(0, flag));
            }
            for leg in lists(&COURSE, 2) {
                send_at_margins(tally, Request::new(Call::LegCrossings, &[&leg, &[], v]).flags(0, flag));
                send(tally, Request::new(Call::SameSide, &[&leg, &[], v]).flags(0, flag));
            }
            for points in &extra {
                send(tally, Request::new(Call::InsertVertices, &[v, &[], points]).flags(flag, 0));
                send(tally, Request::new(Call::Split, &[v, &[], points]).flags(flag, 0));
            }
            for points in &marks {
                send(tally, Request::new(Call::CutAtMarks, &[v, &[], points]).flags(flag, 0));
            }
        }
    }
    for leg in lists(&grid(&[0.0, 0.5, 1.0]), 2) {
        for points in lists_up_to(&grid(&[0.0, 1.0]), 0, 3) {
            send(tally, Request::new(Call::SplitLeg, &[&leg, &[], &points]));
        }
    }
}

pub fn run(tally: &mut Tally, _: u64) {
    points(tally);
    one_string(tally);
    lengths(tally);
    two_strings(tally);
    with_string(tally);
}
