//! The classes of docs/TERMS.md of a pair of legs, which the published Rust does not have: worked out with the published vector functions,
//! beside the point that the published `arcs_crossing` gives.
use crate::lists::triples;
use crate::random::Xyz;
use crate::request::{Call, Request};
use sphersgeo::arcstring::arcs_crossing;
use sphersgeo::sphericalpoint::{xyz_cross, xyz_dot, xyz_eq, xyz_neg};

#[derive(Clone, Copy, PartialEq)]
pub enum Class {
    Clean = 1,
    End = 2,
    Grazing = 3,
    Apart = 4,
}

pub type Leg = (Xyz, Xyz);

/// What is known of a pair of legs before any margin is.
pub struct Judged {
    pub sides: [f64; 4],
    point: bool,
    end: bool,
}

impl Judged {
    /// the smallest size of a side value: the pair grazes at this margin and at every wider one
    pub fn least(&self) -> f64 {
        self.sides.iter().fold(f64::INFINITY, |least, s| least.min(s.abs()))
    }

    pub fn class(&self, margin: f64) -> Class {
        let all = |holds: fn(&f64) -> bool| self.sides.iter().all(holds);
        if self.sides.iter().any(|s| s.abs() <= margin) {
            Class::Grazing
        } else if !all(|s| *s > 0.0) && !all(|s| *s < 0.0) {
            Class::Apart
        } else if self.end {
            Class::End
        } else {
            Class::Clean
        }
    }

    /// whether a listing keeps its point, at any margin
    pub fn kept(&self) -> bool {
        self.point && !self.end
    }
}

/// What a margin does to the visited pairs: by the class that they have at margin 0, how many graze at it; and how many have their least
/// side value just at it, and at the next float above it.
#[derive(Clone, Copy, Default)]
pub struct Grazed {
    pub from: [u64; 4],
    pub at: u64,
    pub above: u64,
}

pub fn legs(points: &[Xyz], closed: bool) -> Vec<Leg> {
    let n = points.len();
    (0..n - !closed as usize).map(|i| (points[i], points[(i + 1) % n])).collect()
}

/// the pairs of legs that a listing or a count visits, in their sequence
pub fn pairs(r: &Request) -> Box<dyn Iterator<Item = (Leg, Leg)>> {
    let ([a, _, b, _], [a_closed, b_closed]) = (&r.lists, r.flags.map(|f| f != 0));
    if r.call == Call::CrossingsWithSelf {
        let own = legs(&triples(a), false);
        let indexes = (0..own.len()).flat_map(|i| (i + 2..own.len()).map(move |j| (i, j))).collect::<Vec<_>>();
        return Box::new(indexes.into_iter().map(move |(i, j)| (own[i], own[j])));
    }
    let (first, second) = (legs(&triples(a), a_closed && r.call != Call::LegCrossings), legs(&triples(b), b_closed));
    let m = second.len();
    Box::new((0..first.len() * m).map(move |k| (first[k / m], second[k % m])))
}

/// the four side values of a pair
pub fn sides(a: Leg, b: Leg) -> [f64; 4] {
    let (p, q) = (xyz_cross(&a.0, &a.1), xyz_cross(&b.0, &b.1));
    let t = xyz_cross(&p, &q);
    [
        xyz_dot(&xyz_neg(&xyz_cross(&a.0, &p)), &t),
        xyz_dot(&xyz_cross(&a.1, &p), &t),
        xyz_dot(&xyz_neg(&xyz_cross(&b.0, &q)), &t),
        xyz_dot(&xyz_cross(&b.1, &q), &t),
    ]
}

pub fn judge(a: Leg, b: Leg) -> Judged {
    let point = arcs_crossing((&a.0, &a.1), (&b.0, &b.1));
    let end = point.is_some_and(|p| [a.0, a.1, b.0, b.1].iter().any(|e| xyz_eq(&p, e)));
    Judged { sides: sides(a, b), point: point.is_some(), end }
}

/// the marks of the kept points, the four counts, and what the margin did
pub fn tally(pairs: impl Iterator<Item = (Leg, Leg)>, margin: f64) -> (Vec<u8>, [u64; 4], Grazed) {
    let (mut marks, mut counts, mut grazed) = (vec![], [0; 4], Grazed::default());
    for (a, b) in pairs {
        let judged = judge(a, b);
        let class = judged.class(margin);
        counts[class as usize - 1] += 1;
        if judged.kept() {
            marks.push((class == Class::Clean) as u8);
        }
        grazed.from[judged.class(0.0) as usize - 1] += (class == Class::Grazing) as u64;
        grazed.at += (judged.least() == margin) as u64;
        grazed.above += (judged.least() == margin.next_up()) as u64;
    }
    (marks, counts, grazed)
}
