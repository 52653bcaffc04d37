//! What the calls on marks are to answer for accepted lists: request 2026-04, read from its words, since the published Rust has no such
//! calls. Equal points, sums and products of vectors are the published ones; each operation on floats is rounded once.
use crate::answers::{Answer, Expected, string, uncut, verdict};
use crate::lists::triples;
use crate::numbered::{self, Vertex};
use crate::random::Xyz;
use crate::request::{Call, Request};
use sphersgeo::sphericalpoint::{xyz_add_xyz, xyz_cross, xyz_dot, xyz_eq};

const TOLERANCE: f64 = 2e-8;
const MOST: usize = 1024;

pub fn accepted(r: &Request) -> Expected {
    let ([a, _, b, _], [a_buoys, b_buoys]) = (&r.lists, &r.buoys);
    let (p, q) = (triples(a), triples(b));
    match r.call {
        Call::MarkOnLeg => Ok(verdict(place(&p[0], &p[1], &q[0]).holds())),
        Call::MarkOnString => Ok(verdict(on_string(&p[0], &q, r.flags[1] != 0))),
        _ => cut(numbered::vertices(a, a_buoys), r.flags[0] != 0, &numbered::vertices(b, b_buoys)).map(|cut| written(&cut.pieces)),
    }
}

// ---- the test

/// Where a mark is, of a leg: in the first three places it is on it.
#[derive(Clone, Copy, Debug, PartialEq, Eq)]
pub enum Place {
    AtStart,
    AtEnd,
    Inside,
    /// of a leg whose normal is too short to hold a mark inside
    ShortNormal,
    /// of a leg whose ends are too nearly opposite
    Opposite,
    OffPlane,
    PastEnd,
    BeforeStart,
    /// farther from either end than these are from each other
    BeyondBoth,
    FarSide,
}

impl Place {
    pub fn holds(self) -> bool {
        matches!(self, Place::AtStart | Place::AtEnd | Place::Inside)
    }

    pub fn name(self) -> &'static str {
        match self {
            Place::AtStart => "yes, at the start",
            Place::AtEnd => "yes, at the end",
            Place::Inside => "yes, inside",
            Place::ShortNormal => "no, normal too short",
            Place::Opposite => "no, ends nearly opposite",
            Place::OffPlane => "no, off the plane",
            Place::PastEnd => "no, past the end",
            Place::BeforeStart => "no, before the start",
            Place::BeyondBoth => "no, beyond both ends",
            Place::FarSide => "no, on the far side",
        }
    }
}

fn length(v: &Xyz) -> f64 {
    ((v[0] * v[0] + v[1] * v[1]) + v[2] * v[2]).sqrt()
}

pub fn place(start: &Xyz, end: &Xyz, mark: &Xyz) -> Place {
    if xyz_eq(mark, start) {
        return Place::AtStart;
    }
    if xyz_eq(mark, end) {
        return Place::AtEnd;
    }
    let (normal, ends) = (xyz_cross(start, end), xyz_dot(start, end));
    if length(&normal) < TOLERANCE {
        return Place::ShortNormal;
    }
    if ends <= -1.0 + TOLERANCE {
        return Place::Opposite;
    }
    let coplanar = xyz_dot(mark, &normal).abs() / length(&normal) < TOLERANCE;
    match (coplanar, xyz_dot(mark, start) >= ends, xyz_dot(mark, end) >= ends) {
        (false, _, _) => Place::OffPlane,
        (_, false, false) => Place::BeyondBoth,
        (_, false, _) => Place::PastEnd,
        (_, _, false) => Place::BeforeStart,
        _ if xyz_dot(mark, &xyz_add_xyz(start, end)) < 0.0 => Place::FarSide,
        _ => Place::Inside,
    }
}

/// whether some leg of a string holds a mark, the closing leg of a closed one too
pub fn on_string(mark: &Xyz, vertices: &[Xyz], closed: bool) -> bool {
    let holds = |start: &Xyz, end: &Xyz| place(start, end, mark).holds();
    vertices.windows(2).any(|ends| holds(&ends[0], &ends[1])) || (closed && holds(&vertices[vertices.len() - 1], &vertices[0]))
}

// ---- the cut

/// What became of a point to cut at.
#[derive(Clone, Copy, Debug, PartialEq, Eq)]
pub enum Fate {
    /// no leg of any piece holds it
    Nowhere,
    /// it equals the first vertex of the first piece that holds it
    AtPieceStart,
    AtPieceEnd,
    /// it cuts a piece at a leg, both counted from 0, where it is in that place
    Cut { piece: usize, leg: usize, place: Place },
}

pub struct Cut {
    pub pieces: Vec<Vec<Vertex>>,
    pub fates: Vec<Fate>,
}

/// the one piece that a string is before any cut: a closed one is opened at vertex 0, which then stands at both ends
pub fn opened(mut v: Vec<Vertex>, closed: bool) -> Vec<Vertex> {
    if closed {
        v.push(v[0]);
    }
    v
}

/// the first leg of a piece that holds a mark, and where on it that is
fn first_leg(piece: &[Vertex], mark: &Xyz) -> Option<(usize, Place)> {
    piece.windows(2).map(|ends| place(&ends[0].0, &ends[1].0, mark)).enumerate().find(|(_, place)| place.holds())
}

fn fate(pieces: &[Vec<Vertex>], mark: &Xyz) -> Fate {
    let first = pieces.iter().enumerate().find_map(|(k, piece)| first_leg(piece, mark).map(|(leg, place)| (k, leg, place)));
    let Some((piece, leg, place)) = first else {
        return Fate::Nowhere;
    };
    let ends = &pieces[piece];
    if xyz_eq(mark, &ends[0].0) {
        Fate::AtPieceStart
    } else if xyz_eq(mark, &ends[ends.len() - 1].0) {
        Fate::AtPieceEnd
    } else {
        Fate::Cut { piece, leg, place }
    }
}

/// the pieces of a string after all points in their sequence, or 3 where they have over 1,024 points together after one of them
pub fn cut(v: Vec<Vertex>, closed: bool, points: &[Vertex]) -> Result<Cut, u32> {
    let mut cut = Cut { pieces: vec![opened(v, closed)], fates: vec![] };
    for point in points {
        let fate = fate(&cut.pieces, &point.0);
        cut.fates.push(fate);
        if let Fate::Cut { piece, leg, .. } = fate {
            let old = &cut.pieces[piece];
            let halves = [[&old[..=leg], &[*point]].concat(), [&[*point], &old[leg + 1..]].concat()];
            cut.pieces.splice(piece..=piece, halves);
            if cut.pieces.iter().map(Vec::len).sum::<usize>() > MOST {
                return Err(3);
            }
        }
    }
    Ok(cut)
}

fn written(pieces: &[Vec<Vertex>]) -> Answer {
    if pieces.len() == 1 {
        return uncut();
    }
    let mut numbers = vec![pieces.len() as u64];
    numbers.extend(pieces.iter().map(|piece| piece.len() as u64));
    Answer { numbers, ..string(&pieces.concat()) }
}
