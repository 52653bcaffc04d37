//! Times of the calls that write a string and its buoys, and of midpoints, beside the published Rust, which has no buoys. It has no
//! backward walk and no restart either: a copy of the vertices reversed or rotated stands for them.
use crate::bench_inputs::{Times, string};
use crate::calls::c;
use crate::inputs::between;
use crate::lists::{flat, triples};
use crate::random::{Random, Xyz};
use crate::stored::stored;
use crate::timing::by_turns;
use sphersgeo::arcstring::{ArcString, split_arcstring_at_points};
use sphersgeo::sphericalpoint::{MultiSphericalPoint, SphericalPoint};
use std::hint::black_box;

// ---- strings and buffers

/// the points of a string, each shortened by another factor from 0.1 to 0.9
pub fn shortened(v: &[f64]) -> Vec<f64> {
    let mut random = Random(v.len() as u64);
    v.chunks_exact(3).flat_map(|p| { let t = 0.5 + 0.4 * random.coordinate(); [t * p[0], t * p[1], t * p[2]] }).collect()
}

/// a vertex put in after each but the last, at t of the way to the next: beyond it where t is over 1
fn doubled(v: &[f64], t: f64) -> Vec<f64> {
    let points = triples(v);
    let mut out: Vec<Xyz> = points.windows(2).flat_map(|pair| [pair[0], between(pair[0], pair[1], t)]).collect();
    out.extend(points.last());
    flat(&out)
}

/// a string, and four points beyond the ends of legs of it: each is put in and cuts there
fn with_points(n: usize) -> (Vec<f64>, Vec<Xyz>) {
    let v = string(n, 5 + n as u64, 0.1);
    let vertices = triples(&v);
    let points = [0, 1, 2, 3].map(|k| between(vertices[k * n / 4], vertices[k * n / 4 + 1], 1.5)).to_vec();
    (v, points)
}

fn buoys(n: usize) -> Vec<u32> {
    (1..=n as u32).collect()
}

/// Places for a string of up to 1,024 vertices.
struct Room {
    out: Vec<f64>,
    buoys: Vec<u32>,
    count: usize,
}

impl Room {
    fn new() -> Self {
        Self { out: vec![0.0; 3 * 1024], buoys: vec![0; 1024], count: 0 }
    }

    /// the places as a call takes them
    fn lent(&mut self) -> (*mut f64, usize, *mut u32, usize, *mut usize) {
        (self.out.as_mut_ptr(), self.out.len(), self.buoys.as_mut_ptr(), self.buoys.len(), &mut self.count)
    }
}

/// times a call that is not refused beside the published one
fn times(inner: usize, published: &mut dyn FnMut(), ours: &mut dyn FnMut() -> u32) -> Times {
    assert_eq!(ours(), 0, "a call that is not refused");
    by_turns(inner.max(4), [published, &mut || _ = black_box(ours())])
}

// ---- calls

fn built(v: &[f64]) -> Times {
    let (n, u, mut room, mut closed) = (v.len() / 3, buoys(v.len() / 3), Room::new(), 0);
    let (out, out_n, b, bn, count) = room.lent();
    let mut published = || _ = black_box(ArcString::try_from(MultiSphericalPoint::try_from(triples(black_box(v))).unwrap()).unwrap());
    times(16384 / n, &mut published, &mut || unsafe {
        c::arcstring_build(black_box(v.as_ptr()), v.len(), u.as_ptr(), u.len(), out, out_n, b, bn, count, &mut closed)
    })
}

pub fn build(n: usize) -> Times {
    built(&string(n, 5 + n as u64, 0.1))
}

/// the last point is the first one, so that every other is normalised twice
pub fn build_closed(n: usize) -> Times {
    let mut v = string(n, 5 + n as u64, 0.1);
    v.copy_within(..3, 3 * n - 3);
    built(&v)
}

pub fn build_short(n: usize) -> Times {
    built(&shortened(&string(n, 5 + n as u64, 0.1)))
}

pub fn walk_back(n: usize) -> Times {
    let (v, u, mut room) = (string(n, 5 + n as u64, 0.1), buoys(n), Room::new());
    let (points, (out, out_n, b, bn, count)) = (triples(&v), room.lent());
    let mut reversed = || {
        let mut copy = black_box(&points).clone();
        copy.reverse();
        black_box(copy);
    };
    times(65536 / n, &mut reversed, &mut || unsafe {
        c::arcstring_walk_back(black_box(v.as_ptr()), v.len(), u.as_ptr(), u.len(), out, out_n, b, bn, count)
    })
}

/// a closed string from a third of its vertices on
pub fn restart(n: usize) -> Times {
    let (v, u, mut room) = (string(n, 5 + n as u64, 0.1), buoys(n), Room::new());
    let (points, (out, out_n, b, bn, count)) = (triples(&v), room.lent());
    let mut rotated = || {
        let mut copy = black_box(&points).clone();
        copy.rotate_left(n / 3);
        black_box(copy);
    };
    times(65536 / n, &mut rotated, &mut || unsafe {
        c::arcstring_restart(black_box(v.as_ptr()), v.len(), u.as_ptr(), u.len(), 1, n / 3, out, out_n, b, bn, count)
    })
}

fn midpoints_of(v: &[f64]) -> Times {
    let (s, mut room) = (stored(v, v, false), Room::new());
    let (out, out_n, _, _, count) = room.lent();
    let mut published = || _ = black_box(black_box(&s).midpoints());
    times(49152 / v.len(), &mut published, &mut || unsafe { c::arcstring_midpoints(black_box(v.as_ptr()), v.len(), 0, out, out_n, count) })
}

pub fn midpoints(n: usize) -> Times {
    midpoints_of(&string(n, 5 + n as u64, 0.1))
}

/// legs of about 0.0001 rad, 640 m
pub fn midpoints_dense(n: usize) -> Times {
    midpoints_of(&string(n, 5 + n as u64, 0.0001))
}

fn simplified(v: &[f64], closed: bool) -> Times {
    let (s, u, mut room) = (stored(v, v, closed), buoys(v.len() / 3), Room::new());
    let (out, out_n, b, bn, count) = room.lent();
    let mut published = || {
        let mut copy = black_box(&s).clone();
        copy.simplify();
        black_box(copy);
    };
    times(24576 / v.len(), &mut published, &mut || unsafe {
        c::arcstring_simplify(black_box(v.as_ptr()), v.len(), u.as_ptr(), u.len(), closed as u8, out, out_n, b, bn, count)
    })
}

/// a string of n - 1 vertices of which every second one lies between its neighbours: one look, and the source's test, which looks for the
/// third point, removes none
fn between_neighbours(n: usize) -> Vec<f64> {
    doubled(&string(n / 2, 9 + n as u64, 0.1), 0.5)
}

pub fn simplify_none(n: usize) -> Times {
    simplified(&between_neighbours(n), false)
}

pub fn simplify_closed(n: usize) -> Times {
    simplified(&between_neighbours(n), true)
}

pub fn simplify_short(n: usize) -> Times {
    simplified(&shortened(&between_neighbours(n)), false)
}

/// every second vertex lies beyond the next one, and goes in the first round
pub fn simplify_half(n: usize) -> Times {
    simplified(&doubled(&string(n / 2, 9 + n as u64, 0.1), 1.5), false)
}

/// four points put into a string of n - 8 vertices
pub fn insert_vertices(n: usize) -> Times {
    let (v, points) = with_points(n - 8);
    let (s, u, p, w, mut room) = (stored(&v, &v, false), buoys(n - 8), flat(&points), buoys(points.len()), Room::new());
    let (out, out_n, b, bn, count) = room.lent();
    let given: Vec<SphericalPoint> = points.iter().map(|xyz| SphericalPoint { xyz: *xyz }).collect();
    let mut published = || {
        let mut copy = black_box(&s).clone();
        copy.insert_vertices(&given.iter().collect());
        black_box(copy);
    };
    times(4096 / n, &mut published, &mut || unsafe {
        let (v, u, p, w) = (black_box(&v), &u, &p, &w);
        c::arcstring_insert_vertices(
            v.as_ptr(), v.len(), u.as_ptr(), u.len(), 0, p.as_ptr(), p.len(), w.as_ptr(), w.len(), out, out_n, b, bn, count,
        )
    })
}

/// a string of n - 8 vertices cut at four points
pub fn split(n: usize) -> Times {
    let (v, points) = with_points(n - 8);
    let (s, u, p, w, mut room) = (stored(&v, &v, false), buoys(n - 8), flat(&points), buoys(points.len()), Room::new());
    let (mut counts, mut flags) = ([0; 64], [0; 64]);
    let (out, out_n, b, bn, pieces) = room.lent();
    let mut published = || _ = black_box(split_arcstring_at_points(black_box(&s), points.iter().collect()));
    times(4096 / n, &mut published, &mut || unsafe {
        let (v, u, p, w) = (black_box(&v), &u, &p, &w);
        c::arcstring_split(
            v.as_ptr(), v.len(), u.as_ptr(), u.len(), 0, p.as_ptr(), p.len(), w.as_ptr(), w.len(), out, out_n, b, bn,
            counts.as_mut_ptr(), counts.len(), flags.as_mut_ptr(), flags.len(), pieces,
        )
    })
}
