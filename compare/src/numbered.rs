//! The published build, simplify, insert_vertices and split over vertices that carry their buoys, as docs/TERMS.md has it: each number goes
//! where its vertex goes, and a point put in or cut at brings its own. The tests of points and the normalising are the published ones;
//! what else is done is written down again, step by step, and `expected_edit` holds the vertices to the published result.
use crate::lists::triples;
use crate::random::Xyz;
use sphersgeo::arcstring::ArcString;
use sphersgeo::sphericalpoint::{MultiSphericalPoint, xyzs_coplanar};

/// A vertex or a point, and its buoy.
pub type Vertex = (Xyz, u32);

/// A string's vertices, and whether it is closed.
pub type Numbered = (Vec<Vertex>, bool);

pub fn vertices(v: &[f64], buoys: &[u32]) -> Vec<Vertex> {
    triples(v).into_iter().zip(buoys.iter().copied()).collect()
}

pub fn xyzs(vertices: &[Vertex]) -> Vec<Xyz> {
    vertices.iter().map(|v| v.0).collect()
}

/// the published string of the points: vertex k is made of point k
pub fn build(points: &[Vertex], flag: Option<bool>) -> Numbered {
    let s = ArcString::try_new(MultiSphericalPoint::try_from(xyzs(points)).unwrap(), flag).unwrap();
    (s.points.xyzs.into_iter().zip(points.iter().map(|p| p.1)).collect(), s.closed)
}

/// simplifies, and says in how many rounds vertices were removed
pub fn simplify(v: &mut Vec<Vertex>, closed: bool) -> usize {
    let mut rounds = 0;
    while v.len() > 2 {
        let n = v.len();
        let along = |k: &usize| xyzs_coplanar(&v[k - 1].0, &v[*k].0, &v[if k + 1 < n { k + 1 } else { 2 }].0);
        let judged = (1..n).chain(closed.then_some(1));
        let removed: Vec<usize> = judged.filter(along).collect();
        if removed.is_empty() {
            break;
        }
        removed.iter().rev().for_each(|k| _ = v.remove(*k));
        rounds += 1;
    }
    rounds
}

/// the end of the leg that starts at vertex k of n: the closing leg's is vertex 0
fn end(k: usize, n: usize) -> usize {
    if k + 1 < n { k + 1 } else { 0 }
}

/// puts a point in before the start of each leg that it is along
pub fn insert(v: &mut Vec<Vertex>, closed: bool, point: Vertex) {
    let mut k = 0;
    while k < v.len() - !closed as usize {
        if xyzs_coplanar(&v[k].0, &point.0, &v[end(k, v.len())].0) {
            v.insert(k, point);
            k += 1;
        }
        k += 1;
    }
}

/// cuts a string at points: the pieces, or the string itself
pub fn split(string: Numbered, points: &[Vertex]) -> Vec<Numbered> {
    let mut strings = vec![string];
    for point in points {
        for at in 0..strings.len() {
            let (v, closed) = strings[at].clone();
            for k in 0..v.len() - !closed as usize {
                let next = end(k, v.len());
                if xyzs_coplanar(&v[k].0, &point.0, &v[next].0) {
                    let rest = if next > 0 { &v[next..] } else { &v[..1] };
                    strings[at] = build(&[&v[..=k], &[*point]].concat(), None);
                    strings.insert(at + 1, build(&[&[*point], rest].concat(), None));
                }
            }
        }
    }
    strings
}
