//! Points as the calls are lent them: flat, three floats a point.
use crate::random::Xyz;

pub fn flat(points: &[Xyz]) -> Vec<f64> {
    points.iter().flatten().copied().collect()
}

pub fn triples(v: &[f64]) -> Vec<Xyz> {
    v.chunks_exact(3).map(|c| [c[0], c[1], c[2]]).collect()
}
