//! `xyz_eq`, `xyzs_coplanar` and `SphericalPoint::from` of the vector layer against the published ones.
use crate::tally::Tally;
use crate::random::{Points, Xyz};
use sphersgeo::sphericalpoint as published;

#[repr(C)]
#[derive(Clone, Copy)]
pub struct Point {
    pub x: f64,
    pub y: f64,
    pub z: f64,
}

unsafe extern "C" {
    fn sphericalpoint_xyz_eq(a: Point, b: Point) -> bool;
    fn sphericalpoint_xyzs_coplanar(a: Point, b: Point, c: Point) -> bool;
    fn sphericalpoint_from(x: f64, y: f64, z: f64) -> Point;
}

pub fn point(p: Xyz) -> Point {
    Point { x: p[0], y: p[1], z: p[2] }
}

pub fn bits(p: Xyz) -> [u64; 3] {
    p.map(f64::to_bits)
}

fn answer(yes: bool) -> &'static str {
    if yes { "yes" } else { "no" }
}

/// the test of three points of any floats
pub fn coplanar(tally: &mut Tally, a: Xyz, b: Xyz, c: Xyz) {
    let theirs = published::xyzs_coplanar(&a, &b, &c);
    let ours = unsafe { sphericalpoint_xyzs_coplanar(point(a), point(b), point(c)) };
    tally.compare(&format!("xyzs_coplanar {}", answer(theirs)), ours == theirs, || {
        format!("xyzs_coplanar {:016X?} {:016X?} {:016X?}", bits(a), bits(b), bits(c))
    });
}

pub fn run(tally: &mut Tally, n: u64) {
    let mut points = Points::new(2);
    while tally.done < n {
        let (a, b, c) = (points.point(), points.point(), points.point());
        let theirs = published::xyz_eq(&a, &b);
        let ours = unsafe { sphericalpoint_xyz_eq(point(a), point(b)) };
        tally.compare(&format!("xyz_eq {}", answer(theirs)), ours == theirs, || format!("xyz_eq {:016X?} {:016X?}", bits(a), bits(b)));
        coplanar(tally, a, b, c);
        let theirs = published::SphericalPoint::from(a).xyz;
        let r = unsafe { sphericalpoint_from(a[0], a[1], a[2]) };
        let ours = [r.x, r.y, r.z];
        let kind = if bits(theirs) == bits(a) { "from, kept" } else { "from, normalised" };
        tally.compare(kind, bits(ours) == bits(theirs), || format!("from {:016X?}", bits(a)));
    }
}
