//! The calls of arcstring_c, as include/arcstring.h declares them, run on a request.
use crate::request::{Call, Request};

/// What a place holds before a call, so that a stray write shows.
pub const BLANK: f64 = -7.25;
pub const BLANK_BUOY: u32 = 0xA5A5_5A5A;
pub const BLANK_BYTE: u8 = 0xA5;
pub const BLANK_NUMBER: u64 = 0x5A5A_5A5A;

/// elements past the end of each buffer, which no call may touch
const GUARD: usize = 4;

type List = *const f64;
type Buoys = *const u32;

pub mod c {
    use super::{Buoys, List};

    unsafe extern "C" {
        pub fn arcstring_xyz_eq(ax: f64, ay: f64, az: f64, bx: f64, by: f64, bz: f64, yes: *mut u8) -> u32;
        pub fn arcstring_xyzs_coplanar(ax: f64, ay: f64, az: f64, bx: f64, by: f64, bz: f64, cx: f64, cy: f64, cz: f64, yes: *mut u8) -> u32;
        pub fn arcstring_point(x: f64, y: f64, z: f64, out: *mut f64) -> u32;
        pub fn arcstring_build(
            p: List, n: usize, buoys: Buoys, buoys_n: usize,
            out: *mut f64, room: usize, out_buoys: *mut u32, buoys_room: usize, count: *mut usize, closed: *mut u8,
        ) -> u32;
        pub fn arcstring_build_flagged(
            p: List, n: usize, buoys: Buoys, buoys_n: usize, flag: u8,
            out: *mut f64, room: usize, out_buoys: *mut u32, buoys_room: usize, count: *mut usize,
        ) -> u32;
        pub fn arcstring_walk_back(
            v: List, n: usize, buoys: Buoys, buoys_n: usize,
            out: *mut f64, room: usize, out_buoys: *mut u32, buoys_room: usize, count: *mut usize,
        ) -> u32;
        pub fn arcstring_restart(
            v: List, n: usize, buoys: Buoys, buoys_n: usize, closed: u8, at: usize,
            out: *mut f64, room: usize, out_buoys: *mut u32, buoys_room: usize, count: *mut usize,
        ) -> u32;
        pub fn arcstring_run(v: List, n: usize, from: usize, to: usize, start: *mut usize, len: *mut usize);
        pub fn arcstring_pair(a: List, b: List, class: *mut u8, kept: *mut u8, point: *mut f64) -> u32;
        pub fn arcstring_leg_crossings(leg: List, v: List, n: usize, closed: u8, margin: f64, points: *mut f64, room: usize, marks: *mut u8, marks_room: usize, kept: *mut usize, counts: *mut u64) -> u32;
        pub fn arcstring_crossings(a: List, an: usize, ac: u8, b: List, bn: usize, bc: u8, margin: f64, points: *mut f64, room: usize, marks: *mut u8, marks_room: usize, kept: *mut usize, counts: *mut u64) -> u32;
        pub fn arcstring_count(a: List, an: usize, ac: u8, b: List, bn: usize, bc: u8, margin: f64, counts: *mut u64) -> u32;
        pub fn arcstring_crossings_with_self(v: List, n: usize, margin: f64, points: *mut f64, room: usize, marks: *mut u8, marks_room: usize, kept: *mut usize, counts: *mut u64) -> u32;
        pub fn arcstring_crosses_self(v: List, n: usize, closed: u8, yes: *mut u8) -> u32;
        pub fn arcstring_same_side(ax: f64, ay: f64, az: f64, bx: f64, by: f64, bz: f64, v: List, n: usize, closed: u8, yes: *mut u8) -> u32;
        pub fn arcstring_turn_orientations(v: List, n: usize, closed: u8, out: *mut f64, room: usize, count: *mut usize) -> u32;
        pub fn arcstring_midpoints(v: List, n: usize, closed: u8, out: *mut f64, room: usize, count: *mut usize) -> u32;
        pub fn arcstring_along(x: f64, y: f64, z: f64, v: List, n: usize, near: List, near_n: usize, closed: u8, yes: *mut u8) -> u32;
        pub fn arcstring_simplify(
            v: List, n: usize, buoys: Buoys, buoys_n: usize, closed: u8,
            out: *mut f64, room: usize, out_buoys: *mut u32, buoys_room: usize, count: *mut usize,
        ) -> u32;
        pub fn arcstring_insert_vertices(
            v: List, n: usize, buoys: Buoys, buoys_n: usize, closed: u8,
            points: List, points_n: usize, point_buoys: Buoys, point_buoys_n: usize,
            out: *mut f64, room: usize, out_buoys: *mut u32, buoys_room: usize, count: *mut usize,
        ) -> u32;
        pub fn arcstring_split_leg(leg: List, points: List, points_n: usize, out: *mut f64, room: usize, pieces: *mut usize) -> u32;
        pub fn arcstring_split(
            v: List, n: usize, buoys: Buoys, buoys_n: usize, closed: u8,
            points: List, points_n: usize, point_buoys: Buoys, point_buoys_n: usize,
            out: *mut f64, room: usize, out_buoys: *mut u32, buoys_room: usize,
            counts: *mut usize, counts_room: usize, flags: *mut u8, flags_room: usize, pieces: *mut usize,
        ) -> u32;
        pub fn arcstring_eq(a: List, an: usize, near: List, near_n: usize, ac: u8, b: List, bn: usize, b_near: List, b_near_n: usize, bc: u8, yes: *mut u8) -> u32;
        pub fn arcstring_equals(a: List, an: usize, near: List, near_n: usize, ac: u8, b: List, bn: usize, b_near: List, b_near_n: usize, bc: u8, yes: *mut u8) -> u32;
        pub fn arcstring_crosses(a: List, an: usize, near: List, near_n: usize, ac: u8, b: List, bn: usize, b_near: List, b_near_n: usize, bc: u8, yes: *mut u8) -> u32;
        pub fn arcstring_overlaps(a: List, an: usize, near: List, near_n: usize, ac: u8, b: List, bn: usize, b_near: List, b_near_n: usize, bc: u8, yes: *mut u8) -> u32;
        pub fn arcstring_within(a: List, an: usize, b: List, bn: usize, near: List, near_n: usize, bc: u8, yes: *mut u8) -> u32;
        pub fn arcstring_contains(a: List, an: usize, near: List, near_n: usize, ac: u8, b: List, bn: usize, yes: *mut u8) -> u32;
        pub fn arcstring_mark_on_leg(leg: List, x: f64, y: f64, z: f64, yes: *mut u8) -> u32;
        pub fn arcstring_mark_on_string(x: f64, y: f64, z: f64, v: List, n: usize, closed: u8, yes: *mut u8) -> u32;
        pub fn arcstring_cut_at_marks(
            v: List, n: usize, buoys: Buoys, buoys_n: usize, closed: u8,
            points: List, points_n: usize, point_buoys: Buoys, point_buoys_n: usize,
            out: *mut f64, room: usize, out_buoys: *mut u32, buoys_room: usize, counts: *mut usize, counts_room: usize, pieces: *mut usize,
        ) -> u32;
    }
}

/// A call's number and every place that it was lent, after it: floats by their bits, one NaN for all. The single numbers come
/// before a buffer of numbers.
#[derive(Clone, Debug, PartialEq, Eq)]
pub struct Left {
    pub number: u32,
    pub floats: Vec<u64>,
    pub buoys: Vec<u32>,
    pub bytes: Vec<u8>,
    pub numbers: Vec<u64>,
}

impl Left {
    /// the answer as the words of a line
    pub fn line(&self, label: &str) -> String {
        let mut words = vec![self.number as u64];
        words.extend(&self.floats);
        words.extend(self.buoys.iter().map(|n| *n as u64));
        words.extend(self.bytes.iter().map(|b| *b as u64));
        words.extend(&self.numbers);
        words.iter().fold(format!("{label:<48.48}"), |line, w| format!("{line} {w:016X}"))
    }
}

pub fn bits(floats: &[f64]) -> Vec<u64> {
    floats.iter().map(|x| if x.is_nan() { f64::NAN.to_bits() } else { x.to_bits() }).collect()
}

/// The places lent to a call, each kind in one list with a guard past its end.
struct Lent {
    floats: Vec<f64>,
    buoys: Vec<u32>,
    bytes: Vec<u8>,
    numbers: Vec<u64>,
}

impl Lent {
    fn of(r: &Request) -> Self {
        let places = r.places();
        Self {
            floats: vec![BLANK; places.floats + GUARD],
            buoys: vec![BLANK_BUOY; places.buoys + GUARD],
            bytes: vec![BLANK_BYTE; places.bytes + GUARD],
            numbers: vec![BLANK_NUMBER; places.numbers + GUARD],
        }
    }

    fn left(mut self, r: &Request, number: u32) -> Left {
        let places = r.places();
        let kept = self.floats.split_off(places.floats).iter().all(|x| *x == BLANK)
            && self.buoys.split_off(places.buoys).iter().all(|n| *n == BLANK_BUOY)
            && self.bytes.split_off(places.bytes).iter().all(|b| *b == BLANK_BYTE)
            && self.numbers.split_off(places.numbers).iter().all(|n| *n == BLANK_NUMBER);
        assert!(kept, "a write past the end of a buffer: {}", r.line(r.call.name()));
        Left { number, floats: bits(&self.floats), buoys: self.buoys, bytes: self.bytes, numbers: self.numbers }
    }
}

/// What the proved library answers.
pub fn answer(r: &Request) -> Left {
    let mut lent = Lent::of(r);
    let number = unsafe {
        match r.call {
            Call::XyzEq | Call::XyzsCoplanar | Call::Point | Call::Pair | Call::MarkOnLeg => single(r, &mut lent),
            Call::LegCrossings | Call::Crossings | Call::CrossingsWithSelf | Call::Count | Call::CrossesSelf | Call::SameSide => listing(r, &mut lent),
            Call::Along | Call::MarkOnString | Call::Eq | Call::Equals | Call::Crosses | Call::Overlaps | Call::Within | Call::Contains => {
                relation(r, &mut lent)
            }
            Call::Run | Call::TurnOrientations | Call::Midpoints | Call::SplitLeg => written(r, &mut lent),
            _ => string(r, &mut lent),
        }
    };
    lent.left(r, number)
}

unsafe fn single(r: &Request, lent: &mut Lent) -> u32 {
    let ([a, _, b, _], out, yes) = (&r.lists, lent.floats.as_mut_ptr(), lent.bytes.as_mut_ptr());
    unsafe {
        match r.call {
            Call::XyzEq => c::arcstring_xyz_eq(a[0], a[1], a[2], a[3], a[4], a[5], yes),
            Call::XyzsCoplanar => c::arcstring_xyzs_coplanar(a[0], a[1], a[2], a[3], a[4], a[5], a[6], a[7], a[8], yes),
            Call::Point => c::arcstring_point(a[0], a[1], a[2], out),
            Call::MarkOnLeg => c::arcstring_mark_on_leg(a.as_ptr(), b[0], b[1], b[2], yes),
            _ => c::arcstring_pair(a.as_ptr(), b.as_ptr(), yes, yes.add(1), out),
        }
    }
}

unsafe fn listing(r: &Request, lent: &mut Lent) -> u32 {
    let ([a, _, b, _], [ac, bc], margin, room) = (&r.lists, r.flags, r.margin, r.room);
    let (ap, an, bp, bn) = (a.as_ptr(), a.len(), b.as_ptr(), b.len());
    let (points, marks, numbers) = (lent.floats.as_mut_ptr(), lent.bytes.as_mut_ptr(), lent.numbers.as_mut_ptr());
    let kept = numbers as *mut usize;
    unsafe {
        match r.call {
            Call::LegCrossings => c::arcstring_leg_crossings(ap, bp, bn, bc, margin, points, room.floats, marks, room.bytes, kept, numbers.add(1)),
            Call::Crossings => c::arcstring_crossings(ap, an, ac, bp, bn, bc, margin, points, room.floats, marks, room.bytes, kept, numbers.add(1)),
            Call::CrossingsWithSelf => c::arcstring_crossings_with_self(ap, an, margin, points, room.floats, marks, room.bytes, kept, numbers.add(1)),
            Call::Count => c::arcstring_count(ap, an, ac, bp, bn, bc, margin, numbers),
            Call::CrossesSelf => c::arcstring_crosses_self(ap, an, ac, marks),
            _ => c::arcstring_same_side(a[0], a[1], a[2], a[3], a[4], a[5], bp, bn, bc, marks),
        }
    }
}

unsafe fn relation(r: &Request, lent: &mut Lent) -> u32 {
    let ([a, a_near, b, b_near], [ac, bc], yes) = (&r.lists, r.flags, lent.bytes.as_mut_ptr());
    let (ap, an, bp, bn) = (a.as_ptr(), a.len(), b.as_ptr(), b.len());
    let (near, near_n, b_near, b_near_n) = (a_near.as_ptr(), a_near.len(), b_near.as_ptr(), b_near.len());
    let of_two = match r.call {
        Call::Along => return unsafe { c::arcstring_along(a[0], a[1], a[2], bp, bn, b_near, b_near_n, bc, yes) },
        Call::MarkOnString => return unsafe { c::arcstring_mark_on_string(a[0], a[1], a[2], bp, bn, bc, yes) },
        Call::Within => return unsafe { c::arcstring_within(ap, an, bp, bn, b_near, b_near_n, bc, yes) },
        Call::Contains => return unsafe { c::arcstring_contains(ap, an, near, near_n, ac, bp, bn, yes) },
        Call::Eq => c::arcstring_eq,
        Call::Equals => c::arcstring_equals,
        Call::Crosses => c::arcstring_crosses,
        _ => c::arcstring_overlaps,
    };
    unsafe { of_two(ap, an, near, near_n, ac, bp, bn, b_near, b_near_n, bc, yes) }
}

/// the calls that write something else than a string
unsafe fn written(r: &Request, lent: &mut Lent) -> u32 {
    let ([a, _, b, _], ac, room) = (&r.lists, r.flags[0], r.room);
    let (v, n) = (a.as_ptr(), a.len());
    let (out, count) = (lent.floats.as_mut_ptr(), lent.numbers.as_mut_ptr() as *mut usize);
    unsafe {
        match r.call {
            Call::Run => {
                c::arcstring_run(v, n, r.at[0], r.at[1], count, count.add(1));
                0
            }
            Call::TurnOrientations => c::arcstring_turn_orientations(v, n, ac, out, room.floats, count),
            Call::Midpoints => c::arcstring_midpoints(v, n, ac, out, room.floats, count),
            _ => c::arcstring_split_leg(v, b.as_ptr(), b.len(), out, room.floats, count),
        }
    }
}

/// the calls that write a string or the pieces of one, and their buoys
unsafe fn string(r: &Request, lent: &mut Lent) -> u32 {
    let ([a, _, b, _], [a_buoys, b_buoys], ac, room) = (&r.lists, &r.buoys, r.flags[0], r.room);
    let (v, n, u, un) = (a.as_ptr(), a.len(), a_buoys.as_ptr(), a_buoys.len());
    let (p, pn, w, wn) = (b.as_ptr(), b.len(), b_buoys.as_ptr(), b_buoys.len());
    let (out, out_u, bytes) = (lent.floats.as_mut_ptr(), lent.buoys.as_mut_ptr(), lent.bytes.as_mut_ptr());
    let count = lent.numbers.as_mut_ptr() as *mut usize;
    unsafe {
        match r.call {
            Call::Build => c::arcstring_build(v, n, u, un, out, room.floats, out_u, room.buoys, count, bytes),
            Call::BuildFlagged => c::arcstring_build_flagged(v, n, u, un, ac, out, room.floats, out_u, room.buoys, count),
            Call::WalkBack => c::arcstring_walk_back(v, n, u, un, out, room.floats, out_u, room.buoys, count),
            Call::Restart => c::arcstring_restart(v, n, u, un, ac, r.at[0], out, room.floats, out_u, room.buoys, count),
            Call::Simplify => c::arcstring_simplify(v, n, u, un, ac, out, room.floats, out_u, room.buoys, count),
            Call::InsertVertices => c::arcstring_insert_vertices(v, n, u, un, ac, p, pn, w, wn, out, room.floats, out_u, room.buoys, count),
            Call::CutAtMarks => c::arcstring_cut_at_marks(
                v, n, u, un, ac, p, pn, w, wn, out, room.floats, out_u, room.buoys, count.add(1), room.numbers, count,
            ),
            _ => c::arcstring_split(
                v, n, u, un, ac, p, pn, w, wn, out, room.floats, out_u, room.buoys, count.add(1), room.numbers, bytes, room.bytes, count,
            ),
        }
    }
}
