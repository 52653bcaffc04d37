//! Random lists, flags, positions, buoys and buffers: strings of every length around each boundary, damaged ones, courses with points
//! along their legs, near lists that differ, buoys that are not as many as points, and rooms around the length of the answer.
use crate::answers::Expected;
use crate::lists::{flat, triples};
use crate::random::{Points, Random, Xyz, clamp};
use crate::request::{Places, Request};

pub struct Inputs {
    pub points: Points,
    /// what margins are drawn by: the lists are the same with them and without
    pub margins: Random,
    /// strings of up to 1,024 vertices now and then
    pub long: bool,
}

impl Inputs {
    pub fn new(seed: u64) -> Self {
        Self { points: Points::new(seed), margins: Random(seed << 32), long: false }
    }

    pub fn below(&mut self, n: u64) -> u64 {
        self.points.random.below(n)
    }

    pub fn one_in(&mut self, n: u64) -> bool {
        self.below(n) == 0
    }

    fn length(&mut self) -> usize {
        match self.below(if self.long { 24 } else { 22 }) {
            0 => 1,
            1 => 2,
            2 => 3,
            3 => 4,
            22 => 1000 + self.below(26) as usize,
            23 => 100 + self.below(200) as usize,
            _ => 2 + self.below(12) as usize,
        }
    }

    /// a list of points, one in eight damaged
    pub fn string(&mut self) -> Vec<f64> {
        let n = self.length();
        let mut v: Vec<f64> = (0..n).flat_map(|_| self.points.point()).collect();
        if self.one_in(4) {
            let (head, tail) = v.split_at_mut(3);
            if let Some(last) = tail.rchunks_mut(3).next() {
                last.copy_from_slice(head);
            }
        }
        match self.below(32) {
            0 => v.truncate(v.len() - 1),
            1 => v.clear(),
            2 => {
                let at = self.below(v.len() as u64) as usize;
                v[at] = self.points.random.of(&[f64::NAN, f64::INFINITY, -f64::INFINITY, 1.0000000000000002, -1.5]);
            }
            3 if self.long || self.one_in(8) => v = self.cycle(),
            _ => {}
        }
        v
    }

    /// a few points over and over, around 1,024 of them
    pub fn cycle(&mut self) -> Vec<f64> {
        let few = 1 + self.below(3) as usize;
        let points: Vec<f64> = (0..few).flat_map(|_| self.points.point()).collect();
        let n = self.points.random.of(&[1022, 1023, 1024, 1024, 1025, 1025, 1026, 2000]);
        points.iter().copied().cycle().take(3 * n.min(1060) + self.one_in(8) as usize).collect()
    }

    /// a near list: the vertices, without some of them, other points, or a damaged one
    pub fn near(&mut self, v: &[f64]) -> Vec<f64> {
        match self.below(8) {
            0 => self.string(),
            1 => v.iter().copied().take(3 * (1 + self.below(v.len() as u64 / 3 + 1)) as usize).collect(),
            _ => v.to_vec(),
        }
    }

    /// points by themselves, one in 32 out of range
    pub fn singles(&mut self, n: usize) -> Vec<f64> {
        (0..n).flat_map(|_| self.single()).collect()
    }

    fn single(&mut self) -> Xyz {
        let mut p = self.points.point();
        if self.one_in(32) {
            p[self.below(3) as usize] = self.points.random.of(&[f64::NAN, f64::INFINITY, 2.0, -1.0000000000000002]);
        }
        p
    }

    pub fn flag(&mut self) -> u8 {
        self.points.random.of(&[0, 0, 1, 1, 2, 255])
    }

    /// a position in a list of n vertices, one past it, or one far beyond
    pub fn position(&mut self, n: usize) -> usize {
        let at = self.below(n as u64 + 2) as usize;
        if self.one_in(16) { usize::MAX - at } else { at }
    }

    /// the request with other buoys, each list one time in so many: all zero, all the same, one fewer or more than points, none, some,
    /// several more, as many as floats; every second long list is all the same, so that some lines with it are short enough to be stored
    pub fn renumbered(&mut self, mut r: Request, one_in: u64) -> Request {
        for k in 0..r.call.buoy_lists() {
            let (buoys, n) = (&mut r.buoys[k], r.lists[2 * k].len() / 3);
            let number = self.points.random.bits() as u32;
            if n > 1000 && self.one_in(2) {
                buoys.fill(number);
            }
            if self.one_in(one_in) {
                match self.below(8) {
                    0 => buoys.fill(0),
                    1 => buoys.fill(number),
                    2 => buoys.resize(n.saturating_sub(1), number),
                    3 => buoys.resize(n + 1, number),
                    4 => buoys.clear(),
                    5 => buoys.truncate(self.below(n as u64 + 1) as usize),
                    6 => buoys.resize(n + 2 + self.below(6) as usize, number),
                    _ => buoys.resize(r.lists[2 * k].len(), number),
                }
            }
        }
        r
    }

    /// the request with room around the length of its answer, one time in three just that
    pub fn roomed(&mut self, mut r: Request, expected: &Expected) -> Request {
        let needed = expected.as_ref().map_or(Places { floats: 9, buoys: 3, bytes: 3, numbers: 2 }, |answer| answer.needed(r.call));
        let around = Places {
            floats: self.room(needed.floats),
            buoys: self.room(needed.buoys),
            bytes: self.room(needed.bytes),
            numbers: self.room(needed.numbers),
        };
        r.room = r.call.buffers(if self.one_in(3) { needed } else { around });
        r
    }

    fn room(&mut self, n: usize) -> usize {
        match self.below(6) {
            0 => n.saturating_sub(1 + self.below(3) as usize),
            1 => self.below(2) as usize * n,
            2 => n + 1 + self.below(7) as usize,
            _ => n,
        }
    }

    /// n unit points; with `along`, three in four of those past the second lie along a leg before them
    pub fn course(&mut self, n: usize, along: bool) -> Vec<Xyz> {
        let mut points: Vec<Xyz> = vec![];
        while points.len() < n {
            let k = points.len();
            let fresh = unit([self.points.random.coordinate(), self.points.random.coordinate(), self.points.random.coordinate()]);
            let p = if k < 2 || !along || self.one_in(4) {
                fresh
            } else {
                let t = self.points.random.of(&[0.25, 0.5, 0.75, 1.25, 1.5, 2.0]);
                match self.below(8) {
                    0 => points[k - 1],
                    1 => points[self.below(k as u64) as usize],
                    _ => between(points[k - 2], points[k - 1], t),
                }
            };
            points.push(p);
        }
        points
    }

    /// a string to change: a course, a random one, or one of nearly 1,024 vertices
    pub fn course_or_string(&mut self) -> Vec<f64> {
        match self.below(if self.long { 8 } else { 4 }) {
            0 => self.string(),
            4.. => {
                let n = 1012 + self.below(13) as usize;
                let along = self.one_in(8);
                flat(&self.course(n, along))
            }
            _ => {
                let n = 1 + self.below(10) as usize;
                flat(&self.course(n, true))
            }
        }
    }

    /// points to insert or to split at: vertices, points beyond or within legs, others; now and then a damaged list
    pub fn extra(&mut self, v: &[f64]) -> Vec<f64> {
        let points = triples(v);
        if points.is_empty() || self.one_in(24) {
            return self.string();
        }
        let count = if points.len() > 64 { self.below(4) } else { self.below(6) };
        let mut out = vec![];
        for _ in 0..count {
            let k = self.below(points.len() as u64) as usize;
            let (a, b) = (points[k], points[(k + 1) % points.len()]);
            let t = self.points.random.of(&[0.5, 1.0000001, 1.25, 1.5, 2.0, 4.0]);
            let p = match self.below(6) {
                0 => a,
                1 => self.points.point(),
                _ => between(a, b, t),
            };
            out.push(within_range(p));
        }
        flat(&out)
    }
}

pub fn within_range(p: Xyz) -> Xyz {
    p.map(|c| if c.is_nan() { 0.0 } else { clamp(c) })
}

pub fn unit(p: Xyz) -> Xyz {
    let length = (p[0] * p[0] + p[1] * p[1] + p[2] * p[2]).sqrt();
    if length < 1e-3 { p } else { p.map(|c| clamp(c / length)) }
}

/// the point at t of the way from a to b, on the sphere: beyond b where t is over 1
pub fn between(a: Xyz, b: Xyz, t: f64) -> Xyz {
    unit([0, 1, 2].map(|k| a[k] + t * (b[k] - a[k])))
}
