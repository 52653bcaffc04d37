//! The strings and the room that the timed calls are lent.
use crate::calls::c;
use crate::inputs::unit;
use crate::random::{Random, Xyz};
use std::hint::black_box;

pub const SIZES: [usize; 3] = [16, 256, 1024];
pub const LEGS: [(&str, f64); 2] = [("long", 1.0), ("short", 0.1)];

/// margins of the calls that take one
pub const MARGINS: [f64; 2] = [0.0, 1e-9];

/// nanoseconds of the published call and of ours
pub type Times = [f64; 2];

/// n unit points, each a step from the one before, the first one from a start: long legs (step 1), which cross often, or short ones
fn walk(start: Xyz, random: &mut Random, n: usize, step: f64) -> Vec<f64> {
    let mut p = start;
    let mut next = |_| {
        p = unit(p.map(|c| c * (1.0 - step) + step * random.coordinate()));
        p
    };
    (0..n).flat_map(&mut next).collect()
}

/// the same from a start of its own
pub fn string(n: usize, seed: u64, step: f64) -> Vec<f64> {
    let mut random = Random(seed);
    let start = [random.coordinate(), random.coordinate(), random.coordinate()];
    walk(start, &mut random, n, step)
}

/// n unit points from south to north, some twenty to a turn: no two legs cross
pub fn spiral(n: usize) -> Vec<f64> {
    let point = |k: usize| {
        let (turn, height) = (0.3 * k as f64, 1.2 * (k as f64 / n as f64 - 0.5));
        unit([turn.cos(), turn.sin(), height])
    };
    (0..n).flat_map(point).collect()
}

/// Places for kept points.
pub struct Room {
    points: Vec<f64>,
    marks: Vec<u8>,
    counts: [u64; 4],
}

impl Room {
    pub fn of(points: usize) -> Self {
        Self { points: vec![0.0; 3 * points], marks: vec![0; points], counts: [0; 4] }
    }

    /// how many points a listing call keeps, lent these places
    pub fn kept_by(&mut self, call: impl FnOnce(*mut f64, usize, *mut u8, usize, *mut usize, *mut u64) -> u32) -> usize {
        let mut kept = 0;
        let number = call(self.points.as_mut_ptr(), self.points.len(), self.marks.as_mut_ptr(), self.marks.len(), &mut kept, self.counts.as_mut_ptr());
        assert_eq!(number, 0, "a listing that is not refused");
        kept
    }
}

/// two open strings of n vertices
pub struct Two {
    pub a: Vec<f64>,
    pub b: Vec<f64>,
}

impl Two {
    pub fn new(n: usize, step: f64) -> Self {
        Self { a: string(n, 1 + n as u64, step), b: string(n, 77 + n as u64, step) }
    }

    /// both from one start, so that they stay in one patch where the legs are short
    pub fn in_one_patch(n: usize, step: f64) -> Self {
        let (start, mut random) = ([0.6, 0.0, -0.8], Random(n as u64));
        Self { a: walk(start, &mut random, n, step), b: walk(start, &mut random, n, step) }
    }

    pub fn pairs(&self) -> usize {
        (self.a.len() / 3 - 1) * (self.b.len() / 3 - 1)
    }

    /// how often a timed piece of work repeats a call
    pub fn inner(&self) -> usize {
        (6144 / self.a.len()).max(1)
    }

    pub fn count(&self, margin: f64) -> [u64; 4] {
        let (a, b, mut counts) = (black_box(&self.a), &self.b, [0; 4]);
        unsafe { c::arcstring_count(a.as_ptr(), a.len(), 0, b.as_ptr(), b.len(), 0, margin, counts.as_mut_ptr()) };
        counts
    }

    pub fn list(&self, margin: f64, room: &mut Room) -> usize {
        let (a, b) = (black_box(&self.a), &self.b);
        room.kept_by(|p, p_len, m, m_len, kept, counts| unsafe {
            c::arcstring_crossings(a.as_ptr(), a.len(), 0, b.as_ptr(), b.len(), 0, margin, p, p_len, m, m_len, kept, counts)
        })
    }
}
