//! How far from unit length the vertices are that are built. A point whose computed length is at least 3e-11 is divided by it, once in
//! an open string and twice in a closed one: each coordinate is again from -1 to 1, and the exact sum of their squares is less than
//! 2 to the power -49 away from 1. A shorter point stays as it is. The largest deviations found are shown with their points.
use crate::calls;
use crate::exact::Deviation;
use crate::lists::{flat, triples};
use crate::random::{Random, Xyz};
use crate::request::{Call, Request};
use crate::tally::Tally;
use crate::unit_points::{SHORT, adversarial, anywhere, bumped, length};
use crate::vectors::bits;

/// the sum of squares is less than 2 to the power of minus this away from 1
const BOUND: usize = 49;

/// points of a list; one more leaves it open or closes it
const LIST: usize = 1023;

const FAMILIES: [&str; 4] = ["random", "adversarial", "climb by first", "climb by second"];
const TIMES: [&str; 2] = ["once", "twice"];

/// a climber's coordinates move by up to 2 to the power of this many floats
const STRIDE: u64 = 49;

// ---- building and checking

/// the vertices of a list, divided once or, with the first point again at its end, twice; another call must accept them
fn built(tally: &mut Tally, points: &[Xyz], twice: bool) -> Vec<Xyz> {
    let first = points[0];
    let far = [if first[0] < 0.0 { 1.0 } else { -1.0 }, 0.0, 0.0];
    let list = [flat(points), flat(&[if twice { first } else { far }])].concat();
    let build = Request::new(Call::Build, &[&list]).room_for(list.len() / 3);
    let left = calls::answer(&build);
    let floats: Vec<f64> = left.floats.iter().map(|b| f64::from_bits(*b)).collect();
    let count = points.len() + !twice as usize;
    let back = Request::new(Call::WalkBack, &[&floats[..3 * count]]).room_for(count);
    let same = left.number == 0 && left.numbers == [count as u64] && left.bytes == [twice as u8] && calls::answer(&back).number == 0;
    let kind = if twice { "list: closed" } else { "list: open" };
    tally.compare(kind, same, || build.line(kind));
    triples(&floats[..3 * points.len()])
}

/// whether a point's vertex is as it must be, and its deviation in units of 2^-53, 0 where the point is not divided
fn check(p: Xyz, vertex: Xyz) -> (bool, f64) {
    if !vertex.iter().all(|c| (-1.0..=1.0).contains(c)) {
        return (false, 0.0);
    }
    if length(p) < SHORT {
        return (bits(vertex) == bits(p), 0.0);
    }
    let deviation = Deviation::of(vertex);
    (deviation.less_than(BOUND), deviation.units())
}

/// counts the points that are only just divided, or only just not, those with a subnormal coordinate, and zero vectors
fn see(tally: &mut Tally, p: Xyz) {
    match length(p).to_bits() as i64 - SHORT.to_bits() as i64 {
        -4..=-1 => tally.see("length below 3e-11 by at most 4 floats"),
        0..=4 => tally.see("length 3e-11, or above by at most 4 floats"),
        _ => {}
    }
    if p.iter().any(|c| c.is_subnormal()) {
        tally.see("points with a subnormal coordinate");
    }
    if p == [0.0; 3] {
        tally.see("zero vectors");
    }
}

// ---- the search

/// a point and the deviation of its vertex
#[derive(Clone, Copy, Default)]
struct Found {
    deviation: f64,
    point: Xyz,
}

impl Found {
    /// the other one instead, unless its deviation is smaller
    fn raise(&mut self, other: Found) {
        if other.deviation.abs() >= self.deviation.abs() {
            *self = other;
        }
    }
}

/// what was found of a point divided once, and twice
type Both = [Found; 2];

struct Search {
    random: Random,
    /// of each family
    worst: [Both; 4],
    /// those that climb by their deviation divided once, and those by it divided twice
    climbers: [Vec<Found>; 2],
}

impl Search {
    /// checks points of a family
    fn measure(&mut self, tally: &mut Tally, family: usize, points: &[Xyz]) -> Vec<Both> {
        let vertices = [built(tally, points, false), built(tally, points, true)];
        let mut all = vec![];
        for (k, p) in points.iter().enumerate() {
            see(tally, *p);
            let [once, twice] = [0, 1].map(|t| check(*p, vertices[t][k]));
            let kind = format!("{}: {}", FAMILIES[family], if length(*p) < SHORT { "kept" } else { "divided" });
            tally.compare(&kind, once.0 && twice.0, || {
                format!("{:016X?} once {:016X?} twice {:016X?}", bits(*p), bits(vertices[0][k]), bits(vertices[1][k]))
            });
            let both = [once.1, twice.1].map(|deviation| Found { deviation, point: *p });
            self.worst[family].iter_mut().zip(both).for_each(|(worst, found)| worst.raise(found));
            all.push(both);
        }
        all
    }

    /// a list of each family; of the climbers one in turn starts anew, at the worst of the random or of the adversarial list
    fn round(&mut self, tally: &mut Tally, round: usize) {
        let lists = [anywhere, adversarial].map(|point| (0..LIST).map(|_| point(&mut self.random)).collect::<Vec<Xyz>>());
        let fresh = [0, 1].map(|family| self.measure(tally, family, &lists[family]));
        for t in 0..2 {
            if round == 0 {
                self.climbers[t] = fresh[0].iter().map(|both| both[t]).collect();
            }
            let mut start = Found::default();
            fresh[round % 2].iter().for_each(|both| start.raise(both[t]));
            self.climbers[t][round % LIST] = start;
            let steps: Vec<Xyz> = self.climbers[t].iter().map(|c| bumped(&mut self.random, c.point, STRIDE)).collect();
            for (k, both) in self.measure(tally, 2 + t, &steps).iter().enumerate() {
                self.climbers[t][k].raise(both[t]);
            }
        }
    }

    fn print(&self) {
        eprint!("\r");
        println!("largest deviations of the sum of squares from 1, in units of 2^-53, and the points:");
        for (family, both) in FAMILIES.iter().zip(&self.worst) {
            for (times, found) in TIMES.iter().zip(both) {
                println!("    {family:<15}  divided {times:<5}  {:+.4}  {:016X?}", found.deviation, bits(found.point));
            }
        }
    }
}

/// so many points, in whole rounds
pub fn run(tally: &mut Tally, n: u64) {
    let mut search = Search { random: Random(13), worst: Default::default(), climbers: Default::default() };
    for round in 0..n.div_ceil(4 * LIST as u64) as usize {
        search.round(tally, round);
    }
    search.print();
}
