//! Legs and marks beside them with which the test of marks decides narrowly. They are made of a few numbers, and one of these is moved to
//! the two neighbouring floats between which the mark's place changes.
use crate::classes::Leg;
use crate::expected_mark::{Place, place};
use crate::inputs::{Inputs, within_range};
use crate::narrow::ulps_off;
use crate::random::{Random, Xyz};
use sphersgeo::sphericalpoint::{xyz_cross, xyz_dot};
use std::f64::consts::{FRAC_PI_2, PI};

/// angles of a leg: none and around equal ends, around the shortest normal, small, up to 90 degrees, over it, around 120, around the widest
const ANGLES: [&[f64]; 7] = [
    &[0.0, 1e-12, 2e-11, 1e-10, 1e-9],
    &[1.9e-8, 1.99999999e-8, 2e-8, 2.00000001e-8, 2.1e-8],
    &[3e-8, 1e-7, 1e-6, 1e-4, 1e-2],
    &[0.3, 1.0, FRAC_PI_2],
    &[FRAC_PI_2, 2.0, 3.0],
    &[2.0 * PI / 3.0 - 1e-9, 2.0 * PI / 3.0, 2.0 * PI / 3.0 + 1e-9, 2.2],
    &[PI - 1e-3, PI - 2.1e-4, PI - 1.9e-4, PI],
];

/// how long an end of a leg or a mark is, where it is not of length 1
const LENGTHS: [f64; 14] = [0.0, 5e-324, 1e-310, 1e-160, 1e-11, 1.9e-8, 2e-8, 2.1e-8, 1e-3, 0.1, 0.5, 0.9, 0.999999999, 1.0];

/// how far a mark is off the plane, around the tolerance and around what a look without a root may go by
const OFF: [f64; 10] = [0.0, 1e-11, 1e-8, 1.99999999e-8, 2e-8, 2.00000001e-8, 3e-8, 1e-7, 2e-7, 1e-3];

/// how far a mark is moved along an axis, around equal points; and how far past an end it is
const STEPS: [f64; 10] = [0.0, 1e-11, 2.9e-11, 3e-11, 3.1e-11, 5e-11, 1e-10, 1e-9, 1e-8, 1e-6];

// ---- what a leg and a mark are made of

/// the numbers by their positions
const ANGLE: usize = 0;
const START: usize = 1;
const END: usize = 2;
const TURN: usize = 3;
const ASIDE: usize = 4;
const LENGTH: usize = 5;
const MOVED: usize = 6;

/// Where a mark is made from.
#[derive(Clone, Copy, PartialEq)]
enum Base {
    Circle,
    Start,
    End,
}

/// A great circle as three directions at right angles, the first two in its plane; and the numbers, none below 0: of the leg its angle and
/// how long its ends are, of the mark its angle from the leg's start, how far off the plane it is, how long it is, and how far it is moved
/// along an axis, or along all of them. A given leg stays as it is.
#[derive(Clone)]
struct Made {
    circle: [Xyz; 3],
    given: Option<Leg>,
    base: Base,
    axis: usize,
    numbers: [f64; 7],
}

impl Made {
    fn leg(&self) -> Leg {
        let (circle, n) = (&self.circle, self.numbers);
        self.given.unwrap_or_else(|| (at(circle, 0.0, 0.0, n[START]), at(circle, n[ANGLE], 0.0, n[END])))
    }

    fn mark(&self) -> Xyz {
        let (n, leg) = (self.numbers, self.leg());
        let mut mark = match self.base {
            Base::Circle => at(&self.circle, n[TURN], n[ASIDE], n[LENGTH]),
            Base::Start => leg.0,
            Base::End => leg.1,
        };
        for (k, c) in mark.iter_mut().enumerate() {
            if n[MOVED] > 0.0 && (self.axis == k || self.axis == 3) {
                *c += n[MOVED];
            }
        }
        within_range(mark)
    }

    fn place(&self) -> Place {
        let (start, end) = self.leg();
        place(&start, &end, &self.mark())
    }

    fn with(&self, which: usize, number: f64) -> Made {
        let mut other = self.clone();
        other.numbers[which] = number;
        other
    }
}

fn angle(random: &mut Random) -> f64 {
    let few = random.of(&ANGLES);
    random.of(few)
}

fn length(random: &mut Random) -> f64 {
    match random.below(12) {
        0 => random.of(&LENGTHS),
        1 => random.coordinate().abs(),
        _ => 1.0,
    }
}

/// an angle of a mark from the start of a leg of some angle: on the leg, at an end, just past one, opposite, at a right angle to the middle
fn turn(random: &mut Random, angle: f64) -> f64 {
    let past = random.of(&STEPS);
    match random.below(12) {
        0..4 => angle * random.of(&[0.25, 0.5, 0.75, 0.001, 0.999]),
        4 => angle * random.coordinate().abs(),
        5 => angle + past,
        6 => 2.0 * PI - past,
        7 => angle / 2.0 + PI + past,
        8 => angle / 2.0 + FRAC_PI_2 + past,
        9 => angle / 2.0 + 3.0 * FRAC_PI_2 - past,
        10 => random.of(&[0.0, angle]),
        _ => 2.0 * PI * random.coordinate().abs(),
    }
}

fn number(random: &mut Random, which: usize, angle: f64) -> f64 {
    match which {
        ANGLE => angle,
        START | END | LENGTH => length(random),
        TURN => turn(random, angle),
        ASIDE if random.below(2) == 0 => random.of(&OFF),
        MOVED if random.below(4) == 0 => random.of(&STEPS),
        _ => 0.0,
    }
}

// ---- great circles

/// so far around a great circle, so far off its plane, of this length
fn at([x, y, z]: &[Xyz; 3], turn: f64, aside: f64, length: f64) -> Xyz {
    let (sin, cos) = turn.sin_cos();
    within_range([0, 1, 2].map(|k| length * (cos * x[k] + sin * y[k]) + aside * z[k]))
}

fn divided(p: Xyz) -> Xyz {
    let length = xyz_dot(&p, &p).sqrt();
    if length > 0.0 { p.map(|c| c / length) } else { p }
}

/// the great circle from a direction towards another point
fn towards(x: Xyz, p: Xyz) -> [Xyz; 3] {
    let along = xyz_dot(&x, &p);
    let y = divided([0, 1, 2].map(|k| p[k] - along * x[k]));
    [x, y, xyz_cross(&x, &y)]
}

/// any one, or one along the axes, on which many products are exact
fn circle(i: &mut Inputs) -> [Xyz; 3] {
    if i.one_in(2) {
        let two = i.course(2, false);
        return towards(two[0], two[1]);
    }
    let (first, way) = (i.below(3) as usize, i.below(2) as usize);
    let mut axes = [[0.0; 3]; 3];
    for (k, axis) in axes.iter_mut().enumerate() {
        axis[(first + k * (1 + way)) % 3] = i.points.random.of(&[1.0, -1.0]);
    }
    axes
}

// ---- legs, marks, vertices

fn made(i: &mut Inputs, given: Option<Leg>) -> Made {
    let circle = given.map_or_else(|| circle(i), |(a, b)| towards(divided(a), b));
    let angle = given.map_or_else(|| angle(&mut i.points.random), |(a, b)| xyz_dot(&xyz_cross(&a, &b), &circle[2]).atan2(xyz_dot(&a, &b)).abs());
    let base = i.points.random.of(&[Base::Circle, Base::Circle, Base::Circle, Base::Circle, Base::Start, Base::End]);
    let numbers = [0, 1, 2, 3, 4, 5, 6].map(|which| number(&mut i.points.random, which, angle));
    Made { circle, given, base, axis: i.below(4) as usize, numbers }
}

/// the two neighbouring floats between two numbers, neither below 0, at which something is no longer what it is at the first
fn change(first: f64, second: f64, same: impl Fn(f64) -> bool) -> [f64; 2] {
    let (mut low, mut high) = (first.to_bits(), second.to_bits());
    while low.abs_diff(high) > 1 {
        let middle = (low + high) / 2;
        *(if same(f64::from_bits(middle)) { &mut low } else { &mut high }) = middle;
    }
    [low, high].map(f64::from_bits)
}

/// a number to move, and how far
fn move_to(random: &mut Random, made: &Made) -> (usize, f64) {
    let which = match (made.base, made.given) {
        (Base::Circle, Some(_)) => random.of(&[TURN, ASIDE, LENGTH, MOVED]),
        (Base::Circle, None) => random.of(&[ANGLE, START, END, TURN, ASIDE, LENGTH]),
        _ => MOVED,
    };
    let far = match which {
        ANGLE => angle(random),
        ASIDE => 1e-6,
        MOVED => 1e-9,
        TURN => turn(random, made.numbers[ANGLE]),
        _ => random.of(&LENGTHS),
    };
    (which, far)
}

/// with one number moved to either side of where the mark's place changes, its verdict if that does; the same twice where it does not
fn either_side(i: &mut Inputs, made: Made) -> [Made; 2] {
    let (which, far) = move_to(&mut i.points.random, &made);
    let near = made.numbers[which];
    let placed = |number: f64| made.with(which, number).place();
    let (here, there) = (placed(near), placed(far));
    let turned = here.holds() != there.holds();
    let numbers = match here != there {
        true => change(near, far, |number| if turned { placed(number).holds() == here.holds() } else { placed(number) == here }),
        false => [near, near],
    };
    numbers.map(|number| made.with(which, number))
}

/// now and then a float or two off, or with the other sign of its zeros
fn touched(i: &mut Inputs, p: Xyz) -> Xyz {
    match i.below(16) {
        0 => ulps_off(i, p),
        1 => p.map(|c| if c == 0.0 { -c } else { c }),
        _ => p,
    }
}

/// two legs with a mark each, on either side of what decides the test where there is such a place
pub fn narrow(i: &mut Inputs) -> [(Leg, Xyz); 2] {
    let made = made(i, None);
    either_side(i, made).map(|m| {
        let ((a, b), mark) = (m.leg(), m.mark());
        ((touched(i, a), touched(i, b)), touched(i, mark))
    })
}

/// a mark beside a leg
pub fn beside(i: &mut Inputs, leg: Leg) -> Xyz {
    let made = made(i, Some(leg));
    let two = if i.one_in(2) { either_side(i, made) } else { [made.clone(), made] };
    let mark = two[i.below(2) as usize].mark();
    touched(i, mark)
}

/// a vertex at one of the angles from another, in any direction
pub fn next(i: &mut Inputs, from: Xyz) -> Xyz {
    let (direction, angle) = (i.course(1, false)[0], angle(&mut i.points.random));
    at(&towards(divided(from), direction), angle, 0.0, 1.0)
}

/// so many vertices on one great circle, so that a mark on it is on several legs
pub fn on_one_circle(i: &mut Inputs, n: usize) -> Vec<Xyz> {
    let circle = circle(i);
    let (few, length) = (i.one_in(2), length(&mut i.points.random));
    let turn = |i: &mut Inputs| if few { PI / 6.0 * i.below(12) as f64 } else { 2.0 * PI * i.points.random.coordinate().abs() };
    (0..n).map(|_| at(&circle, turn(i), 0.0, length)).collect()
}
