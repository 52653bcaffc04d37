//! Midpoints where the halving of a sum shows: sums of one unit, the smallest float, or a few; subnormal ones; those of the lowest normal
//! range, which may lose a digit when they are halved; zero sums, of opposite points. All three coordinates so, and the vector is too short
//! to be divided; or beside others, and it is. Also vectors about as long as the shortest that is divided, and dense tracks, whose midpoints
//! are so long that their root is read off the pattern, or just not.
use crate::classes::legs;
use crate::inputs::{Inputs, unit};
use crate::lists::{flat, triples};
use crate::random::clamp;
use crate::request::{Call, Request};
use crate::strings;
use crate::tally::Tally;
use crate::unit_points::SHORT;

/// the smallest float
pub const UNIT: f64 = f64::from_bits(1);

/// the lowest normal float, in units: up to twice that every whole number of units is a float
const NORMAL: i64 = 1 << 52;

/// how long the legs of a dense track are, in rad: around the lengths at which the way to the root changes, and far from them
const STEPS: [f64; 8] = [1e-9, 1e-6, 1e-5, 1e-4, 2e-4, 2.4e-4, 2.5e-4, 1e-3];

/// whether a sum loses a digit when it is halved
pub fn half_rounded(sum: f64) -> bool {
    sum / 2.0 * 2.0 != sum
}

/// so many units, a zero of either sign
fn units(i: &mut Inputs, n: i64) -> f64 {
    if n == 0 && i.one_in(2) { -0.0 } else { n as f64 * UNIT }
}

fn either_sign(i: &mut Inputs, n: i64) -> i64 {
    if i.one_in(2) { n } else { -n }
}

/// a few units, subnormal numbers of every size, those around the lowest normal float, and those of its range
fn tiny(i: &mut Inputs) -> i64 {
    let bits = i.points.random.bits() >> 12;
    let n = match i.below(4) {
        0 => i.below(5) as i64,
        1 => (bits >> i.below(52)) as i64,
        2 => NORMAL - 4 + i.below(9) as i64,
        _ => NORMAL + bits as i64,
    };
    either_sign(i, n)
}

/// a coordinate that with so many units makes a zero sum, a sum of one unit, an odd one, subnormal or of the lowest normal range; or any
fn tiny_after(i: &mut Inputs, n: i64) -> i64 {
    let odd = (i.points.random.bits() >> 12) as i64 | 1;
    let sum = match i.below(6) {
        0 => 0,
        1 => 1,
        2 => odd,
        3 => NORMAL + odd,
        _ => return tiny(i),
    };
    either_sign(i, sum) - n
}

/// a coordinate that with another makes a zero sum, one around twice the shortest length, or any
fn other_after(i: &mut Inputs, c: f64) -> f64 {
    match i.below(6) {
        0 => -c,
        1 => clamp(f64::from_bits((2.0 * SHORT).to_bits() - 4 + i.below(9)) - c),
        _ => i.points.random.coordinate(),
    }
}

/// one coordinate of all vertices: of some units each, or any
fn axis(i: &mut Inputs, vertices: usize) -> Vec<f64> {
    let (mut n, mut c) = (tiny(i), i.points.random.coordinate());
    let in_units = i.one_in(2);
    let next = |_| {
        let this = if in_units { units(i, n) } else { c };
        (n, c) = (tiny_after(i, n), other_after(i, c));
        this
    };
    (0..vertices).map(next).collect()
}

/// a string of such coordinates
fn narrow(i: &mut Inputs) -> Vec<f64> {
    let n = 1 + i.below(9) as usize;
    let [x, y, z] = [axis(i, n), axis(i, n), axis(i, n)];
    (0..n).flat_map(|k| [x[k], y[k], z[k]]).collect()
}

/// a track of unit vectors, each about a step from the one before
fn dense(i: &mut Inputs) -> Vec<f64> {
    let step: f64 = i.points.random.of(&STEPS);
    let mut points = i.course(1, false);
    for k in 0..i.below(8) as usize {
        let away = i.course(1, false)[0];
        points.push(unit([0, 1, 2].map(|c| points[k][c] + step * away[c])));
    }
    flat(&points)
}

/// counts the sums of coordinates by what halving does with them
fn see(tally: &mut Tally, v: &[f64], closed: bool) {
    for (a, b) in legs(&triples(v), closed) {
        for (x, y) in a.into_iter().zip(b) {
            let sum = x + y;
            tally.see(match (sum.abs(), half_rounded(sum)) {
                (0.0, _) => "sums: zero",
                (UNIT, _) => "sums: one unit",
                (_, true) if sum.is_subnormal() => "sums: subnormal, with a half that is rounded",
                (_, false) if sum.is_subnormal() => "sums: subnormal, with a half that is a float",
                (_, true) => "sums: normal, with a half that is rounded",
                _ => "sums: others",
            });
            if (x * 0.5 + y * 0.5).to_bits() != (sum * 0.5).to_bits() {
                tally.see("of all sums, those that come out otherwise if each summand is halved first");
            }
        }
    }
}

pub fn run(tally: &mut Tally, n: u64) {
    let mut i = Inputs::new(29);
    while tally.done < n {
        for strings in [narrow, narrow, narrow, dense] {
            let (v, flag) = (strings(&mut i), i.flag());
            see(tally, &v, flag != 0);
            strings::send(tally, &mut i, Request::new(Call::Midpoints, &[&v]).flags(flag, 0));
        }
    }
}
