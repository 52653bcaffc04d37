//! Points to normalise: of every length down to the shortest that are divided and below it, and such that the roundings on the way are as
//! coarse as they get.
use crate::random::{Random, Xyz};
use std::f64::consts::FRAC_1_SQRT_2;

/// a point with a smaller computed length stays as it is
pub const SHORT: f64 = 3e-11;

/// zeros, 1 and what is next to it, the least float and the least normal one
const EDGES: [f64; 7] = [0.0, -0.0, 1.0, 1.0 - f64::EPSILON / 2.0, 0.5, f64::MIN_POSITIVE, 5e-324];

/// the published expression
pub fn length(p: Xyz) -> f64 {
    ((p[0] * p[0] + p[1] * p[1]) + p[2] * p[2]).sqrt()
}

fn power(exponent: u64) -> f64 {
    0.5f64.powi(exponent as i32)
}

/// a float moved away from zero or towards it by a number of floats, no further than 0 and 1
fn moved(x: f64, by: i64) -> f64 {
    let size = (x.abs().to_bits() as i64 + by).clamp(0, 1f64.to_bits() as i64);
    f64::from_bits(size as u64).copysign(x)
}

/// each coordinate moved by up to 2 to a power of floats, either way; the power is from 0 up to `most`
pub fn bumped(random: &mut Random, p: Xyz, most: u64) -> Xyz {
    let power = random.below(most + 1);
    p.map(|c| moved(c, random.below((2 << power) + 1) as i64 - (1 << power)))
}

fn cube(random: &mut Random) -> Xyz {
    [random.coordinate(), random.coordinate(), random.coordinate()]
}

/// anywhere in the cube, made smaller by a power of two
pub fn anywhere(random: &mut Random) -> Xyz {
    let scale = power(random.below(36));
    cube(random).map(|c| c * scale)
}

/// from 0 to 1 at any scale, subnormal ones included
fn any(random: &mut Random) -> f64 {
    f64::from_bits(random.below(1f64.to_bits() + 1))
}

/// coordinates at scales of their own, lengths around the shortest, nearly equal coordinates, one alone, zeros and ones
pub fn adversarial(random: &mut Random) -> Xyz {
    let (u, scale, near) = (cube(random), power(random.below(36)), power(2 + random.below(52)));
    let large = 0.75 + 0.25 * u[0];
    let tiny = [f64::from_bits(random.below(1 << 53)), any(random), u[1] * power(537), u[1] * power(62)];
    let mut p = match random.below(11) {
        0 => [large * scale, any(random), any(random)],
        1 => [any(random), any(random), any(random)],
        // about as long as the shortest, or so to a few floats: with tiny partners, or in any direction
        2 => [SHORT * (1.0 + u[0] * near), random.of(&tiny), random.of(&tiny)],
        3 => [moved(SHORT, random.below(9) as i64 - 4), random.of(&tiny), random.of(&[0.0, tiny[0]])],
        4 => bumped(random, u.map(|c| c * (SHORT / length(u).max(SHORT))), 3),
        5 => bumped(random, [large; 3], 3).map(|c| c * scale),
        6 => [1.0, u[1] * power(26), u[2] * power(26)].map(|c| c * large * scale),
        7 => [large * scale, 0.0, 0.0],
        8 => [random.of(&EDGES), random.of(&EDGES), random.of(&EDGES)],
        // two whose squares make about 1, or just over a half each, and a third whose square is about the last digit of their sum
        9 => bumped(random, [large, (1.0 - large * large).sqrt(), u[2] * power(25)], 46).map(|c| c * scale),
        _ => [1.0 + u[0].abs() * near, 1.0 + u[1].abs() * near, (1.0 + u[2] * near) * power(26)].map(|c| c * FRAC_1_SQRT_2 * scale),
    };
    p.rotate_left(random.below(3) as usize);
    p.map(|c| if random.below(2) == 0 { c } else { -c })
}
