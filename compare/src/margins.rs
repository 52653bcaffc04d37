//! Margins of every kind: those that decide narrowly for the side values at hand, the least and the greatest, and those that are refused.
use crate::classes::{Leg, judge, pairs};
use crate::random::Random;
use crate::request::Request;
use crate::table;

/// about how many pairs of legs of a request are looked at for their side values
const PAIRS: usize = 128;

type Made = fn(&mut Random, &[f64]) -> f64;

/// the kinds by their names, each made of sizes of side values, in rising sequence, none of them 0
const KINDS: [(&str, Made); 21] = [
    ("0", |_, _| 0.0),
    ("-0", |_, _| -0.0),
    ("the least float", |_, _| 5e-324),
    ("a subnormal float", |random, _| f64::from_bits(1 + (random.bits() >> (12 + random.below(52))))),
    ("the least normal float", |_, _| f64::MIN_POSITIVE),
    ("the size of a side value", |random, sizes| random.of(sizes)),
    ("the float below the size of a side value", |random, sizes| random.of(sizes).next_down()),
    ("the float above the size of a side value", |random, sizes| random.of(sizes).next_up()),
    ("between the sizes of two side values", between),
    ("a power of ten from 1e-1 to 1e-40", |random, _| 10f64.powi(-1 - random.below(40) as i32)),
    ("twice the greatest side value", |_, sizes| 2.0 * sizes[sizes.len() - 1]),
    ("128, which no side value reaches", |_, _| 128.0),
    ("1e300", |_, _| 1e300),
    ("the greatest float", |_, _| f64::MAX),
    ("minus the least float", |_, _| -5e-324),
    ("minus the size of a side value", |random, sizes| -random.of(sizes)),
    ("minus 1, minus 1e300", |random, _| random.of(&[-1.0, -1e300])),
    ("minus the greatest float", |_, _| f64::MIN),
    ("NaN", |random, _| f64::from_bits(random.of(&[0x7FF8, 0xFFF8, 0x7FF0]) << 48 | random.of(&[1, 1 << 50]))),
    ("infinity", |_, _| f64::INFINITY),
    ("minus infinity", |_, _| f64::NEG_INFINITY),
];

/// of two sizes that are neighbours
fn between(random: &mut Random, sizes: &[f64]) -> f64 {
    let k = random.below(sizes.len() as u64) as usize;
    let next = sizes[(k + 1).min(sizes.len() - 1)];
    sizes[k] + (next - sizes[k]) / 2.0
}

/// the four of a pair, and the smallest, which decides, twice more
fn of_pair((a, b): (Leg, Leg)) -> [f64; 6] {
    let judged = judge(a, b);
    let [s, t, u, v] = judged.sides.map(f64::abs);
    [s, t, u, v, judged.least(), judged.least()]
}

/// the sizes of the side values other than 0 of pairs all over those that a request visits; 1 where there are none, or its lists are refused
pub fn sizes(r: &Request) -> Vec<f64> {
    let mut sizes = vec![];
    if table::refusal(&r.clone().margin(0.0)) == 0 {
        let visited = pairs(r).size_hint().0;
        sizes.extend(pairs(r).step_by(visited / PAIRS + 1).flat_map(of_pair));
    }
    sizes.retain(|s| *s > 0.0);
    sizes.sort_by(f64::total_cmp);
    if sizes.is_empty() { vec![1.0] } else { sizes }
}

/// a margin and the name of its kind
pub fn any(random: &mut Random, sizes: &[f64]) -> (&'static str, f64) {
    let (name, made) = random.of(&KINDS);
    (name, made(random, sizes))
}

/// one that is not refused
pub fn accepted(random: &mut Random, sizes: &[f64]) -> f64 {
    loop {
        let margin = any(random, sizes).1;
        if table::margin(margin) == 0 {
            return margin;
        }
    }
}
