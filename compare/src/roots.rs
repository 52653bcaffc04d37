//! The square root against the processor's.
use crate::tally::Tally;
use crate::random::Random;
use std::hint::black_box;

/// the pattern of 1
const ONE: u64 = 1f64.to_bits();

unsafe extern "C" {
    fn sphericalpoint_sqrt(x: f64) -> f64;
}

pub fn sqrt(x: f64) -> f64 {
    unsafe { sphericalpoint_sqrt(x) }
}

fn check(tally: &mut Tally, kind: &str, x: f64) {
    let (ours, theirs) = (sqrt(x), x.sqrt());
    let same = ours.to_bits() == theirs.to_bits() || ours.is_nan() && theirs.is_nan();
    tally.compare(kind, same, || format!("sqrt of {:016X}: {:016X}, the processor {:016X}", x.to_bits(), ours.to_bits(), theirs.to_bits()));
}

/// the pattern and its neighbours
fn around(tally: &mut Tally, kind: &str, bits: u64) {
    for b in [bits.wrapping_sub(1), bits, bits.wrapping_add(1)] {
        check(tally, kind, f64::from_bits(b));
    }
}

pub fn run(tally: &mut Tally, n: u64) {
    let mut random = Random(1);
    for exponent in 0..2048u64 {
        for digits in [0, 1, 2, (1 << 52) - 2, (1 << 52) - 1, 1 << 51] {
            around(tally, "root at an exponent's edge", exponent << 52 | digits);
            around(tally, "root at an exponent's edge", 1 << 63 | exponent << 52 | digits);
        }
    }
    for i in 0..52 {
        around(tally, "root at a power below the normal range", 1 << i);
        around(tally, "root at a power of two of places from 1", ONE + (1 << i));
        around(tally, "root at a power of two of places from 1", ONE - (1 << i));
    }
    while tally.done < n {
        check(tally, "root of random bits", f64::from_bits(random.bits()));
        let away = random.bits() >> (35 + random.below(29));
        check(tally, "root up to 2^29 places from 1", f64::from_bits(if random.below(2) == 0 { ONE + away } else { ONE - away }));
        check(tally, "root of a subnormal", f64::from_bits(random.bits() >> (12 + random.below(52))));
        let r = (random.bits() >> (38 + random.below(25))) as f64;
        let scale = f64::from_bits((1023 - 480 + 2 * random.below(480)) << 52);
        around(tally, "root around a perfect square", (r * r * scale).to_bits());
    }
}

/// independent numbers to take roots of, for timing
pub fn inputs() -> Vec<f64> {
    let mut random = Random(7);
    (0..4096).map(|_| f64::from_bits(random.bits() >> 2)).filter(|x| x.is_finite()).collect()
}

pub fn all(inputs: &[f64], root: impl Fn(f64) -> f64) {
    for x in inputs {
        black_box(root(black_box(*x)));
    }
}
