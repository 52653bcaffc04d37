//! How far the sum of the squares of three floats is from 1, exactly, over whole numbers. A float from -1 to 1 is a whole number of
//! 2^-1074, so its square is one of 2^-2148, and so is 1.
use crate::random::Xyz;

/// the bit at which 1 stands, counted in 2^-2148
const ONE: usize = 2 * 1074;

/// so many parts of 64 bits, the lowest first, hold a sum of three squares, and 1 taken from it with its sign
const PARTS: usize = ONE / 64 + 1;

/// the sum of squares less 1: its sign, and its size as a whole number of 2^-2148
pub struct Deviation {
    negative: bool,
    size: [u64; PARTS],
}

impl Deviation {
    /// of three coordinates, each from -1 to 1
    pub fn of(v: Xyz) -> Self {
        let mut sum = [0; PARTS];
        // less 1, as in two's complement: what is carried beyond the highest part is dropped
        sum[ONE / 64] = u64::MAX << (ONE % 64);
        for c in v {
            let (digits, at) = whole(c);
            add(&mut sum, digits as u128 * digits as u128, 2 * at);
        }
        let negative = sum[PARTS - 1] >> 63 == 1;
        if negative {
            sum = sum.map(|part| !part);
            add(&mut sum, 1, 0);
        }
        Self { negative, size: sum }
    }

    /// whether the size is less than 2 to the power -`power`
    pub fn less_than(&self, power: usize) -> bool {
        let (part, bit) = ((ONE - power) / 64, (ONE - power) % 64);
        self.size[part] >> bit == 0 && self.size[part + 1..].iter().all(|p| *p == 0)
    }

    /// in units of 2^-53, rounded: to be shown, and to climb by
    pub fn units(&self) -> f64 {
        let size = self.size[PARTS - 4..].iter().rev().fold(0.0, |sum, part| sum * 2f64.powi(64) + *part as f64);
        let units = size * 2f64.powi(64 * (PARTS as i32 - 4) - (ONE as i32 - 53));
        if self.negative { -units } else { units }
    }
}

/// a float's size as digits and the bit at which they start, counted in 2^-1074
fn whole(c: f64) -> (u64, usize) {
    let bits = c.abs().to_bits();
    let (exponent, digits) = ((bits >> 52) as usize, bits & ((1 << 52) - 1));
    if exponent == 0 { (digits, 0) } else { (digits | 1 << 52, exponent - 1) }
}

/// adds a whole number that starts at a bit
fn add(sum: &mut [u64; PARTS], number: u128, bit: usize) {
    for (k, half) in [number as u64, (number >> 64) as u64].into_iter().enumerate() {
        let mut carry = (half as u128) << (bit % 64);
        for part in &mut sum[bit / 64 + k..] {
            if carry == 0 {
                break;
            }
            carry += *part as u128;
            *part = carry as u64;
            carry >>= 64;
        }
    }
}
