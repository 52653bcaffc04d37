//! Numbers and points to compare on: a fixed sequence for each seed.

/// splitmix64
pub struct Random(pub u64);

impl Random {
    pub fn bits(&mut self) -> u64 {
        self.0 = self.0.wrapping_add(0x9E37_79B9_7F4A_7C15);
        let mut z = self.0;
        z = (z ^ (z >> 30)).wrapping_mul(0xBF58_476D_1CE4_E5B9);
        z = (z ^ (z >> 27)).wrapping_mul(0x94D0_49BB_1331_11EB);
        z ^ (z >> 31)
    }

    pub fn below(&mut self, n: u64) -> u64 {
        self.bits() % n
    }

    pub fn of<T: Copy>(&mut self, all: &[T]) -> T {
        all[self.below(all.len() as u64) as usize]
    }

    /// from -1 to 1
    pub fn coordinate(&mut self) -> f64 {
        (self.bits() >> 11) as f64 / (1u64 << 52) as f64 - 1.0
    }
}

pub type Xyz = [f64; 3];

pub fn clamp(x: f64) -> f64 {
    x.clamp(-1.0, 1.0)
}

fn unit(p: Xyz) -> Xyz {
    let length = (p[0] * p[0] + p[1] * p[1] + p[2] * p[2]).sqrt();
    if length < 1e-3 { [1.0, 0.0, 0.0] } else { p.map(|c| clamp(c / length)) }
}

/// Steps around the tolerances, an ulp, and numbers whose squares are subnormal or zero.
const STEPS: [f64; 20] = [
    1e-11, 0.9999999e-11, 1.5e-11, 2e-11, 2.9999e-11, 3e-11, 3.1e-11, 1e-8, 1.9999999e-8, 2e-8, 2.0000001e-8, 3e-8,
    5.477225575051661e-6, 1e-5, 1.1102230246251565e-16, 2.2250738585072014e-308, 5e-324, 1e-160, 1e-200, 0.0,
];

/// Points of every kind that decides a test: axes, grid points with signed zeros, unit vectors, short and zero
/// vectors, points near earlier ones, opposite to them, between them.
pub struct Points {
    pub random: Random,
    earlier: Vec<Xyz>,
}

impl Points {
    pub fn new(seed: u64) -> Self {
        Self { random: Random(seed), earlier: vec![] }
    }

    fn zero(&mut self) -> f64 {
        self.random.of(&[0.0, -0.0])
    }

    fn fresh(&mut self) -> Xyz {
        let r = self.random.below(16);
        let mut p = [self.random.coordinate(), self.random.coordinate(), self.random.coordinate()];
        match r {
            0..=3 => {
                p = [self.zero(), self.zero(), self.zero()];
                let at = self.random.below(3) as usize;
                p[at] = self.random.of(&[1.0, -1.0]);
            }
            4..=6 => {
                for c in &mut p {
                    *c = self.random.of(&[0.0, -0.0, 0.25, -0.25, 0.5, -0.5, 1.0, -1.0]);
                }
            }
            7 => p[self.random.below(3) as usize] = self.zero(),
            8 => {
                let scale = self.random.of(&STEPS);
                p = p.map(|c| c * scale);
            }
            9 => p = [self.zero(), self.zero(), self.zero()],
            10..=13 => p = unit(p),
            _ => {}
        }
        p
    }

    fn near(&mut self, mut p: Xyz) -> Xyz {
        let at = self.random.below(3) as usize;
        let step = self.random.of(&STEPS) * self.random.of(&[1.0, -1.0]);
        match self.random.below(4) {
            0 => p[at] = clamp(f64::from_bits(p[at].to_bits() ^ 1)),
            1 => p = p.map(|c| clamp(c + step)),
            _ => p[at] = clamp(p[at] + step),
        }
        p
    }

    pub fn point(&mut self) -> Xyz {
        if self.random.below(64) == 0 {
            self.earlier.clear();
        }
        let n = self.earlier.len() as u64;
        let p = if n == 0 || self.random.below(2) == 0 {
            self.fresh()
        } else {
            let p = self.earlier[self.random.below(n) as usize];
            let q = self.earlier[self.random.below(n) as usize];
            match self.random.below(6) {
                0 => p,
                1 | 2 => self.near(p),
                3 => p.map(|c| -c),
                4 => unit([p[0] + q[0], p[1] + q[1], p[2] + q[2]]),
                _ => p.map(|c| if c == 0.0 { -c } else { c }),
            }
        };
        self.earlier.push(p);
        p
    }
}
