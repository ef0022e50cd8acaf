//! Arguments for the stand-ins, deterministic by seed: any bits, special numbers, thresholds and their neighbours, numbers between
//! which a result is nearly a tie, and ordinary ones.

pub struct Arguments(u64);

const SPECIAL: [u32; 16] = [
    0x0000_0000, // zero
    0x0000_0001, // subnormals
    0x0000_0002,
    0x007f_ffff,
    0x0080_0000, // least normals
    0x0080_0001,
    0x3f7f_ffff, // about 1
    0x3f80_0000,
    0x3f80_0001,
    0x7f7f_fffe, // greatest finite
    0x7f7f_ffff,
    0x7f80_0000, // infinity
    0x7f80_0001, // NaNs
    0x7fc0_0000,
    0x7fff_ffff,
    0x5f80_0000, // its square overflows
];

/// Where the arctangent changes its series.
const SLOPES: [f32; 4] = [0.41421356, 1.0, 2.4142136, 1.5];

impl Arguments {
    pub fn new(seed: u64) -> Self {
        Arguments(seed.wrapping_mul(0x2545_f491_4f6c_dd1d) ^ 0x9e37_79b9_7f4a_7c15)
    }

    /// splitmix64.
    fn next(&mut self) -> u64 {
        self.0 = self.0.wrapping_add(0x9e37_79b9_7f4a_7c15);
        let z = (self.0 ^ (self.0 >> 30)).wrapping_mul(0xbf58_476d_1ce4_e5b9);
        let z = (z ^ (z >> 27)).wrapping_mul(0x94d0_49bb_1331_11eb);
        z ^ (z >> 31)
    }

    fn below(&mut self, count: u64) -> u64 {
        (self.next() >> 33) % count
    }

    fn pick<T: Copy>(&mut self, choices: &[T]) -> T {
        choices[self.below(choices.len() as u64) as usize]
    }

    fn signed(&mut self, x: f32) -> f32 {
        if self.below(2) == 0 { -x } else { x }
    }

    /// A number up to three steps away.
    fn near(&mut self, x: f32) -> f32 {
        let steps = self.below(7) as i32 - 3;
        (0..steps.abs()).fold(x, |x, _| if steps < 0 { x.next_down() } else { x.next_up() })
    }

    fn bits(&mut self) -> f32 {
        f32::from_bits(self.next() as u32)
    }

    fn ordinary(&mut self) -> f32 {
        let size = self.pick(&[1.0, 4.0, 100.0, 1000.0]);
        let x = size * ((self.next() >> 40) as f32 / (1u64 << 24) as f32);
        self.signed(x)
    }

    pub fn any(&mut self) -> f32 {
        match self.below(4) {
            0 => {
                let x = f32::from_bits(self.pick(&SPECIAL));
                self.signed(x)
            }
            1 => self.ordinary(),
            _ => self.bits(),
        }
    }

    /// For root, sine or cosine: half of them at the function's own edges.
    pub fn one(&mut self, name: &str) -> f32 {
        match (name, self.below(2)) {
            (_, 0) => self.any(),
            ("root", _) => self.square(),
            _ => self.turn(),
        }
    }

    /// Near the square of a number half-way between two, so that the root is nearly a tie; or of a number itself.
    fn square(&mut self) -> f32 {
        let digits = (1 << 23) + self.below(1 << 23);
        let half = self.below(2);
        let twice = 2 * digits + half;
        let power = 2f64.powi(2 * (self.below(100) as i32 - 80));
        let x = ((twice * twice) as f64 * power) as f32;
        self.near(x)
    }

    /// Near a multiple of an eighth of a turn, where the cosine changes its series or its side.
    fn turn(&mut self) -> f32 {
        let most = self.pick(&[16, 1 << 10, 1 << 20]);
        let x = (self.below(most) as f64 * std::f64::consts::FRAC_PI_4) as f32;
        let x = self.near(x);
        self.signed(x)
    }

    pub fn slope(&mut self) -> f32 {
        if self.below(2) == 0 {
            return self.any();
        }
        let x = self.pick(&SLOPES);
        let x = self.near(x);
        self.signed(x)
    }

    /// For the arcsine: mostly between -1 and 1, its ends and the number whose angle is an eighth of a turn.
    pub fn share(&mut self) -> f32 {
        if self.below(4) == 0 {
            return self.any();
        }
        let between = (self.next() >> 40) as f32 / (1u64 << 24) as f32;
        let x = self.pick(&[between, between, 1.0, 0.70710677]);
        let x = self.near(x);
        self.signed(x)
    }

    /// Two numbers, a third of them equal but for signs and steps.
    pub fn pair(&mut self) -> [f32; 2] {
        let a = self.any();
        if self.below(3) != 0 {
            return [a, self.any()];
        }
        let b = self.near(a);
        [a, self.signed(b)]
    }

    /// For the arctangent of y, x: half of them with a quotient near a threshold, zeros and infinities among them.
    pub fn ratio(&mut self) -> [f32; 2] {
        if self.below(2) == 0 {
            return self.pair();
        }
        let x = if self.below(2) == 0 { self.ordinary() } else { self.any() };
        let y = x * self.slope();
        [self.near(y), x]
    }

    pub fn four(&mut self) -> [f32; 4] {
        let ([a, b], [c, d]) = (self.pair(), self.pair());
        [a, b, c, d]
    }

    /// A number and bounds, often at or next to the number, crossed ones too.
    pub fn clamp(&mut self) -> [f32; 3] {
        let ([v, low], high) = (self.pair(), self.any());
        let beside = self.near(v);
        self.pick(&[[v, low, high], [v, high, low], [v, beside, high], [v, low, beside], [v, low, low]])
    }

    /// A vector and a floor, often the vector's length or next to it.
    pub fn normalise(&mut self) -> [f32; 3] {
        let [x, y] = self.pair();
        let length = (x * x + y * y).sqrt();
        let beside = self.near(length);
        let other = self.any();
        [x, y, self.pick(&[beside, other, 1e-6, 1e-3])]
    }
}
