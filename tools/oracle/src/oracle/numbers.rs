//! Numbers for the generators, deterministic by seed.

use crate::configuration::{self, Numbers, ordered};

/// splitmix64.
pub struct Random(u64);

impl Random {
    pub fn new(seed: u64) -> Self {
        Random(seed.wrapping_mul(0x2545_f491_4f6c_dd1d) ^ 0x9e37_79b9_7f4a_7c15)
    }

    pub fn next(&mut self) -> u64 {
        self.0 = self.0.wrapping_add(0x9e37_79b9_7f4a_7c15);
        let z = (self.0 ^ (self.0 >> 30)).wrapping_mul(0xbf58_476d_1ce4_e5b9);
        let z = (z ^ (z >> 27)).wrapping_mul(0x94d0_49bb_1331_11eb);
        z ^ (z >> 31)
    }

    pub fn below(&mut self, count: usize) -> usize {
        (self.next() >> 33) as usize % count
    }

    /// True once in so many.
    pub fn once_in(&mut self, count: usize) -> bool {
        self.below(count) == 0
    }

    /// From 0 up to 1.
    pub fn unit(&mut self) -> f32 {
        (self.next() >> 40) as f32 / (1u64 << 24) as f32
    }

    pub fn between(&mut self, low: f32, high: f32) -> f32 {
        low + (high - low) * self.unit()
    }

    pub fn pick<T: Copy>(&mut self, choices: &[T]) -> T {
        choices[self.below(choices.len())]
    }
}

/// Numbers at which something in the guidance turns over.
const THRESHOLDS: [f32; 31] = [
    1.0, 1e-6, 1e-3, 3.0, 0.1, 0.41421356, 0.5, 2.0, 4.0, 6.0, 8.0, 9.0, 10.0, 12.0, 20.0, 25.0, 40.0, 0.9, 0.2, 0.3,
    0.05, 9.80665, 49.03325, 0.7853982, 1.5707964, 3.1415927, 6.2831855, 0.34906584, 0.43633232, 1e19, 1e30,
];

const SPECIAL_BITS: [u32; 16] = [
    0x0000_0000, // +0
    0x8000_0000, // -0
    0x0000_0001, // least subnormal
    0x8000_0001,
    0x007f_ffff, // greatest subnormal
    0x0080_0000, // least normal
    0x8080_0000,
    0x7f7f_ffff, // greatest finite
    0xff7f_ffff,
    0x7f80_0000, // infinities
    0xff80_0000,
    0x7fc0_0000, // NaNs, four payloads
    0xffc0_0000,
    0x7f80_0001,
    0x7fff_ffff,
    0x5f80_0000, // its square overflows
];

/// A number and one step to either side.
fn neighbour(random: &mut Random, number: f32) -> f32 {
    match random.below(4) {
        0 => number.next_down(),
        1 => number.next_up(),
        _ => number,
    }
}

/// Any number at all, by its bits: zeros, subnormals, infinities, NaN payloads, thresholds.
pub fn wild(random: &mut Random) -> f32 {
    match random.below(8) {
        0..=2 => f32::from_bits(random.pick(&SPECIAL_BITS)),
        3 | 4 => {
            let threshold = random.pick(&THRESHOLDS);
            let number = neighbour(random, threshold);
            if random.once_in(3) { -number } else { number }
        }
        5 => f32::from_bits(random.next() as u32),
        6 => {
            // An exponent from the least normal's to the greatest's.
            let size = f32::from_bits((1 + random.below(254) as u32) << 23);
            size * random.between(-2.0, 2.0)
        }
        _ => random.between(-100.0, 100.0),
    }
}

/// What a number stands for, as a letter in a table of columns.
///
/// Inputs: `w` any number, `t` time step, `p` position, `v` velocity, `h` height, `s` airspeed,
/// `r` angle, `g` energy, `b` a flag. Configuration: `a` angle up to a quarter turn, `A` either
/// way, `u` up to 1, `c` not below 0, `T` above 0, `W` speed weight, `U` share.
pub fn ordinary(random: &mut Random, letter: char) -> f32 {
    match letter {
        't' => random.pick(&[0.01, 0.02, 0.05, 0.1, 0.25, 1.0, 2.0]),
        'p' => coarse(random, 300.0),
        'v' => coarse(random, 24.0),
        'h' => random.between(-10.0, 150.0),
        's' => random.between(0.0, 35.0),
        'r' => random.between(-1.6, 1.6),
        'g' => random.between(-400.0, 400.0),
        'a' => random.between(0.0, 1.57),
        'A' => random.between(-0.3, 0.3),
        'u' => random.unit(),
        'c' => random.between(0.0, 20.0),
        'T' => random.between(0.1, 40.0),
        'W' => random.between(0.0, 2.0),
        'U' => random.between(0.3, 1.0),
        _ => random.between(-10.0, 10.0),
    }
}

/// Whole numbers half of the time, so that sums come out even and ties are met.
fn coarse(random: &mut Random, size: f32) -> f32 {
    let number = random.between(-size, size);
    if random.once_in(2) { number.round() } else { number }
}

/// A valid configuration number at the end of its range, or an ordinary one.
pub fn extreme(random: &mut Random, letter: char) -> f32 {
    const LEAST: f32 = f32::from_bits(1);
    const QUARTER: f32 = std::f32::consts::FRAC_PI_2;
    let ends: &[f32] = match letter {
        'a' => &[0.0, -0.0, LEAST, 1e-30, 0.125, QUARTER, QUARTER.next_down()],
        'A' => &[0.0, -0.0, LEAST, -LEAST, 0.125, -0.125, QUARTER, -QUARTER],
        'u' => &[0.0, -0.0, LEAST, 1e-10, 0.5, 1.0, 1.0f32.next_down()],
        'c' => &[0.0, -0.0, LEAST, f32::MIN_POSITIVE, 1e-20, 1e10, 1e20, f32::MAX],
        'T' => &[LEAST, f32::MIN_POSITIVE, 1e-20, 1e-3, 1.0, 1e6, 1e20, f32::MAX],
        'W' => &[0.0, -0.0, 1.0, 2.0, 2.0f32.next_down(), 1.0f32.next_up(), 1.0f32.next_down()],
        'U' => &[LEAST, f32::MIN_POSITIVE, 0.5, 0.9, 1.0, 1.0f32.next_down()],
        _ => return wild(random),
    };
    if random.once_in(4) { ordinary(random, letter) } else { random.pick(ends) }
}

/// How far a row or a configuration departs from the ordinary.
#[derive(Clone, Copy, PartialEq)]
pub enum Style {
    Ordinary,
    /// Here and there a number is not ordinary.
    Spotted,
    Wild,
}

pub fn style(random: &mut Random) -> Style {
    random.pick(&[Style::Ordinary, Style::Spotted, Style::Spotted, Style::Wild])
}

/// Whether the next number is to be out of the ordinary.
pub fn odd(random: &mut Random, style: Style) -> bool {
    match style {
        Style::Ordinary => false,
        Style::Spotted => random.once_in(6),
        Style::Wild => !random.once_in(4),
    }
}

/// The columns of the 16 numbers of the energy configuration, fields 15 to 30.
pub const ENERGY_COLUMNS: &str = "TTTcccccWcTTUTTT";

/// The columns of all 33 numbers.
pub fn configuration_columns() -> String {
    format!("aaacccAuTTTccc{ENERGY_COLUMNS}uuc")
}

/// A valid configuration: the defaults, with numbers changed by style, and its pairs in order.
pub fn configuration(random: &mut Random, style: Style) -> Numbers {
    let mut numbers = configuration::default();
    for (number, letter) in numbers.iter_mut().zip(configuration_columns().chars()) {
        if odd(random, style) {
            *number = extreme(random, letter);
        } else if random.once_in(3) {
            *number = ordinary(random, letter);
        }
    }
    ordered(numbers)
}

/// One row of inputs: flags as 0 or 1, numbers as bits.
pub fn row(random: &mut Random, columns: &str) -> Vec<u32> {
    let style = style(random);
    let mut words = Vec::new();
    for letter in columns.chars() {
        words.push(if letter == 'b' {
            random.below(2) as u32
        } else if odd(random, style) {
            crate::record::bits(wild(random))
        } else {
            crate::record::bits(ordinary(random, letter))
        });
    }
    words
}

/// Rows to begin with for a function of one or two numbers: the special numbers, and for one
/// number every threshold with its neighbours.
pub fn corner_rows(columns: &str) -> Vec<Vec<u32>> {
    let special = SPECIAL_BITS.map(|bits| crate::record::bits(f32::from_bits(bits)));
    match columns.len() {
        1 => {
            let around = |t: f32| [t.next_down(), t, t.next_up()];
            let signed = |t: f32| [t.to_bits(), (-t).to_bits()];
            let thresholds = THRESHOLDS.into_iter().flat_map(around).flat_map(signed);
            special.into_iter().chain(thresholds).map(|word| vec![word]).collect()
        }
        2 => special.iter().flat_map(|a| special.map(|b| vec![*a, b])).collect(),
        _ => Vec::new(),
    }
}
