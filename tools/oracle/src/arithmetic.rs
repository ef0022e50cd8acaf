//! Document 01's arithmetic: the stand-ins for bodies that are not among the published files.
//! Every operation is one f32 operation, rounded once, in the order written.
//! Compiled with `--cfg counted`, each branch reports which way it went.

pub const PI: f32 = f32::from_bits(0x4049_0fdb);
pub const FRAC_PI_4: f32 = PI / 4.0;
pub const FRAC_PI_2: f32 = PI / 2.0;
pub const TAU: f32 = PI * 2.0;

// The published text takes its constants from `core`: they are the same numbers.
const _: () = {
    use core::f32::consts;
    assert!(consts::PI.to_bits() == PI.to_bits());
    assert!(consts::FRAC_PI_4.to_bits() == FRAC_PI_4.to_bits());
    assert!(consts::FRAC_PI_2.to_bits() == FRAC_PI_2.to_bits());
    assert!(consts::TAU.to_bits() == TAU.to_bits());
};

#[cfg(counted)]
macro_rules! is {
    ($condition:expr) => {
        reach::truth($condition)
    };
}
#[cfg(not(counted))]
macro_rules! is {
    ($condition:expr) => {
        $condition
    };
}

pub fn least(a: f32, b: f32) -> f32 {
    if a.is_nan() {
        b
    } else if b.is_nan() || a < b {
        a
    } else {
        b
    }
}

pub fn greatest(a: f32, b: f32) -> f32 {
    if a.is_nan() {
        b
    } else if b.is_nan() || a > b {
        a
    } else {
        b
    }
}

pub fn clamp(v: f32, low: f32, high: f32) -> f32 {
    if v < low {
        low
    } else if v > high {
        high
    } else {
        v
    }
}

/// The same three as methods, for the published text: `.min(`, `.max(` and `.clamp(` become
/// `.least(`, `.greatest(` and `.clamped(`.
pub trait LeastGreatestClamp {
    #[cfg_attr(counted, track_caller)]
    fn least(self, other: f32) -> f32;
    #[cfg_attr(counted, track_caller)]
    fn greatest(self, other: f32) -> f32;
    #[cfg_attr(counted, track_caller)]
    fn clamped(self, low: f32, high: f32) -> f32;
}

impl LeastGreatestClamp for f32 {
    #[cfg_attr(counted, track_caller)]
    fn least(self, other: f32) -> f32 {
        #[cfg(counted)]
        reach::pair(self, other);
        least(self, other)
    }

    #[cfg_attr(counted, track_caller)]
    fn greatest(self, other: f32) -> f32 {
        #[cfg(counted)]
        reach::pair(self, other);
        greatest(self, other)
    }

    #[cfg_attr(counted, track_caller)]
    fn clamped(self, low: f32, high: f32) -> f32 {
        #[cfg(counted)]
        reach::clamp(self, low, high);
        clamp(self, low, high)
    }
}

/// IEEE 754 square root, ties to even: the processor's.
pub fn root(v: f32) -> f32 {
    v.sqrt()
}

pub fn length(x: f32, y: f32) -> f32 {
    root(x * x + y * y)
}

pub fn dot(ax: f32, ay: f32, bx: f32, by: f32) -> f32 {
    ax * bx + ay * by
}

/// None if the length is up to the floor; a NaN length is not.
#[cfg_attr(counted, track_caller)]
pub fn normalise(x: f32, y: f32, floor: f32) -> Option<(f32, f32)> {
    let length = length(x, y);
    #[cfg(counted)]
    reach::order(length, floor);
    if length <= floor { None } else { Some((x / length, y / length)) }
}

pub fn sine(a: f32) -> f32 {
    let z = a * a;
    let s = 1.0 - z / 110.0;
    let s = 1.0 - z / 72.0 * s;
    let s = 1.0 - z / 42.0 * s;
    let s = 1.0 - z / 20.0 * s;
    a * (1.0 - z / 6.0 * s)
}

pub fn cosine(r: f32) -> f32 {
    if is!(!r.is_finite()) {
        return f32::NAN;
    }
    let t = (r % TAU).abs();
    let t = if is!(t > PI) { TAU - t } else { t };
    if is!(t <= FRAC_PI_4) {
        let z = t * t;
        let c = 1.0 - z / 56.0;
        let c = 1.0 - z / 30.0 * c;
        let c = 1.0 - z / 12.0 * c;
        1.0 - z / 2.0 * c
    } else {
        sine(FRAC_PI_2 - t)
    }
}

fn series(w: f32) -> f32 {
    let z = w * w;
    let s = 1.0 / 13.0 - z * (1.0 / 15.0);
    let s = 1.0 / 11.0 - z * s;
    let s = 1.0 / 9.0 - z * s;
    let s = 1.0 / 7.0 - z * s;
    let s = 1.0 / 5.0 - z * s;
    let s = 1.0 / 3.0 - z * s;
    w * (1.0 - z * s)
}

fn part(u: f32) -> f32 {
    if is!(u <= 0.41421356) { series(u) } else { FRAC_PI_4 + series((u - 1.0) / (u + 1.0)) }
}

pub fn arctangent(v: f32) -> f32 {
    if is!(v.is_nan()) || is!(v == 0.0) {
        return v;
    }
    let u = v.abs();
    let a = if is!(u > 1.0) { FRAC_PI_2 - part(1.0 / u) } else { part(u) };
    if is!(v < 0.0) { -a } else { a }
}

pub fn arcsine(v: f32) -> f32 {
    arctangent(v / root(1.0 - v * v))
}

/// The arctangent of y, x. It has no case for infinities: inf / inf is NaN and passes.
pub fn arctangent_of(y: f32, x: f32) -> f32 {
    if is!(x.is_nan()) || is!(y.is_nan()) {
        return f32::NAN;
    }
    if is!(x > 0.0) {
        return arctangent(y / x);
    }
    if is!(x < 0.0) {
        let a = arctangent(y / x);
        return if is!(y.is_sign_negative()) { a - PI } else { a + PI };
    }
    if is!(y == 0.0) { y } else { FRAC_PI_2.copysign(y) }
}
