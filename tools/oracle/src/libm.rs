//! libm's names over document 01's stand-ins: libm is not among the published files.

pub fn sinf(a: f32) -> f32 {
    arithmetic::sine(a)
}

pub fn cosf(r: f32) -> f32 {
    arithmetic::cosine(r)
}

pub fn atanf(v: f32) -> f32 {
    arithmetic::arctangent(v)
}

pub fn asinf(v: f32) -> f32 {
    arithmetic::arcsine(v)
}

pub fn atan2f(y: f32, x: f32) -> f32 {
    arithmetic::arctangent_of(y, x)
}
