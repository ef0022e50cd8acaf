// What the static library of crates/arithmetic_c exports.
unsafe extern "C" {
    safe fn arithmetic_root(x: f32) -> f32;
    safe fn arithmetic_sine(a: f32) -> f32;
    safe fn arithmetic_cosine(r: f32) -> f32;
    safe fn arithmetic_arctangent(v: f32) -> f32;
    safe fn arithmetic_arctangent2(y: f32, x: f32) -> f32;
}
