//! The stand-in trigonometry beside the standard library's, which stands for libm here.

use crate::numbers::Random;

/// How far two numbers are apart, counted in f32 steps.
fn steps(a: f32, b: f32) -> u64 {
    let place = |v: f32| {
        let bits = v.to_bits() as i64;
        if bits < 1 << 31 { bits } else { (1 << 31) - bits }
    };
    (place(a) - place(b)).unsigned_abs()
}

#[derive(Default)]
struct Farthest {
    samples: u64,
    equal: u64,
    steps: u64,
    steps_at: String,
    size: f32,
    size_at: String,
}

impl Farthest {
    fn add(&mut self, at: &[f32], ours: f32, theirs: f32) {
        let name = || at.iter().map(|v| format!("{:08x}", v.to_bits())).collect::<Vec<_>>().join(" ");
        self.samples += 1;
        let apart = steps(ours, theirs);
        self.equal += (apart == 0) as u64;
        if apart > self.steps {
            (self.steps, self.steps_at) = (apart, name());
        }
        let size = (ours - theirs).abs();
        if size > self.size {
            (self.size, self.size_at) = (size, name());
        }
    }

    fn line(&self, name: &str) -> String {
        let share = 100.0 * self.equal as f64 / self.samples as f64;
        format!(
            "{name}: {} samples, {share:.1}% equal, at most {} steps (at {}), at most {:.3e} (at {})\n",
            self.samples, self.steps, self.steps_at, self.size, self.size_at
        )
    }
}

/// Every so-many-th number whose size is in the span.
fn spread(low: f32, high: f32, every: usize) -> impl Iterator<Item = f32> {
    let sizes = (low.to_bits()..=high.to_bits()).step_by(every);
    sizes.flat_map(|bits| [f32::from_bits(bits), -f32::from_bits(bits)])
}

fn one(name: &str, span: (f32, f32), ours: fn(f32) -> f32, theirs: fn(f32) -> f32) -> String {
    let mut farthest = Farthest::default();
    for v in spread(span.0, span.1, 101) {
        farthest.add(&[v], ours(v), theirs(v));
    }
    farthest.line(name)
}

pub fn report() -> String {
    use std::f32::consts::{FRAC_PI_2, PI, TAU};
    let least = f32::MIN_POSITIVE;
    let mut out = one("sine, size up to a quarter turn", (least, FRAC_PI_2), arithmetic::sine, f32::sin);
    out += &one("cosine, size up to half a turn", (least, PI), arithmetic::cosine, f32::cos);
    out += &one("cosine, half a turn to a whole one", (PI, TAU), arithmetic::cosine, f32::cos);
    out += &one("cosine, a turn to 100", (TAU, 100.0), arithmetic::cosine, f32::cos);
    out += &one("cosine, 100 to 1e6", (100.0, 1e6), arithmetic::cosine, f32::cos);
    out += &one("arctangent", (least, f32::MAX), arithmetic::arctangent, f32::atan);
    out += &one("arcsine", (least, 1.0), arithmetic::arcsine, f32::asin);
    let mut farthest = Farthest::default();
    let mut random = Random::new(1);
    for _ in 0..2_000_000 {
        let [y, x] = [random.between(-30.0, 30.0), random.between(-30.0, 30.0)];
        farthest.add(&[y, x], arithmetic::arctangent_of(y, x), y.atan2(x));
    }
    out + &farthest.line("arctangent of y, x, each within 30")
}

/// Whether the arctangent of every f32 above 0 is above 0, the greatest and infinity included.
pub fn sides() -> String {
    let all = 1..=f32::INFINITY.to_bits();
    let above = all.clone().filter(|bits| arithmetic::arctangent(f32::from_bits(*bits)) > 0.0).count();
    format!("arctangent: {above} of {} numbers above 0 give one above 0\n", all.count())
}
