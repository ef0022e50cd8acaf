//! Nanoseconds per call of the crate `arithmetic`, linked from its static library, beside the same functions in Rust.
//! Both are called, not inlined, but for the processor's root, which is an instruction in line. Each figure is the median over
//! blocks of 4,096 arguments, the two sides by turns. There are a million arguments: a processor learns the branches of some
//! thousands by heart.
use std::hint::black_box;
use std::time::Instant;

#[path = "../oracle/src/arithmetic.rs"]
#[allow(dead_code)]
mod rust;

include!("../standins/archive.rs");

#[inline(never)]
extern "C" fn sine(a: f32) -> f32 {
    rust::sine(a)
}

#[inline(never)]
extern "C" fn cosine(r: f32) -> f32 {
    rust::cosine(r)
}

#[inline(never)]
extern "C" fn arctangent(v: f32) -> f32 {
    rust::arctangent(v)
}

#[inline(never)]
extern "C" fn arctangent2(y: f32, x: f32) -> f32 {
    rust::arctangent_of(y, x)
}

const ARGUMENTS: usize = 1 << 20;
const BLOCK: usize = 1 << 12;
const PASSES: usize = 4;

/// Whole numbers below 2^24, repeatable.
fn random(seed: u64) -> impl Iterator<Item = u32> {
    let mut state = seed;
    std::iter::repeat_with(move || {
        state = state.wrapping_mul(6364136223846793005).wrapping_add(1442695040888963407);
        (state >> 40) as u32
    })
}

/// Numbers from low to high.
fn spread(seed: u64, low: f32, high: f32) -> Vec<f32> {
    random(seed).map(|word| low + (high - low) * (word as f32 / 16777216.0)).take(ARGUMENTS).collect()
}

/// Slopes in turbulence: either sign, sizes from 1/8 to 8, so that no branch can be foretold.
fn turbulent(seed: u64) -> Vec<f32> {
    random(seed)
        .map(|word| {
            let size = (word as f32 / 16777216.0 * 6.0 - 3.0).exp2();
            if word & 1 == 0 { size } else { -size }
        })
        .take(ARGUMENTS)
        .collect()
}

/// Nanoseconds per call over a block, and the answers folded into one word.
fn block(call: impl Fn(usize) -> f32, from: usize) -> (f64, u32) {
    let start = Instant::now();
    let mut all = 0u32;
    for i in from..from + BLOCK {
        all = all.rotate_left(1) ^ call(i).to_bits();
    }
    let all = black_box(all);
    (start.elapsed().as_secs_f64() * 1e9 / BLOCK as f64, all)
}

fn median(times: &mut [f64]) -> f64 {
    times.sort_by(f64::total_cmp);
    times[times.len() / 2]
}

fn compare(name: &str, most: f64, ours: impl Fn(usize) -> f32, theirs: impl Fn(usize) -> f32) -> bool {
    let (mut a, mut b) = (Vec::new(), Vec::new());
    for _ in 0..PASSES {
        for from in (0..ARGUMENTS).step_by(BLOCK) {
            let (x, y) = (block(&ours, from), block(&theirs, from));
            assert_eq!(x.1, y.1, "{name}: the answers differ");
            a.push(x.0);
            b.push(y.0);
        }
    }
    let (a, b) = (median(&mut a), median(&mut b));
    println!("{name:<24} {a:6.2} ns   Rust {b:6.2} ns   {:.2} times (at most {most})", a / b);
    a <= most * b
}

fn main() {
    let (x, y) = (spread(1, 0.001, 1000.0), spread(2, -0.8, 0.8));
    let (r, steady) = (spread(3, -3.0, 3.0), spread(6, 0.1, 0.4));
    let (north, east) = (spread(4, -500.0, 500.0), spread(5, -500.0, 500.0));
    let (ahead, slope) = (spread(7, 10.0, 20.0), turbulent(8));
    let good = [
        compare("root", 8.0, |i| arithmetic_root(x[i]), |i| x[i].sqrt()),
        compare("sine", 1.1, |i| arithmetic_sine(y[i]), |i| sine(y[i])),
        compare("cosine", 1.1, |i| arithmetic_cosine(r[i]), |i| cosine(r[i])),
        compare("arctangent, turbulent", 1.0, |i| arithmetic_arctangent(slope[i]), |i| arctangent(slope[i])),
        compare("arctangent, steady", 1.3, |i| arithmetic_arctangent(steady[i]), |i| arctangent(steady[i])),
        compare("arctangent2, turbulent", 1.0, |i| arithmetic_arctangent2(east[i], north[i]), |i| arctangent2(east[i], north[i])),
        compare("arctangent2, steady", 1.3, |i| arithmetic_arctangent2(steady[i], ahead[i]), |i| arctangent2(steady[i], ahead[i])),
    ];
    if good.contains(&false) {
        println!("slower than it may be");
        std::process::exit(1);
    }
}
