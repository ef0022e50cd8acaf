//! Compares the built stand-ins with the oracle's arithmetic: see `run`.
mod arguments;

use std::path::{Path, PathBuf};
use std::process::Command;

use arguments::Arguments;

#[path = "../oracle/src/arithmetic.rs"]
#[allow(dead_code)]
mod oracle;

include!("archive.rs");

/// The bits of a number, every NaN as one.
fn bits(x: f32) -> u32 {
    if x.is_nan() { 0x7fc0_0000 } else { x.to_bits() }
}

#[derive(Default)]
struct Count {
    passed: u64,
    failed: u64,
}

impl Count {
    /// Takes one comparison; the first few that differ are printed.
    fn take(&mut self, name: &str, given: &[f32], ours: f32, theirs: f32) {
        if bits(ours) == bits(theirs) {
            self.passed += 1;
            return;
        }
        self.failed += 1;
        if self.failed <= 3 {
            let given: Vec<String> = given.iter().map(|x| format!("{:08x}", bits(*x))).collect();
            println!("{name} of {}: {:08x}, the oracle {:08x}", given.join(" "), bits(ours), bits(theirs));
        }
    }

    fn add(&mut self, other: Count) {
        self.passed += other.passed;
        self.failed += other.failed;
    }

    fn print(&self, name: &str) {
        println!("{name}: {} arguments, {} differ", self.passed + self.failed, self.failed);
    }
}

// ---- called in the static library

type One = (&'static str, fn(f32) -> f32, fn(f32) -> f32);

const ONES: [One; 4] = [
    ("root", |x| arithmetic_root(x), oracle::root),
    ("sine", |x| arithmetic_sine(x), oracle::sine),
    ("cosine", |x| arithmetic_cosine(x), oracle::cosine),
    ("arctangent", |x| arithmetic_arctangent(x), oracle::arctangent),
];

/// With a planted fault one answer in 1,000 has a wrong bit.
fn planted(fault: bool, at: u64, x: f32) -> f32 {
    if fault && at % 1000 == 999 { f32::from_bits(x.to_bits() ^ 1) } else { x }
}

fn called(count: u64, seed: u64, fault: bool) -> Count {
    let mut total = Count::default();
    for (name, ours, theirs) in ONES {
        let (mut part, mut arguments) = (Count::default(), Arguments::new(seed));
        for at in 0..count {
            let x = if name == "arctangent" { arguments.slope() } else { arguments.one(name) };
            part.take(name, &[x], planted(fault, at, ours(x)), theirs(x));
        }
        part.print(name);
        total.add(part);
    }
    let (mut part, mut arguments) = (Count::default(), Arguments::new(seed));
    for at in 0..count {
        let [y, x] = arguments.ratio();
        let ours = planted(fault, at, arithmetic_arctangent2(y, x));
        part.take("arctangent2", &[y, x], ours, oracle::arctangent_of(y, x));
    }
    part.print("arctangent2");
    total.add(part);
    total
}

// ---- run by arithmetic_cases

/// A file of rows for the program: its name, the function's number, and the arguments and the oracle's answer.
type Group = (&'static str, u32, fn(&mut Arguments) -> ([f32; 4], [u32; 3]));

fn number(x: f32) -> [u32; 3] {
    [bits(x), 0, 0]
}

const GROUPS: [Group; 15] = [
    ("least", 0, |g| g.pair().then(|[a, b]| number(oracle::least(a, b)))),
    ("greatest", 1, |g| g.pair().then(|[a, b]| number(oracle::greatest(a, b)))),
    ("clamp", 2, |g| g.clamp().then(|[v, low, high]| number(oracle::clamp(v, low, high)))),
    ("size", 3, |g| [g.any()].then(|[a]| number(a.abs()))),
    ("finite", 4, |g| [g.any()].then(|[a]| [a.is_finite() as u32, 0, 0])),
    ("root", 5, |g| [g.one("root")].then(|[a]| number(oracle::root(a)))),
    ("norm", 6, |g| g.pair().then(|[x, y]| number(oracle::length(x, y)))),
    ("dot", 7, |g| g.four().then(|[a, b, c, d]| number(oracle::dot(a, b, c, d)))),
    ("cross", 8, |g| g.four().then(|[a, b, c, d]| number(a * d - b * c))),
    ("normalise", 9, |g| g.normalise().then(|[x, y, floor]| normalised(x, y, floor))),
    ("sine", 10, |g| [g.one("sine")].then(|[a]| number(oracle::sine(a)))),
    ("cosine", 11, |g| [g.one("cosine")].then(|[a]| number(oracle::cosine(a)))),
    ("arctangent", 12, |g| [g.slope()].then(|[a]| number(oracle::arctangent(a)))),
    ("arcsine", 13, |g| [g.share()].then(|[a]| number(oracle::arcsine(a)))),
    ("arctangent2", 14, |g| g.ratio().then(|[y, x]| number(oracle::arctangent_of(y, x)))),
];

fn normalised(x: f32, y: f32, floor: f32) -> [u32; 3] {
    oracle::normalise(x, y, floor).map_or([0; 3], |(x, y)| [1, bits(x), bits(y)])
}

/// Up to four arguments, with the answer to them.
trait Then<const N: usize> {
    fn then(self, answer: impl Fn([f32; N]) -> [u32; 3]) -> ([f32; 4], [u32; 3]);
}

impl<const N: usize> Then<N> for [f32; N] {
    fn then(self, answer: impl Fn([f32; N]) -> [u32; 3]) -> ([f32; 4], [u32; 3]) {
        let mut all = [0.0; 4];
        all[..N].copy_from_slice(&self);
        (all, answer(self))
    }
}

/// Rows: function, four arguments, three results, each word low byte first.
fn rows(group: &Group, arguments: &mut Arguments, count: u64, fault: bool) -> Vec<u8> {
    let mut bytes = Vec::new();
    for at in 0..count {
        let (given, mut answer) = (group.2)(arguments);
        answer[0] ^= (fault && at % 1000 == 999) as u32;
        let words = [group.1].into_iter().chain(given.map(bits)).chain(answer);
        bytes.extend(words.flat_map(|word| word.to_le_bytes()));
    }
    bytes
}

/// The program reads at most 100,000 rows of a file.
const BATCH: u64 = 100_000;

/// Runs the program on files of rows; it prints `name: right of rows` for each.
fn batch(program: &Path, folder: &Path, arguments: &mut Arguments, count: u64, fault: bool) -> Vec<Count> {
    for name in ["document_01", "root_published"] {
        std::fs::write(folder.join(name), b"").expect("a file can be written");
    }
    for group in &GROUPS {
        std::fs::write(folder.join(group.0), rows(group, arguments, count, fault)).expect("a file can be written");
    }
    let done = Command::new(program).current_dir(folder).output().expect("the program can be run");
    let text = String::from_utf8(done.stdout).expect("the program prints text");
    let counts = GROUPS.iter().map(|(name, ..)| {
        let line = text.lines().find_map(|line| line.strip_prefix(&format!("{name}: ")));
        let (right, all) = line.and_then(|line| line.split_once(" of ")).expect("a line for each file");
        let (right, all): (u64, u64) = (right.parse().expect("a number"), all.parse().expect("a number"));
        assert_eq!(all, count, "{name}: the program read other rows");
        Count { passed: right, failed: all - right }
    });
    counts.collect()
}

fn run_by_program(program: &Path, folder: &Path, count: u64, seed: u64, fault: bool) -> Count {
    if !program.exists() {
        println!("skipped: no {}", program.display());
        return Count::default();
    }
    std::fs::create_dir_all(folder).expect("a folder can be made");
    let program = program.canonicalize().expect("the program has a path");
    let mut totals: Vec<Count> = GROUPS.iter().map(|_| Count::default()).collect();
    let mut arguments = Arguments::new(!seed);
    for at in (0..count).step_by(BATCH as usize) {
        let counts = batch(&program, folder, &mut arguments, BATCH.min(count - at), fault);
        totals.iter_mut().zip(counts).for_each(|(total, part)| total.add(part));
    }
    std::fs::remove_dir_all(folder).expect("the folder can be removed");
    let mut all = Count::default();
    for (group, total) in GROUPS.iter().zip(totals) {
        total.print(&format!("{}, by arithmetic_cases", group.0));
        all.add(total);
    }
    all
}

// ---- all 2^32 numbers

/// The cosine of -r is the oracle's for r: `%` keeps the left sign, and the size is taken of it.
fn everywhere((name, ours, theirs): One, jobs: u32) -> Count {
    let even = name == "cosine";
    let part = |job: u32| {
        let mut count = Count::default();
        for word in (job..0x8000_0000).step_by(jobs as usize) {
            let (x, minus) = (f32::from_bits(word), f32::from_bits(word | 0x8000_0000));
            let expected = theirs(x);
            count.take(name, &[x], ours(x), expected);
            count.take(name, &[minus], ours(minus), if even { expected } else { theirs(minus) });
        }
        count
    };
    let mut total = Count::default();
    std::thread::scope(|scope| {
        let parts: Vec<_> = (0..jobs).map(|job| scope.spawn(move || part(job))).collect();
        parts.into_iter().for_each(|part| total.add(part.join().expect("a job ends")));
    });
    total.print(name);
    total
}

fn main() {
    let words: Vec<String> = std::env::args().skip(1).collect();
    let (program, folder) = (PathBuf::from(&words[0]), PathBuf::from(&words[1]));
    let word = |at: usize| words.get(at).map(String::as_str);
    let whole = |at: usize, other: u64| word(at).map_or(other, |text| text.parse().expect("a whole number"));
    let total = if word(2) == Some("all") {
        let one = ONES.into_iter().find(|one| Some(one.0) == word(3)).expect("root, sine, cosine or arctangent");
        everywhere(one, whole(4, 1) as u32)
    } else {
        let fault = word(2) == Some("plant");
        let (count, seed) = if fault { (10_000, 1) } else { (whole(2, 1_000_000), whole(3, 1)) };
        let mut total = called(count, seed, fault);
        total.add(run_by_program(&program, &folder, count, seed, fault));
        total
    };
    println!("{} passed, {} failed", total.passed, total.failed);
    std::process::exit((total.failed != 0 || total.passed == 0) as i32);
}
