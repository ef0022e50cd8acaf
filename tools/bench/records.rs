//! Nanoseconds per record of the crate `records`, linked from a static library, beside a plain Rust codec of the same format.
//! Both are called, never inlined, and must write the same bytes. Each figure is the best of many passes over the same records,
//! the sides by turns.
use std::hint::black_box;
use std::time::Instant;

unsafe extern "C" {
    fn records_rewrite_call(s: *const u8, n: usize, out: *mut u8, room: usize) -> usize;
    fn records_rewrite_config(s: *const u8, n: usize, out: *mut u8, room: usize) -> usize;
    fn records_read_call(s: *const u8, n: usize) -> f32;
}

/// The plain codec: answers are a value with the place after it, or the refusal's number.
mod plain {
    pub struct Waypoint {
        position: [f32; 2],
        leg: Option<[f32; 2]>,
        altitude: f32,
        cruise_speed: f32,
        state: [f32; 7],
        airspeed: Option<f32>,
        cap: Option<f32>,
    }

    pub enum Command {
        Prime,
        Attitude([f32; 3]),
        Rate([f32; 4]),
        Waypoint(Waypoint),
        AbsoluteAttitude([f32; 3]),
        Land,
        AbsoluteRate([f32; 4]),
    }

    pub struct Call {
        plane: bool,
        dt: f32,
        command: Command,
    }

    const NAN: u32 = 0x7fc0_0000;

    struct Reader<'a> {
        bytes: &'a [u8],
        map: u64,
    }

    impl Reader<'_> {
        #[inline]
        fn number(&mut self, bit: u32) -> Option<f32> {
            if self.map >> bit & 1 == 0 {
                return None;
            }
            let (head, rest) = self.bytes.split_first_chunk::<4>()?;
            self.bytes = rest;
            let v = f32::from_le_bytes(*head);
            Some(if v.is_nan() { f32::from_bits(NAN) } else { v })
        }

        #[inline]
        fn or_0(&mut self, bit: u32) -> f32 {
            self.number(bit).unwrap_or(0.0)
        }

        #[inline]
        fn numbers<const N: usize>(&mut self, from: u32) -> [f32; N] {
            std::array::from_fn(|i| self.or_0(from + i as u32))
        }

        /// Steps over the fields from one bit to another.
        #[inline]
        fn skip(&mut self, from: u32, to: u32) {
            let standing = (self.map >> from & ((1 << (to - from)) - 1)).count_ones();
            self.bytes = &self.bytes[4 * standing as usize..];
        }
    }

    pub fn read_call(s: &[u8], at: usize) -> Result<(Call, usize), u8> {
        let (head, body) = s.get(at..).and_then(|rest| rest.split_first_chunk::<4>()).ok_or(5)?;
        let map = u32::from_le_bytes(*head);
        if map >> 22 != 0 || map & 1 == 0 || (map >> 9 ^ map >> 10) & 1 != 0 {
            return Err(6);
        }
        let size = 1 + (map >> 1 & 1) as usize + 4 * (map >> 2).count_ones() as usize;
        if body.len() < size {
            return Err(5);
        }
        let (regime, first) = if map & 2 != 0 { (body[1], 2) } else { (1, 1) };
        if body[0] > 6 || regime > 1 {
            return Err(7);
        }
        let mut r = Reader { bytes: &body[first..size], map: map as u64 };
        let dt = if body[0] == 0 { 0.0 } else { r.or_0(2) };
        let command = match body[0] {
            0 => Command::Prime,
            1 => Command::Attitude(r.numbers(3)),
            2 => Command::Rate(r.numbers(3)),
            3 => {
                r.skip(3, 7);
                Command::Waypoint(Waypoint {
                    position: r.numbers(7),
                    leg: if map >> 9 & 1 == 1 { Some(r.numbers(9)) } else { None },
                    altitude: r.or_0(11),
                    cruise_speed: r.or_0(12),
                    state: r.numbers(13),
                    airspeed: r.number(20),
                    cap: r.number(21),
                })
            }
            4 => Command::AbsoluteAttitude(r.numbers(3)),
            5 => Command::Land,
            _ => Command::AbsoluteRate(r.numbers(3)),
        };
        Ok((Call { plane: regime == 1, dt, command }, at + 4 + size))
    }

    struct Writer {
        map: u64,
        n: usize,
        bytes: [u8; 160],
    }

    impl Writer {
        #[inline]
        fn always(&mut self, bit: u32, v: f32) {
            let bits = if v.is_nan() { NAN } else { v.to_bits() };
            self.map |= 1 << bit;
            self.bytes[self.n..self.n + 4].copy_from_slice(&bits.to_le_bytes());
            self.n += 4;
        }

        #[inline]
        fn unless(&mut self, bit: u32, v: f32, missing: u32) {
            if v.to_bits() != missing {
                self.always(bit, v);
            }
        }

        #[inline]
        fn numbers(&mut self, from: u32, vs: &[f32]) {
            for (i, v) in vs.iter().enumerate() {
                self.unless(from + i as u32, *v, 0);
            }
        }

        fn put(&self, out: &mut [u8], at: usize) -> Result<usize, u8> {
            let part = out.get_mut(at..).and_then(|rest| rest.get_mut(..self.n)).ok_or(8)?;
            part.copy_from_slice(&self.bytes[..self.n]);
            Ok(at + self.n)
        }
    }

    pub fn write_call(out: &mut [u8], at: usize, call: &Call) -> Result<usize, u8> {
        let mut w = Writer { map: 1, n: 5, bytes: [0; 160] };
        if !call.plane && !matches!(call.command, Command::Prime) {
            w.map = 3;
            w.n = 6;
        }
        w.numbers(2, &[call.dt]);
        w.bytes[4] = match &call.command {
            Command::Prime => 0,
            Command::Attitude(c) => {
                w.numbers(3, c);
                1
            }
            Command::Rate(c) => {
                w.numbers(3, c);
                2
            }
            Command::Waypoint(c) => {
                w.numbers(7, &c.position);
                if let Some(l) = c.leg {
                    w.always(9, l[0]);
                    w.always(10, l[1]);
                }
                w.numbers(11, &[c.altitude, c.cruise_speed]);
                w.numbers(13, &c.state);
                if let Some(v) = c.airspeed {
                    w.always(20, v);
                }
                if let Some(v) = c.cap {
                    w.always(21, v);
                }
                3
            }
            Command::AbsoluteAttitude(c) => {
                w.numbers(3, c);
                4
            }
            Command::Land => 5,
            Command::AbsoluteRate(c) => {
                w.numbers(3, c);
                6
            }
        };
        let map = w.map as u32;
        w.bytes[..4].copy_from_slice(&map.to_le_bytes());
        w.put(out, at)
    }

    pub fn sum(call: &Call) -> f32 {
        call.dt
            + match &call.command {
                Command::Prime | Command::Land => 0.0,
                Command::Attitude(c) | Command::AbsoluteAttitude(c) => c.iter().sum(),
                Command::Rate(c) | Command::AbsoluteRate(c) => c.iter().sum(),
                Command::Waypoint(c) => c.position[0] + c.position[1] + c.altitude + c.cruise_speed + c.state.iter().sum::<f32>(),
            }
    }

    /// The Default values' bits, from document 01 and the Rust.
    const DEFAULT: [u32; 33] = [
        0x3f490fdb, 0x3eb2b8c2, 0x3edf66f3, 0x40490fdb, 0x40490fdb, 0, 0, 0x3f000000, 0x41400000, 0x3f400000, 0x42200000,
        0x3d4ccccd, 0x3c23d70a, 0x41a00000, 0x40a00000, 0x40a00000, 0x40000000, 0x40a00000, 0x3f000000, 0x3e99999a, 0x3e99999a,
        0x3e4ccccd, 0x3f800000, 0x41200000, 0x41200000, 0x41c80000, 0x3f666666, 0x40400000, 0x3f000000, 0x3f800000, 0x3e4ccccd,
        0x3f800000, 0x3f000000,
    ];

    pub fn read_config(s: &[u8], at: usize) -> Result<([f32; 33], usize), u8> {
        let (head, body) = s.get(at..).and_then(|rest| rest.split_first_chunk::<5>()).ok_or(5)?;
        let map = u64::from_le_bytes([head[0], head[1], head[2], head[3], head[4], 0, 0, 0]);
        if map >> 33 != 0 {
            return Err(6);
        }
        let size = 4 * map.count_ones() as usize;
        if body.len() < size {
            return Err(5);
        }
        let mut r = Reader { bytes: &body[..size], map };
        let v = std::array::from_fn(|i| r.number(i as u32).unwrap_or(f32::from_bits(DEFAULT[i])));
        Ok((v, at + 5 + size))
    }

    pub fn write_config(out: &mut [u8], at: usize, v: &[f32; 33]) -> Result<usize, u8> {
        let mut w = Writer { map: 0, n: 5, bytes: [0; 160] };
        for i in 0..33 {
            w.unless(i as u32, v[i], DEFAULT[i]);
        }
        let map = w.map.to_le_bytes();
        w.bytes[..5].copy_from_slice(&map[..5]);
        w.put(out, at)
    }
}

#[inline(never)]
fn rust_rewrite_call(s: &[u8], out: &mut [u8]) -> usize {
    plain::read_call(s, 0).and_then(|(call, _)| plain::write_call(out, 0, &call)).unwrap_or(0)
}

#[inline(never)]
fn rust_rewrite_config(s: &[u8], out: &mut [u8]) -> usize {
    plain::read_config(s, 0).and_then(|(config, _)| plain::write_config(out, 0, &config)).unwrap_or(0)
}

#[inline(never)]
fn rust_read_call(s: &[u8]) -> f32 {
    plain::read_call(s, 0).map_or(f32::NAN, |(call, _)| plain::sum(&call))
}

fn rewrite_call(s: &[u8], out: &mut [u8]) -> usize {
    unsafe { records_rewrite_call(s.as_ptr(), s.len(), out.as_mut_ptr(), out.len()) }
}

fn rewrite_config(s: &[u8], out: &mut [u8]) -> usize {
    unsafe { records_rewrite_config(s.as_ptr(), s.len(), out.as_mut_ptr(), out.len()) }
}

fn read_call(s: &[u8]) -> f32 {
    unsafe { records_read_call(s.as_ptr(), s.len()) }
}

const RECORDS: usize = 512;
const PASSES: usize = 400;

fn next(seed: &mut u64) -> u64 {
    *seed = seed.wrapping_mul(6364136223846793005).wrapping_add(1442695040888963407);
    *seed
}

/// Records of a map's bytes, then `front`, then a number for each of the bits; `mixed` leaves out a quarter of those that may go.
fn records(map_bytes: usize, front: &[u8], bits: &[u32], mixed: bool) -> Vec<Vec<u8>> {
    let mut seed = 7;
    let one = |_| {
        let mut map = u64::from(!front.is_empty());
        let mut body = front.to_vec();
        for &bit in bits {
            let drawn = next(&mut seed);
            if mixed && bit != 9 && bit != 10 && drawn >> 62 == 0 {
                continue;
            }
            map |= 1 << bit;
            body.extend(((drawn >> 40) as f32 / 1000.0 + 0.5).to_le_bytes());
        }
        [&map.to_le_bytes()[..map_bytes], &body[..]].concat()
    };
    (0..RECORDS).map(one).collect()
}

fn best_of(sides: [&mut dyn FnMut(&[u8]) -> usize; 2], set: &[Vec<u8>]) -> [f64; 2] {
    let mut best = [f64::MAX; 2];
    // the first passes bring the processor to its speed
    for pass in 0..2 * PASSES {
        for (i, side) in [0, 1].into_iter().enumerate() {
            let start = Instant::now();
            let mut all = 0;
            for s in set {
                all ^= sides[side](s);
            }
            black_box(all);
            if pass >= PASSES {
                best[i] = best[i].min(start.elapsed().as_secs_f64() * 1e9 / set.len() as f64);
            }
        }
    }
    best
}

fn print(name: &str, what: &str, [ours, rust]: [f64; 2]) {
    println!("{name:20} {what:8} {ours:6.1} ns, Rust {rust:6.1} ns, ratio {:.2}", ours / rust);
}

fn main() {
    let waypoint: Vec<u32> = [2].into_iter().chain(7..22).collect();
    let command: Vec<u32> = (2..7).collect();
    let (mut out, mut rust_out) = ([0u8; 160], [0u8; 160]);
    for (name, kind, bits, mixed) in [
        ("prime", 0, &command[..0], false),
        ("attitude", 1, &command[..4], false),
        ("rate", 2, &command[..], false),
        ("waypoint", 3, &waypoint[..], false),
        ("waypoint, some fields", 3, &waypoint[..], true),
        ("absolute attitude", 4, &command[..4], false),
        ("land", 5, &command[..1], false),
        ("absolute rate", 6, &command[..], false),
    ] {
        let set = records(4, &[kind], bits, mixed);
        for s in &set {
            let n = rewrite_call(s, &mut out);
            assert!(n > 0 && n == rust_rewrite_call(s, &mut rust_out) && out[..n] == rust_out[..n]);
        }
        print(name, "read", best_of([&mut |s| read_call(s).to_bits() as usize, &mut |s| rust_read_call(s).to_bits() as usize], &set));
        print(name, "rewrite", best_of([&mut |s| rewrite_call(s, &mut out), &mut |s| rust_rewrite_call(s, &mut rust_out)], &set));
    }
    for n in [0, 4, 33] {
        let set = records(5, &[], &(0..n).collect::<Vec<u32>>(), false);
        for s in &set {
            let n = rewrite_config(s, &mut out);
            assert!(n > 0 && n == rust_rewrite_config(s, &mut rust_out) && out[..n] == rust_out[..n]);
        }
        let name = format!("configuration, {n}");
        print(&name, "rewrite", best_of([&mut |s| rewrite_config(s, &mut out), &mut |s| rust_rewrite_config(s, &mut rust_out)], &set));
    }
}
