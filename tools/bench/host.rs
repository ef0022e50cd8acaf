//! Guide calls through the C boundary: the archive's nuthkolla_run, and the published Rust behind a function of the same form
//! (guidance by reference, a record's bytes, a flat answer), with document 01's refusals. Both get the same recordings, and every
//! answer is compared before anything is timed.
//!
//!     host ROUNDS NAME=RECORDING..
//!
//! A NAME may stand many times; its line sums up its recordings.

use stable_flight::guidance::plane::navigation::PiLoop;
use stable_flight::guidance::plane::tecs::Tecs;
use stable_flight::guidance::plane::{PlaneGuidance, PlaneGuidanceConfig};
use stable_flight::{
    AbsoluteAttitudeCommand, AbsoluteRateCommand, AttitudeCommand, ControlInput, FlightRegime, Guidance, LandCommand, RateCommand,
    Setpoint, Vec2, Vec3, VehicleState, WaypointCommand,
};
use std::hint::black_box;
use std::time::Instant;

#[repr(C)]
#[derive(Clone, Copy)]
struct Held([u32; 78]);

#[repr(C)]
#[derive(Clone, Copy, Default, Debug)]
pub struct Answer {
    refusal: u32,
    field: u32,
    setpoint: u32,
    lateral: u32,
    vertical: u32,
    roll: f32,
    pitch: f32,
    yaw: f32,
    thrust: f32,
    cross_track_m: f32,
    next: usize,
}

unsafe extern "C" {
    fn nuthkolla_run(guidance: *mut Held, caller: u32, what: u32, bytes: *const u8, length: usize) -> Answer;
}

/// A record read in the plainest way: the map, then fields by bit.
struct Record {
    map: u32,
    kind: u8,
    regime: u8,
    n: [f32; 22],
    size: usize,
}

fn read(bytes: &[u8]) -> Result<Record, u32> {
    let head = bytes.first_chunk::<4>().ok_or(5u32)?;
    let map = u32::from_le_bytes(*head);
    if map >> 22 != 0 || map & 1 == 0 || (map >> 9 ^ map >> 10) & 1 != 0 {
        return Err(6);
    }
    let single = (map & 3).count_ones() as usize;
    let size = 4 + single + 4 * (map >> 2).count_ones() as usize;
    let bytes = bytes.get(..size).ok_or(5u32)?;
    let kind = bytes[4];
    let regime = if map & 2 == 0 { 1 } else { bytes[5] };
    if kind > 6 || regime > 1 {
        return Err(7);
    }
    let mut n = [0f32; 22];
    let mut rest = &bytes[4 + single..];
    for bit in 2..22 {
        if map >> bit & 1 == 1 {
            let (head, after) = rest.split_first_chunk::<4>().ok_or(5u32)?;
            n[bit] = f32::from_le_bytes(*head);
            rest = after;
        }
    }
    Ok(Record { map, kind, regime, n, size })
}

impl Record {
    fn stands(&self, bit: u32) -> bool {
        self.map >> bit & 1 == 1
    }

    fn input(&self) -> ControlInput {
        let n = &self.n;
        match self.kind {
            1 => ControlInput::Attitude(AttitudeCommand { throttle: n[5], roll: n[3], pitch: n[4], yaw: 0.0 }),
            2 => ControlInput::Rate(RateCommand { throttle: n[6], roll_rate: n[3], pitch_rate: n[4], yaw_rate: n[5] }),
            3 => ControlInput::Waypoint(WaypointCommand {
                position_m: Vec2::new(n[7], n[8]),
                velocity_mps: self.stands(9).then_some(Vec2::new(n[9], n[10])),
                altitude_m: n[11],
                cruise_speed_mps: n[12],
                heading_rad: None,
            }),
            4 => ControlInput::AbsoluteAttitude(AbsoluteAttitudeCommand { roll_rad: n[3], pitch_rad: n[4], heading_rad: 0.0, thrust: n[5] }),
            5 => ControlInput::Land(LandCommand { position_m: Vec2::new(0.0, 0.0) }),
            _ => ControlInput::AbsoluteRate(AbsoluteRateCommand { roll_radps: n[3], pitch_radps: n[4], yaw_radps: n[5], thrust: n[6] }),
        }
    }

    /// The sensors of a waypoint; no other command reads them.
    fn state(&self) -> VehicleState {
        let mut state = VehicleState::default();
        if self.kind == 3 {
            let n = &self.n;
            state.position_m = Vec3::new(n[13], n[14], n[15]);
            state.velocity_mps = Vec3::new(n[16], n[17], n[18]);
            state.roll_rad = n[19];
            state.airspeed_mps = self.stands(20).then_some(n[20]);
        }
        state
    }

    /// The names of a waypoint's laws, as numbers. Idle is told by squares, so that the names cost the Rust no root: a length is
    /// below 1 exactly where its square is, and at most 1e-6 where its square is at most the greatest f32 whose root is.
    fn laws(&self) -> (u32, u32) {
        let n = &self.n;
        let track = self.stands(9) && n[9].is_finite() && n[10].is_finite();
        let square = |x: f32, y: f32| x * x + y * y;
        let speed = square(n[16], n[17]);
        let idle = track && square(n[9], n[10]) <= f32::from_bits(0x2b8c_bccd) || speed < 1.0 || speed.is_nan();
        let vertical = if !(self.stands(20) && n[12] > 0.0 && n[20] >= 0.0) {
            3
        } else if [n[11], n[12], n[20], n[15], n[18]].iter().all(|v| v.is_finite()) {
            1
        } else {
            2
        };
        let lateral = if idle {
            3
        } else if track {
            1
        } else {
            2
        };
        (lateral, vertical)
    }
}

fn stored_is_finite(altitude: &PiLoop, tecs: &Tecs) -> bool {
    let demand = tecs.demand.as_ref().map_or([0.0; 3], |d| [d.slewed_height_m, d.height_m, d.airspeed_mps]);
    altitude.integral.is_finite()
        && demand.iter().all(|v| v.is_finite())
        && tecs.filtered_airspeed_mps.unwrap_or(0.0).is_finite()
        && tecs.steady_accel_mps2.unwrap_or(0.0).is_finite()
        && tecs.pitch_integral_rad.is_finite()
        && tecs.thrust_integral.is_finite()
}

fn run(guidance: &mut PlaneGuidance, bytes: &[u8]) -> Answer {
    let mut answer = Answer::default();
    let record = match read(bytes) {
        Ok(record) => record,
        Err(number) => {
            answer.refusal = number;
            return answer;
        }
    };
    answer.next = record.size;
    let state = record.state();
    if record.kind == 0 {
        guidance.prime(&state);
        return answer;
    }
    let dt = record.n[2];
    if !(dt.is_finite() && dt > 0.0) {
        answer.refusal = 2;
        return answer;
    }
    let regime = if record.regime == 1 { FlightRegime::Plane } else { FlightRegime::Copter };
    let cap = (record.kind == 3 && record.stands(21)).then_some(record.n[21]);
    if cap.is_some_and(|cap| cap < 0.0) {
        answer.refusal = 3;
        return answer;
    }
    let before = (guidance.requested, guidance.altitude.clone(), guidance.tecs.clone());
    match guidance.guide_capped(dt, regime, &record.input(), &state, cap) {
        Setpoint::Plane(s) => {
            if record.kind == 3 {
                if !(s.pitch_rad.is_finite() && s.thrust.is_finite() && stored_is_finite(&guidance.altitude, &guidance.tecs)) {
                    (guidance.requested, guidance.altitude, guidance.tecs) = before;
                    answer.refusal = 4;
                    return answer;
                }
                (answer.lateral, answer.vertical) = record.laws();
            }
            answer.setpoint = 1;
            (answer.roll, answer.pitch, answer.thrust) = (s.roll_rad, s.pitch_rad, s.thrust);
        }
        Setpoint::PlaneRate(s) => {
            answer.setpoint = 2;
            (answer.roll, answer.pitch, answer.yaw, answer.thrust) = (s.roll_radps, s.pitch_radps, s.yaw_radps, s.thrust);
        }
        _ => unreachable!("a plane's guidance gives no other setpoint"),
    }
    answer
}

/// The published Rust through the same boundary.
#[unsafe(no_mangle)]
#[inline(never)]
pub extern "C" fn published_run(guidance: *mut PlaneGuidance, bytes: *const u8, length: usize) -> Answer {
    let (guidance, bytes) = unsafe { (&mut *guidance, std::slice::from_raw_parts(bytes, length)) };
    run(guidance, bytes)
}

include!("../oracle/src/oracle/config_places.rs");

/// A recording's configuration, both guidances as new, and its call records.
struct Recording {
    ours: Held,
    published: PlaneGuidance,
    calls: Vec<Vec<u8>>,
}

fn recording(input: &[u8]) -> Recording {
    let mut ours = Held([0; 78]);
    let made = unsafe { nuthkolla_run(&mut ours, 0, 2, input.as_ptr(), input.len()) };
    assert_eq!(made.refusal, 0, "a recording begins with a valid configuration");
    let mut config = PlaneGuidanceConfig::default();
    // the archive's guidance starts with the 33 numbers
    for (place, bits) in places(&mut config).into_iter().zip(ours.0) {
        *place = f32::from_bits(bits);
    }
    let mut whole = Recording { ours, published: PlaneGuidance::new(config), calls: Vec::new() };
    let (mut ours, mut published) = (whole.ours, whole.published.clone());
    let mut place = made.next;
    while place < input.len() {
        let rest = &input[place..];
        let a = unsafe { nuthkolla_run(&mut ours, 0, 0, rest.as_ptr(), rest.len()) };
        let b = published_run(&mut published, rest.as_ptr(), rest.len());
        assert!(same(&a, &b), "call {}: {a:?} {b:?}", whole.calls.len() + 1);
        assert!(a.next > 0, "a recording has whole records");
        whole.calls.push(rest[..a.next].to_vec());
        place += a.next;
    }
    whole
}

fn same(a: &Answer, b: &Answer) -> bool {
    let bits = |x: f32| if x.is_nan() { 0x7fc0_0000 } else { x.to_bits() };
    let words = |a: &Answer| {
        [a.refusal, a.field, a.setpoint, a.lateral, a.vertical, bits(a.roll), bits(a.pitch), bits(a.yaw), bits(a.thrust), a.next as u32]
    };
    words(a) == words(b)
}

fn ns_of(run: impl FnOnce()) -> f64 {
    let start = Instant::now();
    run();
    start.elapsed().as_nanos() as f64
}

/// One and the other in turn, each from a new guidance; the least of each is its time, in ns for all calls.
fn least(r: &Recording, rounds: usize) -> [f64; 2] {
    let mut least = [f64::MAX; 2];
    for round in 0..2 * rounds {
        let (mut ours, mut published) = (r.ours, r.published.clone());
        let here = ns_of(|| {
            for record in &r.calls {
                black_box(unsafe { nuthkolla_run(black_box(&mut ours), 0, 0, record.as_ptr(), record.len()) });
            }
        });
        let there = ns_of(|| {
            for record in &r.calls {
                black_box(published_run(black_box(&mut published), record.as_ptr(), record.len()));
            }
        });
        // the first rounds bring the processor to its speed
        if round >= rounds {
            least = [least[0].min(here), least[1].min(there)];
        }
    }
    least
}

fn main() {
    let words: Vec<String> = std::env::args().skip(1).collect();
    let rounds: usize = words[0].parse().expect("a number of rounds");
    let mut sums: Vec<(&str, usize, [f64; 2])> = Vec::new();
    for word in &words[1..] {
        let (name, file) = word.split_once('=').expect("NAME=RECORDING");
        let r = recording(&std::fs::read(file).expect("a recording"));
        let [here, there] = least(&r, rounds);
        if sums.last().is_none_or(|last| last.0 != name) {
            sums.push((name, 0, [0.0; 2]));
        }
        let sum = sums.last_mut().expect("just pushed");
        sum.1 += r.calls.len();
        sum.2 = [sum.2[0] + here, sum.2[1] + there];
    }
    for (name, calls, [here, there]) in sums {
        let per = calls as f64;
        println!("{name:8} {calls} calls, answers alike: {:.1} ns a call here, {:.1} ns the published Rust, ratio {:.2}", here / per, there / per, here / there);
    }
}
