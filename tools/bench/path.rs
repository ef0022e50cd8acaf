//! Drawn paths: the archive's nuthkolla_draw_path through the C boundary, the oracle's own `draw`, and, as the least that Rust
//! could do, document 02's model over the published Rust with document 01's refusals and nothing else: no law names, no distance
//! off the line, no guidance kept for a refusal. All draw the same paths, and every point is compared before anything is timed.
//! Beside them a guide call of the archive on the same waypoint, its record read.
//!
//!     path ROUNDS

#[path = "../oracle/src/oracle/configuration.rs"]
#[allow(dead_code)]
mod configuration;
#[path = "../oracle/src/oracle/flown.rs"]
#[allow(dead_code)]
mod flown;
#[path = "../oracle/src/oracle/guidance.rs"]
#[allow(dead_code)]
mod guidance;
#[path = "../oracle/src/oracle/lateral.rs"]
#[allow(dead_code)]
mod lateral;
#[path = "../oracle/src/oracle/path.rs"]
#[allow(dead_code)]
mod path;
#[path = "../oracle/src/oracle/record.rs"]
#[allow(dead_code)]
mod record;

use arithmetic::{FRAC_PI_2, clamp, cosine, length, sine};
use flown::Flown;
use nuthkolla::ffi;
use stable_flight::guidance::plane::{PlaneGuidance, PlaneGuidanceConfig};
use stable_flight::{ControlInput, FlightRegime, Setpoint, Vec2, Vec3, VehicleState, WaypointCommand};
use std::hint::black_box;
use std::time::Instant;

const GRAVITY: f32 = 9.80665;
const STEPS: [usize; 2] = [10, 600];

/// What both draw: a call as numbers.
fn calls() -> Vec<(&'static str, ffi::Call)> {
    let track = ffi::Call {
        kind: 3,
        regime: 1,
        dt: 0.1,
        waypoint: [500.0, 0.0],
        has_leg: 1,
        leg: [16.0, 0.0],
        altitude_m: 80.0,
        cruise_speed_mps: 17.0,
        position_m: nuthkolla::Vec3 { x: 0.0, y: 40.0, z: 60.0 },
        velocity_mps: nuthkolla::Vec3 { x: 10.0, y: 12.0, z: 0.5 },
        roll_rad: 0.1,
        has_airspeed: 1,
        airspeed_mps: 16.0,
        ..Default::default()
    };
    let loiter = ffi::Call { has_leg: 0, ..track };
    let fallback = ffi::Call { has_airspeed: 0, ..track };
    vec![("track", track), ("loiter", loiter), ("fallback", fallback)]
}

/// Document 02's model over the published Rust, through the same boundary.
#[unsafe(no_mangle)]
#[inline(never)]
pub extern "C" fn published_path(guidance: &PlaneGuidance, call: ffi::Call, steps: usize, out: *mut f32, room: usize) -> ffi::Path {
    let out = unsafe { std::slice::from_raw_parts_mut(out, room) };
    if steps == 0 || steps > 600 {
        return ffi::Path { refusal: 12, reason: 0, drawn: 0, stopped: 0 };
    }
    if out.len() < 3 * steps {
        return ffi::Path { refusal: 8, reason: 0, drawn: 0, stopped: 0 };
    }
    let mut own = guidance.clone();
    let command = ControlInput::Waypoint(WaypointCommand {
        position_m: Vec2::new(call.waypoint[0], call.waypoint[1]),
        velocity_mps: (call.has_leg != 0).then_some(Vec2::new(call.leg[0], call.leg[1])),
        altitude_m: call.altitude_m,
        cruise_speed_mps: call.cruise_speed_mps,
        heading_rad: None,
    });
    let cap = (call.has_cap != 0).then_some(call.pitch_cap_rad);
    let mut state = VehicleState::default();
    state.position_m = Vec3::new(call.position_m.x, call.position_m.y, call.position_m.z);
    state.velocity_mps = Vec3::new(call.velocity_mps.x, call.velocity_mps.y, call.velocity_mps.z);
    state.roll_rad = call.roll_rad;
    state.airspeed_mps = (call.has_airspeed != 0).then_some(call.airspeed_mps);
    for n in 0..steps {
        match step(&mut own, &command, call.dt, cap, &mut state) {
            Ok(()) => out[3 * n..3 * n + 3].copy_from_slice(&[state.position_m.x, state.position_m.y, state.position_m.z]),
            Err(reason) => return ffi::Path { refusal: 0, reason, drawn: n, stopped: n + 1 },
        }
    }
    ffi::Path { refusal: 0, reason: 0, drawn: steps, stopped: 0 }
}

fn stored_is_finite(g: &PlaneGuidance) -> bool {
    let tecs = &g.tecs;
    let demand = tecs.demand.as_ref().map_or([0.0; 3], |d| [d.slewed_height_m, d.height_m, d.airspeed_mps]);
    g.altitude.integral.is_finite()
        && demand.iter().all(|v| v.is_finite())
        && tecs.filtered_airspeed_mps.unwrap_or(0.0).is_finite()
        && tecs.steady_accel_mps2.unwrap_or(0.0).is_finite()
        && tecs.pitch_integral_rad.is_finite()
        && tecs.thrust_integral.is_finite()
}

fn step(own: &mut PlaneGuidance, command: &ControlInput, dt: f32, cap: Option<f32>, state: &mut VehicleState) -> Result<(), u32> {
    if !(dt.is_finite() && dt > 0.0) {
        return Err(2);
    }
    if cap.is_some_and(|cap| cap < 0.0) {
        return Err(3);
    }
    let Setpoint::Plane(s) = own.guide_capped(dt, FlightRegime::Plane, command, state, cap) else {
        unreachable!("a waypoint's setpoint");
    };
    if !(s.pitch_rad.is_finite() && s.thrust.is_finite() && stored_is_finite(own)) {
        return Err(4);
    }
    let (x, y) = (state.velocity_mps.x, state.velocity_mps.y);
    let speed = length(x, y);
    let rate = if speed < 1.0 { 0.0 } else { GRAVITY * sine(s.roll_rad) / cosine(s.roll_rad) / speed };
    let turn = clamp(rate * dt, -FRAC_PI_2, FRAC_PI_2);
    let (c, z) = (cosine(turn), sine(turn));
    let climb = state.airspeed_mps.unwrap_or(speed) * sine(s.pitch_rad);
    state.velocity_mps = Vec3::new(x * c - y * z, x * z + y * c, climb);
    state.roll_rad = s.roll_rad;
    let (p, v) = (state.position_m, state.velocity_mps);
    state.position_m = Vec3::new(p.x + v.x * dt, p.y + v.y * dt, p.z + v.z * dt);
    let numbers = [state.position_m.x, state.position_m.y, state.position_m.z, v.x, v.y, v.z];
    if numbers.iter().all(|number| number.is_finite()) { Ok(()) } else { Err(0) }
}

/// The same call as the oracle has it.
fn oracle_call(record: &[u8]) -> record::Call {
    record::read_call(record, 0).map(|(call, _)| call).unwrap_or_else(|_| panic!("a call's record"))
}

fn ns_of(times: usize, mut run: impl FnMut()) -> f64 {
    let start = Instant::now();
    for _ in 0..times {
        run();
    }
    start.elapsed().as_nanos() as f64 / times as f64
}

/// The least time of each job, in ns, over the second half of the rounds.
fn least(rounds: usize, jobs: &mut [(usize, &mut dyn FnMut())]) -> Vec<f64> {
    let mut least = vec![f64::MAX; jobs.len()];
    for round in 0..2 * rounds {
        for ((times, job), time) in jobs.iter_mut().zip(&mut least) {
            let taken = ns_of(*times, job);
            if round >= rounds {
                *time = time.min(taken);
            }
        }
    }
    least
}

fn alike(a: &[f32], b: &[f32]) -> bool {
    a.iter().zip(b).all(|(p, q)| p.to_bits() == q.to_bits())
}

fn time(name: &str, call: ffi::Call, steps: usize, rounds: usize) {
    let mut ours = ffi::Guidance::default();
    let made = unsafe { ffi::nuthkolla_run(&mut ours, 0, ffi::NEW, [0u8; 5].as_ptr(), 5) };
    assert_eq!(made.refusal, 0);
    let published = PlaneGuidance::new(PlaneGuidanceConfig::default());
    let plane = flown::judge::Plane::new(&configuration::default());
    let mut record = [0u8; 86];
    let next = unsafe { ffi::nuthkolla_write_call(record.as_mut_ptr(), record.len(), 0, call) }.next;
    let oracle_call = oracle_call(&record[..next]);

    let (mut here, mut oracles, mut models) = (vec![0f32; 3 * steps], vec![0f32; 3 * steps], vec![0f32; 3 * steps]);
    let draw = |out: &mut [f32]| unsafe { ffi::nuthkolla_draw_path(ours, call, steps, out.as_mut_ptr(), out.len()) };
    let oracle = |out: &mut [f32]| path::draw(black_box(&plane), black_box(&oracle_call), steps, out);
    let model = |out: &mut [f32]| published_path(&published, call, steps, out.as_mut_ptr(), out.len());
    let (a, b) = (draw(&mut here), model(&mut models));
    assert_eq!((a.refusal, a.drawn, a.stopped, a.reason), (b.refusal, b.drawn, b.stopped, b.reason));
    assert!(matches!(oracle(&mut oracles), Ok((drawn, None)) if drawn == a.drawn));
    assert!(alike(&here, &models) && alike(&here, &oracles), "points alike");

    let (mut guidance, times) = (ours, 6000 / steps);
    let taken = least(
        rounds,
        &mut [
            (times, &mut || drop(black_box(draw(black_box(&mut here))))),
            (times, &mut || drop(black_box(oracle(black_box(&mut oracles))))),
            (times, &mut || drop(black_box(model(black_box(&mut models))))),
            (6000, &mut || {
                black_box(unsafe { ffi::nuthkolla_run(black_box(&mut guidance), 0, ffi::CALL, record.as_ptr(), next) });
            }),
        ],
    );
    let [step, oracle, model] = [0, 1, 2].map(|job| taken[job] / steps as f64);
    println!(
        "{name:8} {steps:3} steps, points alike: {step:.1} ns a step here; the oracle's {oracle:.1} ns, ratio {:.2}; the bare model {model:.1} ns, ratio {:.2}; a guide call {:.1} ns, a step {:.2} of it",
        step / oracle,
        step / model,
        taken[3],
        step / taken[3]
    );
}

fn main() {
    let rounds: usize = std::env::args().nth(1).map_or(200, |word| word.parse().expect("a number of rounds"));
    for (name, call) in calls() {
        for steps in STEPS {
            time(name, call, steps, rounds);
        }
    }
}
