//! Document 02's drawn path (K4): its model in Rust over the Rust's guidance, and lines for paths at a list's calls.

use arithmetic::{FRAC_PI_2, clamp, cosine, length, sine};

use crate::flown::judge::Plane;
use crate::flown::{Flown, validate};
use crate::guidance::{self, Answer, Settings};
use crate::record::{self, Call, Command, bits};

const GRAVITY: f32 = 9.80665;
const MOST_STEPS: usize = 600;
/// The step count is 0 or above 600.
const BAD_STEPS: u32 = 12;

/// Why a path stopped: the step, counted from 1, and its refusal, 0 for a number that is not finite.
#[derive(Clone, Copy)]
pub struct Stop {
    pub step: usize,
    pub reason: u32,
}

/// The path of a waypoint call into a buffer: how many points were drawn, and why it stopped.
pub fn draw<F: Flown>(guidance: &F, call: &Call, steps: usize, buffer: &mut [f32]) -> Result<(usize, Option<Stop>), u32> {
    if steps == 0 || steps > MOST_STEPS {
        return Err(BAD_STEPS);
    }
    if buffer.len() < 3 * steps {
        return Err(record::NO_ROOM);
    }
    let mut own = guidance.copy();
    let mut call = *call;
    for n in 0..steps {
        match step(&mut own, &mut call) {
            Ok(point) => buffer[3 * n..3 * n + 3].copy_from_slice(&point),
            Err(reason) => return Ok((n, Some(Stop { step: n + 1, reason }))),
        }
    }
    Ok((steps, None))
}

/// One step of the model: the call's sensors become those of the plane after it.
fn step<F: Flown>(guidance: &mut F, call: &mut Call) -> Result<[f32; 3], u32> {
    let Answer::Waypoint(_, _, [roll, pitch, ..], _) = guidance::call(guidance, call)? else {
        unreachable!("a waypoint's answer");
    };
    let Call::Guide { time_step, command: Command::Waypoint(w), .. } = call else {
        unreachable!("a waypoint");
    };
    let dt = *time_step;
    let [x, y, _] = w.velocity;
    let speed = length(x, y);
    let rate = if speed < 1.0 { 0.0 } else { GRAVITY * sine(roll) / cosine(roll) / speed };
    let turn = clamp(rate * dt, -FRAC_PI_2, FRAC_PI_2);
    let climb = w.airspeed.unwrap_or(speed) * sine(pitch);
    w.velocity = [x * cosine(turn) - y * sine(turn), x * sine(turn) + y * cosine(turn), climb];
    w.roll = roll;
    for (place, gain) in w.position.iter_mut().zip(w.velocity) {
        *place += gain * dt;
    }
    if w.position.iter().chain(&w.velocity).all(|number| number.is_finite()) { Ok(w.position) } else { Err(0) }
}

/// The step count and the buffer's length for call n of a list: mostly short paths, and now and then each bound.
pub fn sizes(n: usize, most: usize) -> (usize, usize) {
    let steps = match n {
        _ if n % 101 == 0 => most,
        _ if n % 103 == 0 => 601,
        _ if n % 107 == 0 => 0,
        _ => 1 + n % 17,
    };
    let room = match n {
        _ if n % 13 == 5 && steps > 0 => 3 * steps - 1,
        _ => 3 * steps + n % 3,
    };
    (steps, room)
}

/// A line for each waypoint call of a list, drawn before the call is made: what the path's answer says, and every number of the
/// buffer, which held 0, 1, .. as bits.
pub fn lines(input: &[u8], most: usize) -> String {
    let mut out = String::new();
    let Ok((numbers, mut place)) = record::read_configuration(input, 0) else {
        return out;
    };
    if validate(&numbers) != 0 {
        return out;
    }
    let (mut guidance, mut settings) = (Plane::new(&numbers), Settings::new(&numbers));
    for n in 1.. {
        match input.get(place) {
            Some(0) => {
                let Ok((call, next)) = record::read_call(input, place + 1) else { break };
                if let Call::Guide { command: Command::Waypoint(_), .. } = call {
                    out += &line(n, &guidance, &call, most);
                }
                let _ = guidance::call(&mut guidance, &call);
                place = next;
            }
            Some(1) => {
                let Ok((numbers, next)) = record::read_configuration(input, place + 1) else { break };
                let _ = guidance::set_configuration(&mut guidance, &mut settings, &numbers);
                place = next;
            }
            Some(2) => {
                let _ = guidance::take_back(&mut guidance, &mut settings);
                place += 1;
            }
            _ => break,
        }
    }
    out
}

fn line(n: usize, guidance: &Plane, call: &Call, most: usize) -> String {
    let (steps, room) = sizes(n, most);
    let mut buffer: Vec<f32> = (0..room as u32).map(f32::from_bits).collect();
    let told = match draw(guidance, call, steps, &mut buffer) {
        Err(refusal) => format!("refused {refusal}"),
        Ok((drawn, None)) => format!("drawn {drawn} whole"),
        Ok((drawn, Some(Stop { step, reason: 0 }))) => format!("drawn {drawn} stopped {step} not-finite"),
        Ok((drawn, Some(Stop { step, reason }))) => format!("drawn {drawn} stopped {step} refused {reason}"),
    };
    let numbers: String = buffer.iter().map(|number| format!(" {:08x}", bits(*number))).collect();
    format!("{n} {told}{numbers}\n")
}

/// The path at one call of a recording: a line `path` with what is told, then a line of bits for each point. None where the
/// recording has no such call, or the call is no waypoint.
pub fn at_call(input: &[u8], call: usize, steps: usize) -> Option<String> {
    let (numbers, mut place) = record::read_configuration(input, 0).ok()?;
    if validate(&numbers) != 0 {
        return None;
    }
    let mut guidance = Plane::new(&numbers);
    for _ in 1..call {
        let (before, next) = record::read_call(input, place).ok()?;
        let _ = guidance::call(&mut guidance, &before);
        place = next;
    }
    let (call, _) = record::read_call(input, place).ok()?;
    let Call::Guide { command: Command::Waypoint(_), .. } = call else {
        return None;
    };
    let mut buffer = vec![0.0; 3 * steps.min(MOST_STEPS)];
    Some(match draw(&guidance, &call, steps, &mut buffer) {
        Err(refusal) => format!("path {refusal} 0 0 0\n"),
        Ok((drawn, stop)) => {
            let stop = stop.unwrap_or(Stop { step: 0, reason: 0 });
            let point = |p: &[f32]| format!("{:08x} {:08x} {:08x}\n", bits(p[0]), bits(p[1]), bits(p[2]));
            let points: String = buffer.chunks(3).take(drawn).map(point).collect();
            format!("path 0 {drawn} {} {}\n{points}", stop.step, stop.reason)
        }
    })
}
