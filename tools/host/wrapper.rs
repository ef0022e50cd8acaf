//! The Rust wrapper's typed calls, as the programs in C beside it print theirs:
//!     wrapper desk < RECORDING, wrapper list < LIST      replay.c
//!     wrapper compact < RECORDING                        compact.c
//!     wrapper paths MOST < LIST                          paths.c
//! A call's record is read here, from document 01, and handed over as a command, a state and a cap; what the record itself gives
//! has to be the same.

use nuthkolla::*;
use std::io::Read;

const SKIPPER: Caller = Caller::Skipper;

/// A number's bits, any NaN as 7fc00000.
fn bits(x: f32) -> u32 {
    if x.is_nan() { 0x7fc0_0000 } else { x.to_bits() }
}

/// A call of a record that the library has read, and the record's length.
fn call_of(record: &[u8]) -> (Call, usize) {
    let map = u32::from_le_bytes(record[..4].try_into().unwrap());
    let mut at = 5;
    let mut regime = FlightRegime::Plane;
    if map >> 1 & 1 == 1 {
        regime = if record[at] == 0 { FlightRegime::Copter } else { FlightRegime::Plane };
        at += 1;
    }
    let mut found = [None; 22];
    for bit in 2..22 {
        if map >> bit & 1 == 1 {
            found[bit] = Some(f32::from_le_bytes(record[at..at + 4].try_into().unwrap()));
            at += 4;
        }
    }
    let n = |bit: usize| found[bit].unwrap_or(0.0);
    let input = match record[4] {
        0 => return (Call::Prime, at),
        1 => ControlInput::Attitude(AttitudeCommand { throttle: n(5), roll: n(3), pitch: n(4), yaw: 0.0 }),
        2 => ControlInput::Rate(RateCommand { throttle: n(6), roll_rate: n(3), pitch_rate: n(4), yaw_rate: n(5) }),
        3 => ControlInput::Waypoint(WaypointCommand {
            position_m: Vec2::new(n(7), n(8)),
            velocity_mps: found[9].map(|x| Vec2::new(x, n(10))),
            altitude_m: n(11),
            cruise_speed_mps: n(12),
            heading_rad: None,
        }),
        4 => ControlInput::AbsoluteAttitude(AbsoluteAttitudeCommand { roll_rad: n(3), pitch_rad: n(4), heading_rad: 0.0, thrust: n(5) }),
        5 => ControlInput::Land(LandCommand::default()),
        _ => ControlInput::AbsoluteRate(AbsoluteRateCommand { roll_radps: n(3), pitch_radps: n(4), yaw_radps: n(5), thrust: n(6) }),
    };
    let (position_m, velocity_mps) = (Vec3::new(n(13), n(14), n(15)), Vec3::new(n(16), n(17), n(18)));
    let state = VehicleState { position_m, velocity_mps, roll_rad: n(19), airspeed_mps: found[20] };
    (Call::Guide { dt: n(2), regime, input, state, pitch_cap_rad: found[21] }, at)
}

fn answer_text(answer: &Answer) -> String {
    let named = answer.laws.map(|laws| format!("{:?} {:?}", laws.lateral, laws.vertical).to_lowercase());
    match answer.setpoint {
        None => "prime".to_string(),
        Some(Setpoint::PlaneRate(s)) => {
            format!("rate {:08x} {:08x} {:08x} {:08x}", bits(s.roll_radps), bits(s.pitch_radps), bits(s.yaw_radps), bits(s.thrust))
        }
        Some(Setpoint::Plane(s)) => {
            let off = answer.cross_track_m.map_or(String::new(), |m| format!(" {:08x}", bits(m)));
            let kind = named.unwrap_or("plane".to_string());
            format!("{kind} {:08x} {:08x} {:08x}{off}", bits(s.roll_rad), bits(s.pitch_rad), bits(s.thrust))
        }
    }
}

fn text_of(found: &Result<Answer, Refusal>) -> String {
    found.as_ref().map_or_else(Refusal::to_string, answer_text)
}

/// A call by its values; `guide_capped` and the record have to answer alike. The text, and the record's length.
fn run_call(guidance: &mut PlaneGuidance, record: &[u8]) -> Result<(String, usize), Refusal> {
    let mut by_record = guidance.clone();
    let recorded = by_record.call_record(SKIPPER, record);
    if let Err(refusal @ (Refusal::Short | Refusal::Map | Refusal::Kind)) = recorded {
        return Err(refusal);
    }
    let (call, length) = call_of(record);
    let mut by_name = guidance.clone();
    let named = match &call {
        Call::Prime => by_name.prime(SKIPPER, &VehicleState::default()).map(|()| None),
        Call::Guide { dt, regime, input, state, pitch_cap_rad } => {
            by_name.guide_capped(SKIPPER, *dt, *regime, input, state, *pitch_cap_rad).map(Some)
        }
    };
    let found = guidance.call(SKIPPER, &call);
    let text = text_of(&found);
    assert_eq!(text, text_of(&recorded), "the record answers otherwise");
    let laws = found.as_ref().ok().and_then(|answer| answer.laws);
    let off = found.as_ref().ok().and_then(|answer| answer.cross_track_m);
    let named = named.map(|setpoint| Answer { setpoint, laws, cross_track_m: off, next: 0 });
    assert_eq!(text, text_of(&named), "guide_capped or prime answers otherwise");
    Ok((text, length))
}

/// One entry of a list: its text, and its length. Err: the record's refusal.
fn entry(guidance: &mut PlaneGuidance, tag: u8, bytes: &[u8]) -> Result<(String, usize), Refusal> {
    match tag {
        0 => run_call(guidance, bytes),
        1 => {
            let (config, length) = read_config(bytes, 0)?;
            let text = match guidance.set_config(SKIPPER, config) {
                Ok(()) => "set".to_string(),
                Err(Refusal::Config(field)) => format!("refused 1 {}", field.number),
                Err(refusal) => refusal.to_string(),
            };
            Ok((text, length))
        }
        _ => Ok((guidance.take_back(SKIPPER).map_or_else(|refusal| refusal.to_string(), |()| "back".to_string()), 0)),
    }
}

fn replay(input: &[u8], list: bool) {
    let mut guidance = match PlaneGuidance::from_record(SKIPPER, input) {
        Err(Refusal::Config(field)) => return println!("config refused {}", field.number),
        Err(refusal) => return println!("config stopped {}", refusal.number()),
        Ok(guidance) => guidance,
    };
    let mut place = read_config(input, 0).unwrap().1;
    for number in 1.. {
        if place >= input.len() {
            return;
        }
        let tag = if list { input[place] } else { 0 };
        if !list && number > 4096 {
            return println!("{number} stopped 9");
        }
        if tag > 2 {
            return println!("{number} stopped tag");
        }
        place += list as usize;
        match entry(&mut guidance, tag, &input[place..]) {
            Err(refusal) => return println!("{number} stopped {}", refusal.number()),
            Ok((text, length)) => {
                println!("{number} {text}");
                place += length;
            }
        }
    }
}

fn compacted(bytes: &mut [u8]) {
    match compact(bytes) {
        Ok(length) => println!("length {length}"),
        Err(RecordingRefused { refusal: Refusal::Config(field), .. }) => println!("config refused {}", field.number),
        Err(RecordingRefused { refusal, call: 0 }) => println!("config stopped {}", refusal.number()),
        Err(RecordingRefused { refusal, call }) => println!("{call} stopped {}", refusal.number()),
    }
    println!("{}", bytes.iter().map(|byte| format!("{byte:02x}")).collect::<String>());
}

/// The path at a waypoint call: paths.c has these sizes.
fn path_text(n: usize, most: usize, guidance: &PlaneGuidance, call: &Call) -> Option<String> {
    let Call::Guide { dt, regime, input: ControlInput::Waypoint(command), state, pitch_cap_rad } = call else {
        return None;
    };
    let steps = if n % 101 == 0 { most } else if n % 103 == 0 { 601 } else if n % 107 == 0 { 0 } else { 1 + n % 17 };
    let room = if n % 13 == 5 && steps > 0 { 3 * steps - 1 } else { 3 * steps + n % 3 };
    let mut buffer: Vec<f32> = (0..room as u32).map(f32::from_bits).collect();
    let told = match guidance.draw_path(*dt, *regime, command, state, *pitch_cap_rad, steps, &mut buffer) {
        Err(refusal) => refusal.to_string(),
        Ok(DrawnPath { drawn, stopped: None }) => format!("drawn {drawn} whole"),
        Ok(DrawnPath { drawn, stopped: Some(PathStop { step, refusal }) }) => {
            format!("drawn {drawn} stopped {step} {}", refusal.map_or("not-finite".to_string(), |refusal| refusal.to_string()))
        }
    };
    let numbers: String = buffer.iter().map(|number| format!(" {:08x}", bits(*number))).collect();
    Some(format!("{n} {told}{numbers}"))
}

fn paths(input: &[u8], most: usize) {
    let Ok(mut guidance) = PlaneGuidance::from_record(SKIPPER, input) else { return };
    let mut place = read_config(input, 0).unwrap().1;
    for n in 1.. {
        let Some(tag @ 0..=2) = input.get(place).copied() else { return };
        place += 1;
        let before = guidance.clone();
        let Ok((_, length)) = entry(&mut guidance, tag, &input[place..]) else { return };
        if tag == 0 {
            path_text(n, most, &before, &call_of(&input[place..]).0).into_iter().for_each(|text| println!("{text}"));
        }
        place += length;
    }
}

fn main() {
    let words: Vec<String> = std::env::args().skip(1).collect();
    let mut input = Vec::new();
    std::io::stdin().read_to_end(&mut input).expect("standard input can be read");
    match words.iter().map(String::as_str).collect::<Vec<_>>()[..] {
        ["desk"] => replay(&input, false),
        ["list"] => replay(&input, true),
        ["compact"] => compacted(&mut input),
        ["paths", most] => paths(&input, most.parse().expect("MOST is a number")),
        _ => panic!("wrapper desk, list, compact or paths MOST"),
    }
}
