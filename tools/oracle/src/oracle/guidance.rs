//! Document 01's calls over a guidance of the Rust: refusals 1 to 4 and the law names, with document 02's idle and taking back.

use crate::configuration::{Numbers, crossed};
use crate::flown::{Flown, Setpoint, validate};
use crate::lateral::distance;
use crate::record::{Call, Command, Waypoint};

/// No change is left to take back.
pub const NOTHING_KEPT: u32 = 14;
/// The time step is not finite or not above 0.
pub const BAD_TIME_STEP: u32 = 2;
/// A waypoint's cap is below 0.
pub const BAD_CAP: u32 = 3;
/// A waypoint's pitch, thrust or a number it would store would not be finite.
pub const NOT_FINITE: u32 = 4;

#[derive(Clone, Copy, Debug, PartialEq)]
pub enum Lateral {
    Track,
    Loiter,
    Idle,
}

#[derive(Clone, Copy, Debug, PartialEq)]
pub enum Vertical {
    Energy,
    Hold,
    Fallback,
}

#[derive(Clone, Copy, Debug)]
pub enum Answer {
    Primed,
    Plane([f32; 3]),
    Rate([f32; 4]),
    /// With the distance off the line, document 02's K6.
    Waypoint(Lateral, Vertical, [f32; 3], f32),
}

/// The leg where it is present and finite.
pub fn finite_leg(w: &Waypoint) -> Option<[f32; 2]> {
    w.leg.filter(|leg| leg.iter().all(|number| number.is_finite()))
}

/// Why a waypoint is idle: document 02, K1.
pub fn idle_reason(w: &Waypoint) -> Option<&'static str> {
    let ground_speed = arithmetic::length(w.velocity[0], w.velocity[1]);
    match finite_leg(w) {
        Some([north, east]) if arithmetic::length(north, east) <= 1e-6 => Some("short leg"),
        _ if ground_speed < 1.0 => Some("ground speed below 1"),
        _ if ground_speed.is_nan() => Some("ground speed NaN"),
        _ => None,
    }
}

pub fn lateral(w: &Waypoint) -> Lateral {
    match (idle_reason(w), finite_leg(w)) {
        (Some(_), _) => Lateral::Idle,
        (None, Some(_)) => Lateral::Track,
        (None, None) => Lateral::Loiter,
    }
}

pub fn vertical(w: &Waypoint) -> Vertical {
    match w.airspeed {
        Some(airspeed) if w.cruise_speed > 0.0 && airspeed >= 0.0 => {
            let read = [w.altitude, w.cruise_speed, airspeed, w.position[2], w.velocity[2]];
            let finite = read.iter().all(|number| number.is_finite());
            if finite { Vertical::Energy } else { Vertical::Hold }
        }
        _ => Vertical::Fallback,
    }
}

/// The refusal that is given before the guidance runs.
pub fn refused_before(call: &Call) -> Option<u32> {
    let Call::Guide { time_step, command, .. } = call else {
        return None;
    };
    if !(time_step.is_finite() && *time_step > 0.0) {
        return Some(BAD_TIME_STEP);
    }
    match command {
        Command::Waypoint(w) if w.cap.is_some_and(|cap| cap < 0.0) => Some(BAD_CAP),
        _ => None,
    }
}

/// One call: the answer, or its refusal; a refused call leaves the guidance as it was.
pub fn call<F: Flown>(guidance: &mut F, call: &Call) -> Result<Answer, u32> {
    if let Some(number) = refused_before(call) {
        return Err(number);
    }
    let mut next = guidance.copy();
    let answer = match call {
        Call::Prime => {
            next.prime();
            Answer::Primed
        }
        Call::Guide { regime, time_step, command } => {
            let setpoint = next.guide_capped(*time_step, *regime, command);
            named(command, setpoint, next.loiter_radius())
        }
    };
    if !sound(&answer, &next) {
        return Err(NOT_FINITE);
    }
    *guidance = next;
    Ok(answer)
}

fn named(command: &Command, setpoint: Setpoint, radius: f32) -> Answer {
    match (command, setpoint) {
        (Command::Waypoint(w), Setpoint::Plane(numbers)) => {
            Answer::Waypoint(lateral(w), vertical(w), numbers, distance(w, radius))
        }
        (_, Setpoint::Plane(numbers)) => Answer::Plane(numbers),
        (_, Setpoint::Rate(numbers)) => Answer::Rate(numbers),
    }
}

/// Number 4's condition: it looks at a waypoint's pitch, thrust and what would be stored.
pub fn sound<F: Flown>(answer: &Answer, next: &F) -> bool {
    let Answer::Waypoint(_, _, [_, pitch, thrust], _) = answer else {
        return true;
    };
    let stored = next.state().numbers();
    pitch.is_finite() && thrust.is_finite() && stored.iter().all(|number| number.is_finite())
}

/// The configuration in force, and the one before the last accepted change (K11), which the Rust has not.
#[derive(Clone, Copy)]
pub struct Settings {
    pub numbers: Numbers,
    pub former: Option<Numbers>,
}

impl Settings {
    pub fn new(numbers: &Numbers) -> Self {
        Settings { numbers: *numbers, former: None }
    }
}

/// A set-configuration call: the number of the first failing field if it is refused. The Rust gets ordered pairs only.
pub fn set_configuration<F: Flown>(guidance: &mut F, settings: &mut Settings, numbers: &Numbers) -> Result<(), u32> {
    match crossed(numbers) {
        0 => guidance.set_config(numbers)?,
        _ => return Err(validate(numbers)),
    }
    *settings = Settings { numbers: *numbers, former: Some(settings.numbers) };
    Ok(())
}

/// A taking back: the configuration before the last accepted change comes into force again and is forgotten; the state stays.
pub fn take_back<F: Flown>(guidance: &mut F, settings: &mut Settings) -> Result<(), u32> {
    let former = settings.former.take().ok_or(NOTHING_KEPT)?;
    guidance.set_config(&former).expect("it was in force before");
    settings.numbers = former;
    Ok(())
}
