//! The Rust with f32's own min, max and clamp and its own ties: what it does from the oracle's state.

use std::any::Any;
use std::panic::{AssertUnwindSafe, catch_unwind, set_hook, take_hook};

use crate::configuration::Numbers;
use crate::desk::{answer_text, state_text};
use crate::flown::{Flown, Setpoint, State, judge, original};
use crate::guidance::{self, Answer};
use crate::record::{self, Call, Command, Regime, bits};

/// The Rust with f32's own min, max and clamp and its own ties, from a state: its setpoint and state, or its panic.
pub fn step(
    numbers: &Numbers,
    before: &State,
    regime: Regime,
    time_step: f32,
    command: &Command,
) -> Result<(Setpoint, State), &'static str> {
    let mut plane = original::Plane::with(numbers, before);
    quietly(|| {
        let setpoint = plane.guide_capped(time_step, regime, command);
        (setpoint, plane.state())
    })
}

/// For each guide call of a recording, from the oracle's state: its answer, and the Rust's.
pub fn beside(input: &[u8]) -> String {
    let Ok((numbers, mut place)) = record::read_configuration(input, 0) else {
        return "config stopped\n".to_string();
    };
    let mut plane = judge::Plane::new(&numbers);
    let mut out = String::new();
    while let Ok((call, next)) = record::read_call(input, place) {
        place = next;
        let before = plane.state();
        let answer = match guidance::call(&mut plane, &call) {
            Ok(answer) => answer_text(&answer),
            Err(number) => format!("refused {number}"),
        };
        out += &format!("{answer}\n  {}\n", state_text(&plane.state()));
        let Call::Guide { regime, time_step, command } = call else {
            continue;
        };
        out += &match step(&numbers, &before, regime, time_step, &command) {
            Ok((setpoint, state)) => format!("  the Rust: {}\n  {}\n", setpoint_text(&setpoint), state_text(&state)),
            Err(panic) => format!("  the Rust panics: {panic}\n"),
        };
    }
    out
}

fn setpoint_text(setpoint: &Setpoint) -> String {
    answer_text(&match setpoint {
        Setpoint::Plane(numbers) => Answer::Plane(*numbers),
        Setpoint::Rate(numbers) => Answer::Rate(*numbers),
    })
}

/// Runs what may panic without its message, and says which of the Rust's panics it was.
fn quietly<T>(run: impl FnOnce() -> T) -> Result<T, &'static str> {
    let hook = take_hook();
    set_hook(Box::new(|_| {}));
    let result = catch_unwind(AssertUnwindSafe(run));
    set_hook(hook);
    result.map_err(panic_name)
}

fn panic_name(panic: Box<dyn Any + Send>) -> &'static str {
    let text = match (panic.downcast_ref::<String>(), panic.downcast_ref::<&str>()) {
        (Some(text), _) => text.as_str(),
        (_, Some(text)) => text,
        _ => "",
    };
    if text.starts_with("dt must be") {
        "the time step is asserted"
    } else if text.contains("min = NaN") {
        "a clamp with NaN bounds"
    } else if text.contains("min > max") {
        "a clamp with crossed bounds"
    } else {
        "elsewhere"
    }
}

pub fn all_finite(setpoint: &Setpoint, state: &State) -> bool {
    let answered = match setpoint {
        Setpoint::Plane([_, pitch, thrust]) => pitch.is_finite() && thrust.is_finite(),
        Setpoint::Rate(_) => true,
    };
    answered && state.numbers().iter().all(|number| number.is_finite())
}

/// How an accepted answer and the state after it differ from the Rust's; `tie` says whether document 02's K5 decided the roll.
pub fn difference(answer: &Answer, state: &State, setpoint: &Setpoint, theirs: &State, tie: bool) -> &'static str {
    let ours: Vec<f32> = match answer {
        Answer::Plane(numbers) | Answer::Waypoint(_, _, numbers, _) => numbers.to_vec(),
        Answer::Rate(numbers) => numbers.to_vec(),
        Answer::Primed => Vec::new(),
    };
    let rust: Vec<f32> = match setpoint {
        Setpoint::Plane(numbers) => numbers.to_vec(),
        Setpoint::Rate(numbers) => numbers.to_vec(),
    };
    let ours = ours.into_iter().chain(state.numbers());
    let rust = rust.into_iter().chain(theirs.numbers());
    // The roll comes first.
    let differing: Vec<(f32, f32)> =
        ours.zip(rust).skip(tie as usize).filter(|(a, b)| bits(*a) != bits(*b)).collect();
    if state.energy.underspeed != theirs.energy.underspeed || state.energy.seeded != theirs.energy.seeded {
        "another flag"
    } else if differing.is_empty() {
        "equal bit for bit"
    } else if differing.iter().all(|(a, b)| *a == 0.0 && *b == 0.0) {
        "differs in the sign of a zero"
    } else {
        "differs"
    }
}
