//! Document 01's "Limits of a waypoint answer", checked on the oracle's own answers.

use crate::configuration::Numbers;
use crate::flown::State;
use crate::guidance::{Vertical, vertical};
use crate::record::{Waypoint, bits};

/// What an accepted waypoint's answer breaks, if anything. The state is the one after it.
pub fn broken(numbers: &Numbers, w: &Waypoint, answer: [f32; 3], after: &State) -> Option<&'static str> {
    let [roll, pitch, thrust] = answer;
    let cap = w.cap.unwrap_or(f32::NAN);
    let (up, down) = (arithmetic::least(numbers[1], cap), arithmetic::least(numbers[2], cap));
    let (trim, cruise) = (numbers[6], numbers[7]);
    let (low, high) = (numbers[30], arithmetic::greatest(numbers[31], numbers[30]));
    let within = |low: f32, value: f32, high: f32| low <= value && value <= high;
    if !within(-numbers[0], roll, numbers[0]) {
        return Some("roll");
    }
    let kept = match vertical(w) {
        Vertical::Energy => {
            let full = !after.energy.underspeed || thrust == high;
            within(-down, pitch, up) && within(low, thrust, high) && full
        }
        Vertical::Hold => bits(pitch) == bits(trim) && bits(thrust) == bits(cruise),
        Vertical::Fallback => {
            // Adding the trim rounds once and keeps order, so the correction's ends bound it.
            let finite = (w.altitude - w.position[2]).is_finite();
            let (lowest, highest) = (trim + (-down - trim), trim + (up - trim));
            let pitched = if finite { within(lowest, pitch, highest) } else { bits(pitch) == bits(trim + 0.0) };
            pitched && within(low, thrust, high)
        }
    };
    if kept { None } else { Some("pitch or thrust") }
}
