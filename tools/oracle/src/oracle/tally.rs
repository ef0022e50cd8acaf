//! Runs inputs through the three copies of the guidance and counts: which calls were met, which
//! way each condition went, and where the Rust with f32's own min, max and clamp and its own ties differs.

use std::collections::BTreeMap;

use crate::desk::{Form, answer_text, state_text};
use crate::flown::{Flown, State, counted, judge, validate};
use crate::guidance::{self, Answer, Lateral, Settings, Vertical};
use crate::lateral;
use crate::limits;
use crate::original;
use crate::record::{self, Call, Command, Waypoint, bits};

#[derive(Default)]
pub struct Tally {
    counts: BTreeMap<(&'static str, String), u64>,
}

/// The judge and the counting copy, held in step.
struct Pair {
    settings: Settings,
    judge: judge::Plane,
    counted: counted::Plane,
}

impl Tally {
    fn add(&mut self, section: &'static str, name: impl Into<String>) {
        *self.counts.entry((section, name.into())).or_insert(0) += 1;
    }

    /// Runs a recording or a list.
    pub fn run(&mut self, input: &[u8], form: Form) {
        let (numbers, mut place) = match record::read_configuration(input, 0) {
            Ok(read) => read,
            Err(number) => return self.add("records", format!("configuration stopped {number}")),
        };
        let field = validate(&numbers);
        if field != 0 {
            return self.add("configurations", format!("refused, field {field:2}"));
        }
        self.add("configurations", "taken");
        let (judge, counted) = (judge::Plane::new(&numbers), counted::Plane::new(&numbers));
        let mut pair = Pair { settings: Settings::new(&numbers), judge, counted };
        while place < input.len() {
            match self.step(&mut pair, input, place, form) {
                Ok(next) => place = next,
                Err(number) => return self.add("records", format!("call stopped {number}")),
            }
        }
    }

    /// One call or one set-configuration call, and the place after it.
    fn step(&mut self, pair: &mut Pair, input: &[u8], place: usize, form: Form) -> Result<usize, u32> {
        if form == Form::Recording {
            let (call, next) = record::read_call(input, place)?;
            self.call(pair, &call);
            return Ok(next);
        }
        if input[place] == 0 {
            let (call, next) = record::read_call(input, place + 1)?;
            self.call(pair, &call);
            return Ok(next);
        }
        if input[place] == 2 {
            self.take_back(pair);
            return Ok(place + 1);
        }
        let (numbers, next) = record::read_configuration(input, place + 1)?;
        let mut settings = pair.settings;
        match guidance::set_configuration(&mut pair.judge, &mut pair.settings, &numbers) {
            Ok(()) => {
                guidance::set_configuration(&mut pair.counted, &mut settings, &numbers).expect("as the judge");
                self.add("configurations", "set");
            }
            Err(field) => self.add("configurations", format!("refused, field {field:2}")),
        }
        Ok(next)
    }

    fn take_back(&mut self, pair: &mut Pair) {
        let mut settings = pair.settings;
        match guidance::take_back(&mut pair.judge, &mut pair.settings) {
            Ok(()) => {
                guidance::take_back(&mut pair.counted, &mut settings).expect("as the judge");
                self.add("configurations", "taken back");
            }
            Err(number) => self.add("configurations", format!("refused {number}")),
        }
    }

    fn call(&mut self, pair: &mut Pair, call: &Call) {
        let before = pair.judge.state();
        let answer = guidance::call(&mut pair.judge, call);
        let counting = guidance::call(&mut pair.counted, call);
        assert_eq!(answer.as_ref().map(answer_text), counting.as_ref().map(answer_text));
        assert_eq!(state_text(&pair.judge.state()), state_text(&pair.counted.state()));
        if let (Ok(Answer::Waypoint(_, _, numbers, off)), Call::Guide { command: Command::Waypoint(w), .. }) =
            (&answer, call)
        {
            let broken = limits::broken(&pair.settings.numbers, w, *numbers, &pair.judge.state());
            assert_eq!(broken, None, "{call:?} from {before:?}");
            self.add("distances", distance_name(w, *off));
        }
        self.describe(call, &before, &answer);
        self.compare_original(pair, call, &before, &answer);
    }

    fn describe(&mut self, call: &Call, before: &State, answer: &Result<Answer, u32>) {
        match call {
            Call::Prime => self.add("commands", "prime"),
            Call::Guide { command, .. } => self.add("commands", command_name(command)),
        }
        match answer {
            Err(number) => self.add("answers", format!("refused {number}")),
            Ok(answer) => {
                let text = answer_text(answer);
                let names = text.split(' ').filter(|word| word.len() != 8 || word.contains('l'));
                self.add("answers", names.collect::<Vec<_>>().join(" "));
            }
        }
        let Call::Guide { command: Command::Waypoint(w), .. } = call else {
            return;
        };
        self.describe_waypoint(w, before, answer.is_ok());
        if let Some(zero) = lateral::tie(w).filter(|_| answer.is_ok()) {
            let law = if guidance::finite_leg(w).is_some() { "leg" } else { "tangent" };
            self.add("ties", format!("{law}, {zero}"));
        }
    }

    fn describe_waypoint(&mut self, w: &Waypoint, before: &State, accepted: bool) {
        self.add("legs", leg_name(w));
        self.add("caps", cap_name(w.cap));
        if !accepted {
            return;
        }
        if let Some(reason) = guidance::idle_reason(w) {
            let leg = if guidance::finite_leg(w).is_some() { "on a leg" } else { "no leg" };
            self.add("idle", if reason == "short leg" { reason.to_string() } else { format!("{reason}, {leg}") });
        }
        match guidance::vertical(w) {
            Vertical::Energy => {
                let underspeed = if before.energy.underspeed { "underspeed stood" } else { "no underspeed" };
                let seeded = if before.energy.seeded { "later step" } else { "first step" };
                self.add("energy steps", format!("{seeded}, {underspeed}"));
            }
            Vertical::Hold => {
                for (name, number) in hold_reasons(w) {
                    if !number.is_finite() {
                        self.add("holds", format!("{name} not finite"));
                    }
                }
                let kept = if before.energy.seeded { "energy state kept" } else { "nothing to keep" };
                self.add("holds", kept);
            }
            Vertical::Fallback => {
                let reason = match w.airspeed {
                    _ if w.cruise_speed.is_nan() => "cruise speed NaN",
                    _ if w.cruise_speed <= 0.0 => "cruise speed not above 0",
                    None => "no airspeed",
                    Some(airspeed) if airspeed.is_nan() => "airspeed NaN",
                    Some(_) => "airspeed below 0",
                };
                self.add("fallbacks", reason);
            }
        }
    }

    /// The Rust with f32's own min, max and clamp and its own ties, from the same state: what would it do?
    fn compare_original(&mut self, pair: &Pair, call: &Call, before: &State, answer: &Result<Answer, u32>) {
        let Call::Guide { regime, time_step, command } = call else {
            return;
        };
        // A refused call leaves the configuration, so this one is in force.
        let name = match (answer, original::step(&pair.settings.numbers, before, *regime, *time_step, command)) {
            (Err(number), Err(place)) => format!("refused {number}, the Rust panics: {place}"),
            (Err(number), Ok((setpoint, state))) => {
                let sound = original::all_finite(&setpoint, &state);
                let what = if sound { "answers and stores finite numbers" } else { "answers or stores one not finite" };
                format!("refused {number}, the Rust {what}")
            }
            (Ok(_), Err(_)) => "accepted, the Rust panics".to_string(),
            (Ok(answer), Ok((setpoint, state))) => {
                let tie = matches!(command, Command::Waypoint(w) if lateral::tie(w).is_some());
                let differs = original::difference(answer, &pair.judge.state(), &setpoint, &state, tie);
                format!("accepted, {}{differs}", if tie { "at a tie, beside the roll " } else { "" })
            }
        };
        self.add("beside the Rust's own min, max and clamp", name);
    }

    pub fn print(&self) -> String {
        let mut out = String::new();
        let mut last = "";
        for ((section, name), count) in &self.counts {
            if *section != last {
                out += &format!("\n{section}\n");
                last = section;
            }
            out += &format!("{count:>12}  {name}\n");
        }
        out
    }
}

fn command_name(command: &Command) -> &'static str {
    match command {
        Command::Attitude(_) => "attitude",
        Command::Rate(_) => "rate",
        Command::Waypoint(_) => "waypoint",
        Command::AbsoluteAttitude(_) => "absolute attitude",
        Command::Land => "land",
        Command::AbsoluteRate(_) => "absolute rate",
    }
}

fn leg_name(w: &Waypoint) -> &'static str {
    let Some([north, east]) = w.leg else {
        return "none";
    };
    let length = arithmetic::length(north, east);
    if !(north.is_finite() && east.is_finite()) {
        "not finite"
    } else if !length.is_finite() {
        "finite, length overflows"
    } else if length <= 1e-6 {
        "finite, length up to 1e-6"
    } else {
        "finite"
    }
}

fn distance_name(w: &Waypoint, off: f32) -> String {
    let law = match guidance::lateral(w) {
        Lateral::Track => "track",
        Lateral::Loiter => "loiter",
        Lateral::Idle => "idle",
    };
    let side = match off {
        _ if off.is_nan() => "NaN",
        _ if off.is_infinite() => "infinite",
        _ if off == 0.0 => "zero",
        _ if off > 0.0 => "right",
        _ => "left",
    };
    format!("{law}, {side}")
}

fn cap_name(cap: Option<f32>) -> &'static str {
    match cap {
        None => "none",
        Some(cap) if cap.is_nan() => "NaN",
        Some(cap) if cap < 0.0 => "below 0",
        Some(cap) if bits(cap) == 0x8000_0000 => "-0",
        Some(0.0) => "+0",
        Some(_) => "above 0",
    }
}

fn hold_reasons(w: &Waypoint) -> [(&'static str, f32); 5] {
    [
        ("altitude", w.altitude),
        ("target", w.cruise_speed),
        ("airspeed", w.airspeed.unwrap_or(0.0)),
        ("height", w.position[2]),
        ("climb", w.velocity[2]),
    ]
}
