//! Every stand-in and every law on its own: words in, words out. Numbers are bits, every NaN
//! 7fc00000; flags are 0 or 1.

use stable_flight::guidance::plane::navigation::{self, PiLoop};
use stable_flight::guidance::plane::tecs::{Energies, Limits, TecsConfig};
use stable_flight::{Vec2, VehicleState, math};

use crate::configuration::{self, Numbers};
use crate::flown::judge::{self, energy_state, tecs};
use crate::flown::{EnergyState, Flown, validate};
use crate::numbers::{ENERGY_COLUMNS, configuration_columns};
use crate::record::{Command, Regime, Waypoint, bits};

pub struct Function {
    pub name: &'static str,
    /// A letter for each input word, as `numbers::ordinary` has them.
    pub columns: String,
    pub run: fn(&mut Words) -> Vec<u32>,
}

impl Function {
    /// An energy state that is not seeded has no numbers for demands and filters: +0 each. Least and greatest come in order (K8),
    /// but for `validate`, which is there to refuse them.
    pub fn settle(&self, row: &mut [u32]) {
        if self.name != "validate" {
            self.order(row, ENERGY_COLUMNS, 10);
            self.order(row, LIMITS_COLUMNS, 3);
        }
        if self.columns.ends_with(ENERGY_STATE_COLUMNS) {
            let state = row.len() - ENERGY_STATE_COLUMNS.len();
            if row[state] == 0 {
                row[state + 1..state + 6].fill(0);
            }
        }
    }

    /// Puts the two numbers at a place of these columns in order, where the function has them.
    fn order(&self, row: &mut [u32], columns: &str, place: usize) {
        let Some(start) = self.columns.find(columns) else {
            return;
        };
        let least = start + place;
        if f32::from_bits(row[least]) > f32::from_bits(row[least + 1]) {
            row.swap(least, least + 1);
        }
    }
}

/// The input words, taken in order.
pub struct Words<'a>(std::slice::Iter<'a, u32>);

impl<'a> Words<'a> {
    pub fn new(words: &'a [u32]) -> Self {
        Words(words.iter())
    }

    fn word(&mut self) -> u32 {
        *self.0.next().expect("as many words as columns")
    }

    fn number(&mut self) -> f32 {
        f32::from_bits(self.word())
    }

    fn numbers<const N: usize>(&mut self) -> [f32; N] {
        std::array::from_fn(|_| self.number())
    }

    fn vector(&mut self) -> Vec2 {
        let [x, y] = self.numbers();
        Vec2::new(x, y)
    }

    fn energy_configuration(&mut self) -> TecsConfig {
        let mut numbers: Numbers = configuration::default();
        numbers[14..30].copy_from_slice(&self.numbers::<16>());
        judge::config(&numbers).tecs
    }

    fn energy_state(&mut self) -> EnergyState {
        EnergyState {
            seeded: self.word() != 0,
            slewed_height: self.number(),
            height: self.number(),
            airspeed_demand: self.number(),
            filtered_airspeed: self.number(),
            steady_accel: self.number(),
            pitch_integral: self.number(),
            thrust_integral: self.number(),
            underspeed: self.word() != 0,
        }
    }

    fn limits(&mut self) -> Limits {
        Limits {
            pitch_up_rad: self.number(),
            pitch_down_rad: self.number(),
            trim_pitch_rad: self.number(),
            min_thrust: self.number(),
            max_thrust: self.number(),
            cruise_thrust: self.number(),
        }
    }

    fn energies(&mut self) -> Energies {
        Energies {
            potential_error: self.number(),
            kinetic_error: self.number(),
            potential_rate_demand: self.number(),
            kinetic_rate_demand: self.number(),
            potential_rate: self.number(),
            kinetic_rate: self.number(),
            speed_mps: self.number(),
        }
    }

    /// A vehicle's height, climb and roll.
    fn vehicle(&mut self) -> VehicleState {
        let [height, climb, roll] = self.numbers();
        judge::vehicle_state(&Waypoint {
            point: [0.0; 2],
            leg: None,
            altitude: 0.0,
            cruise_speed: 0.0,
            position: [0.0, 0.0, height],
            velocity: [0.0, 0.0, climb],
            roll,
            airspeed: None,
            cap: None,
        })
    }
}

const ENERGY_STATE_COLUMNS: &str = "bhhsssAAb";
const LIMITS_COLUMNS: &str = "aaAuuu";

fn words(numbers: &[f32]) -> Vec<u32> {
    numbers.iter().map(|number| bits(*number)).collect()
}

fn state_words(e: &EnergyState) -> Vec<u32> {
    let mut out = vec![e.seeded as u32];
    out.extend(words(&[e.slewed_height, e.height, e.airspeed_demand, e.filtered_airspeed]));
    out.extend(words(&[e.steady_accel, e.pitch_integral, e.thrust_integral]));
    out.push(e.underspeed as u32);
    out
}

/// An answer's numbers, then the state after it.
fn with_state(numbers: &[f32], e: &EnergyState) -> Vec<u32> {
    let mut out = words(numbers);
    out.extend(state_words(e));
    out
}

fn one(number: f32) -> Vec<u32> {
    vec![bits(number)]
}

fn function(name: &'static str, columns: &str, run: fn(&mut Words) -> Vec<u32>) -> Function {
    Function { name, columns: columns.to_string(), run }
}

pub fn all() -> Vec<Function> {
    let mut functions = arithmetic();
    functions.extend(helpers());
    functions.extend(lateral());
    functions.extend(energy());
    functions.push(function("validate", &configuration_columns(), |w| vec![validate(&w.numbers())]));
    functions.push(function("default", "", |_| words(&configuration::default())));
    functions.push(function("flight_mode", "", |_| flight_modes()));
    functions
}

/// The mode reports of guidances that were asked for copter and for plane flight: mode and refusal of each.
fn flight_modes() -> Vec<u32> {
    let report = |regime| {
        let mut guidance = judge::Plane::new(&configuration::default());
        guidance.guide_capped(1.0, regime, &Command::Land);
        guidance.flight_mode()
    };
    [report(Regime::Copter), report(Regime::Plane)].concat()
}

fn arithmetic() -> Vec<Function> {
    vec![
        function("least", "ww", |w| one(arithmetic::least(w.number(), w.number()))),
        function("greatest", "ww", |w| one(arithmetic::greatest(w.number(), w.number()))),
        function("clamp", "www", |w| one(arithmetic::clamp(w.number(), w.number(), w.number()))),
        function("root", "w", |w| one(arithmetic::root(w.number()))),
        function("length", "vv", |w| one(arithmetic::length(w.number(), w.number()))),
        function("dot", "vvvv", |w| one(w.vector().dot(&w.vector()))),
        function("normalise", "vvw", |w| {
            let normalised = arithmetic::normalise(w.number(), w.number(), w.number());
            let (x, y) = normalised.unwrap_or((0.0, 0.0));
            vec![normalised.is_some() as u32, bits(x), bits(y)]
        }),
        function("remainder", "wr", |w| one(w.number() % w.number())),
        function("sine", "r", |w| one(arithmetic::sine(w.number()))),
        function("cosine", "r", |w| one(arithmetic::cosine(w.number()))),
        function("arctangent", "w", |w| one(arithmetic::arctangent(w.number()))),
        function("arcsine", "u", |w| one(arithmetic::arcsine(w.number()))),
        function("arctangent_of", "ww", |w| one(arithmetic::arctangent_of(w.number(), w.number()))),
    ]
}

fn helpers() -> Vec<Function> {
    vec![
        function("saturate_unit", "w", |w| one(math::saturate_unit(w.number()))),
        function("saturate_symmetric", "ww", |w| one(math::saturate_symmetric(w.number(), w.number()))),
        function("saturate_throttle", "w", |w| one(math::saturate_throttle(w.number()))),
        function("limit_or_zero", "w", |w| one(math::limit_or_zero(w.number()))),
        function("clamp_symmetric", "wc", |w| one(math::clamp_symmetric(w.number(), w.number()))),
        function("lagged", "hhtT", |w| one(math::lagged(w.number(), w.number(), w.number(), w.number()))),
    ]
}

fn lateral() -> Vec<Function> {
    vec![
        function("l1", "sTT", |w| {
            let (distance, gain) = navigation::l1(w.number(), w.number(), w.number());
            words(&[distance, gain])
        }),
        function("cross", "vvvv", |w| one(navigation::cross(w.vector(), w.vector()))),
        function("track_accel_mps2", "ppvvppvvTu", |w| {
            let (position, velocity, point, direction) = (w.vector(), w.vector(), w.vector(), w.vector());
            one(navigation::track_accel_mps2(position, velocity, point, direction, w.number(), w.number()))
        }),
        function("loiter_accel_mps2", "ppvvppTTu", |w| {
            let (position, velocity, center) = (w.vector(), w.vector(), w.vector());
            let (radius, period, damping) = (w.number(), w.number(), w.number());
            one(navigation::loiter_accel_mps2(position, velocity, center, radius, period, damping))
        }),
        function("bank_for_accel_rad", "v", |w| one(navigation::bank_for_accel_rad(w.number()))),
        function("pi_step", "ttuucAaAr", |w| {
            let [dt, error, p, i, max_integral, low, high, fallback, integral] = w.numbers();
            let mut pi = PiLoop { integral };
            let answer = pi.step(dt, error, p, i, max_integral, (low, high), fallback);
            words(&[answer, pi.integral])
        }),
    ]
}

fn energy() -> Vec<Function> {
    let piece = |name, columns: &str, run| {
        let columns = format!("t{ENERGY_COLUMNS}{columns}{ENERGY_STATE_COLUMNS}");
        Function { name, columns, run }
    };
    vec![
        function("update_underspeed", &format!("{ENERGY_COLUMNS}sb"), |w| {
            let (config, airspeed) = (w.energy_configuration(), w.number());
            let mut law = tecs(&EnergyState { underspeed: w.word() != 0, ..Default::default() });
            law.update_underspeed(&config, airspeed);
            vec![law.underspeed as u32]
        }),
        piece("energies", "hssshvr", energies),
        piece("thrust", &format!("{LIMITS_COLUMNS}gggggggr"), thrust),
        piece("pitch", &format!("{LIMITS_COLUMNS}ggggggg"), pitch),
        piece("tecs_step", &format!("{LIMITS_COLUMNS}hsshvr"), tecs_step),
    ]
}

/// Time step, configuration, altitude, target, airspeed, floored airspeed, height, climb, roll,
/// state: the seven energies, the state.
fn energies(w: &mut Words) -> Vec<u32> {
    let (dt, config) = (w.number(), w.energy_configuration());
    let targets = (w.number(), w.number());
    let speeds = (w.number(), w.number());
    let vehicle = w.vehicle();
    let mut law = tecs(&w.energy_state());
    let e = law.energies(dt, &config, targets, speeds, &vehicle);
    let errors = [e.potential_error, e.kinetic_error];
    let demands = [e.potential_rate_demand, e.kinetic_rate_demand];
    let rates = [e.potential_rate, e.kinetic_rate, e.speed_mps];
    with_state(&[&errors[..], &demands[..], &rates[..]].concat(), &energy_state(&law))
}

/// Time step, configuration, limits, energies, roll, state: thrust, the state.
fn thrust(w: &mut Words) -> Vec<u32> {
    let (dt, config) = (w.number(), w.energy_configuration());
    let (limits, energies, roll) = (w.limits(), w.energies(), w.number());
    let mut law = tecs(&w.energy_state());
    let thrust = law.thrust(dt, &config, &limits, &energies, roll);
    with_state(&[thrust], &energy_state(&law))
}

/// Time step, configuration, limits, energies, state: pitch, the state.
fn pitch(w: &mut Words) -> Vec<u32> {
    let (dt, config) = (w.number(), w.energy_configuration());
    let (limits, energies) = (w.limits(), w.energies());
    let mut law = tecs(&w.energy_state());
    let pitch = law.pitch(dt, &config, &limits, &energies);
    with_state(&[pitch], &energy_state(&law))
}

/// Time step, configuration, limits, altitude, target, airspeed, height, climb, roll, state:
/// pitch, thrust, the state.
fn tecs_step(w: &mut Words) -> Vec<u32> {
    let (dt, config, limits) = (w.number(), w.energy_configuration(), w.limits());
    let targets = (w.number(), w.number());
    let airspeed = w.number();
    let vehicle = w.vehicle();
    let mut law = tecs(&w.energy_state());
    let (pitch, thrust) = law.step(dt, &config, &limits, targets, airspeed, &vehicle);
    with_state(&[pitch, thrust], &energy_state(&law))
}
