//! Ways that the other generators seldom take. An input has one theme, a configuration that the theme needs, and tries of a few
//! calls, each after a prime or after a set-configuration call whose configuration may fail in any one field.

use super::wild::overflowing_integral;
use super::{Fields, Input, Item, set, spelled, ties};
use crate::configuration::{Numbers, ordered};
use crate::numbers::Random;
use crate::record::*;

const GRAVITY: f32 = 9.80665;

#[derive(Clone, Copy)]
enum Theme {
    /// A fallback whose two terms overflow against each other.
    Overflow,
    /// A cap of one zero under a pitch limit of the other, or such thrust limits.
    Zeros,
    /// A speed demand that is off by just as much as one step may change it.
    SpeedDemand,
    /// A first height demand that overflows, and sinks without limit.
    HeightDemand,
    /// A pitch integral that stays at the end of its range.
    PitchIntegral,
}

const THEMES: [Theme; 5] =
    [Theme::Overflow, Theme::Zeros, Theme::SpeedDemand, Theme::HeightDemand, Theme::PitchIntegral];

/// Seeds one after the other take the themes in turn.
pub fn input(seed: u64, calls: usize) -> Input {
    let theme = THEMES[(seed % THEMES.len() as u64) as usize];
    let random = &mut Random::new(!seed);
    let mut numbers = ties::round_numbers();
    prepare(theme, random, &mut numbers);
    let numbers = ordered(numbers);
    let configuration = spelled(random, &numbers);
    let mut items = Vec::new();
    while items.len() < calls {
        items.push(if random.once_in(4) { one_changed(random, &numbers) } else { prime() });
        items.extend(tries(theme, random, &numbers));
    }
    items.truncate(calls);
    Input { configuration, items }
}

fn prepare(theme: Theme, random: &mut Random, numbers: &mut Numbers) {
    match theme {
        Theme::Overflow => {
            overflowing_integral(random, numbers);
        }
        Theme::Zeros => {
            numbers[1] = random.pick(&[0.0, -0.0, 0.25]);
            numbers[2] = random.pick(&[0.0, -0.0]);
            numbers[30] = random.pick(&[0.0, -0.0, 0.25]);
            numbers[31] = random.pick(&[0.0, -0.0, 0.75]);
        }
        Theme::SpeedDemand => {
            numbers[15] = climb_of_rate(32.0);
            numbers[25] = 24.0;
        }
        Theme::HeightDemand => {
            numbers[15] = random.pick(&[100.0, 1e20]);
            numbers[17] = f32::MAX;
            numbers[27] = f32::MAX;
        }
        Theme::PitchIntegral => {
            numbers[1] = 0.25;
            numbers[6] = random.pick(&[1.5, -1.5]);
            numbers[21] = random.pick(&[8.0, 16.0]);
            numbers[22] = random.pick(&[0.0, 1.0]);
        }
    }
}

/// The climb whose energy rate, gravity times it, rounds to this one.
fn climb_of_rate(rate: f32) -> f32 {
    let mut climb = (rate / GRAVITY).next_down().next_down();
    while GRAVITY * climb < rate {
        climb = climb.next_up();
    }
    assert_eq!(GRAVITY * climb, rate);
    climb
}

pub fn prime() -> Item {
    let mut fields: Fields = [None; NAMED_BITS as usize];
    fields[KIND as usize] = Some(0);
    Item::Call(fields_bytes(&fields))
}

/// The configuration in force, but for one field at or past an end of what a field may be.
fn one_changed(random: &mut Random, numbers: &Numbers) -> Item {
    const QUARTER: f32 = std::f32::consts::FRAC_PI_2;
    let mut numbers = *numbers;
    let ends = [-1.0, -0.0, 0.0, f32::NAN, f32::INFINITY, -f32::INFINITY, -f32::from_bits(1)];
    let tops = [2.25, 2.0f32.next_up(), 1.0f32.next_up(), QUARTER.next_up(), -QUARTER.next_up(), 1.0, QUARTER, 3.0];
    let number = if random.once_in(2) { random.pick(&ends) } else { random.pick(&tops) };
    numbers[random.below(33)] = number;
    Item::Set(spelled(random, &ordered(numbers)))
}

/// A waypoint at the plane's own place: time step, altitude and height, climb, cruise speed and airspeed.
fn waypoint(step: f32, heights: [f32; 3], speeds: Option<[f32; 2]>) -> Fields {
    let mut fields: Fields = [None; NAMED_BITS as usize];
    fields[KIND as usize] = Some(3);
    set(&mut fields, TIME_STEP, step);
    set(&mut fields, ALTITUDE, heights[0]);
    set(&mut fields, POSITION + 2, heights[1]);
    set(&mut fields, VELOCITY + 2, heights[2]);
    if let Some([cruise, airspeed]) = speeds {
        set(&mut fields, CRUISE_SPEED, cruise);
        set(&mut fields, AIRSPEED, airspeed);
    }
    fields
}

fn tries(theme: Theme, random: &mut Random, numbers: &Numbers) -> Vec<Item> {
    let calls = match theme {
        Theme::Overflow => return overflowing_integral(random, &mut numbers.clone()),
        Theme::Zeros => zeros(random),
        Theme::SpeedDemand => speed_demand(random),
        Theme::HeightDemand => height_demand(random),
        Theme::PitchIntegral => pitch_integral(random, numbers[6] < 0.0),
    };
    calls.iter().map(|fields| Item::Call(fields_bytes(fields))).collect()
}

fn zeros(random: &mut Random) -> Vec<Fields> {
    let speeds = random.pick(&[None, Some([12.0, 12.0]), Some([12.0, f32::INFINITY])]);
    let mut fields = waypoint(1.0, [random.pick(&[16.0, 20.0, 0.0]), 16.0, 0.0], speeds);
    set(&mut fields, CAP, random.pick(&[0.0, -0.0]));
    vec![fields]
}

/// At airspeed 16 the demand may change by as much as the time step has seconds.
fn speed_demand(random: &mut Random) -> Vec<Fields> {
    let step = random.pick(&[1.0, 0.5, 2.0, 4.0, 0.25]);
    let cruise: f32 = 16.0 + step * random.pick(&[1.0, -1.0]);
    let cruise = random.pick(&[cruise, cruise, cruise.next_up(), cruise.next_down()]);
    let heights = [random.pick(&[16.0, 24.0]), 16.0, 0.0];
    vec![waypoint(step, heights, Some([cruise, 16.0]))]
}

fn height_demand(random: &mut Random) -> Vec<Fields> {
    let (step, climb) = (random.pick(&[2.0, 4.0, 1.0]), random.pick(&[64.0, 100.0, 1.0, 0.5]));
    let heights = [random.between(0.0, 100.0), random.between(0.0, 100.0), climb];
    vec![waypoint(step, heights, Some([12.0, 12.0]))]
}

/// Fills the integral against a trim that keeps the pitch off its limit; over the short steps after it nothing is added.
fn pitch_integral(random: &mut Random, up: bool) -> Vec<Fields> {
    let above = if up { 100.0 } else { -100.0 };
    let call = |step| waypoint(step, [16.0 + above, 16.0, 0.0], Some([12.0, 12.0]));
    let short = random.pick(&[1e-30, 1e-20]);
    vec![call(1.0), call(1.0), call(short), call(short)]
}
