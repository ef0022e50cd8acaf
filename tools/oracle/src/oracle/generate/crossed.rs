//! Crossed pairs: configurations that the Rust takes, with a least number above its greatest, next to it or equal to it, zeros
//! of two signs among them. Numbers 34 and 35 are what this looks at; a call after each shows which configuration is in force.

use super::{Fields, Input, Item, set, spelled};
use crate::configuration::{self, Numbers};
use crate::numbers::{self, Random, Style};
use crate::record::*;

pub fn input(seed: u64, calls: usize) -> Input {
    let random = &mut Random::new(!seed ^ 0x34_35);
    let first = if random.once_in(4) { paired(random) } else { configuration::default() };
    let configuration = spelled(random, &first);
    let mut items = Vec::new();
    while items.len() < calls {
        let numbers = paired(random);
        items.push(Item::Set(spelled(random, &numbers)));
        items.push(Item::Call(fields_bytes(&waypoint(random))));
    }
    items.truncate(calls);
    Input { configuration, items }
}

/// A configuration whose pairs are drawn so that either, both or none is crossed; one in eight fails in another field first.
fn paired(random: &mut Random) -> Numbers {
    let mut numbers = numbers::configuration(random, Style::Ordinary);
    let airspeed = random.pick(&[8.0, 10.0, 25.0, f32::from_bits(1), f32::MAX.next_down()]);
    let thrust = random.pick(&[0.0, -0.0, 0.2, 0.75, 1.0f32.next_down()]);
    (numbers[24], numbers[25]) = pair(random, airspeed);
    (numbers[30], numbers[31]) = pair(random, thrust);
    if random.once_in(8) {
        numbers[random.below(33)] = random.pick(&[-1.0, f32::NAN, f32::INFINITY]);
    }
    numbers
}

/// A number twice, zeros with a sign each, or with the next number up, in either order.
fn pair(random: &mut Random, number: f32) -> (f32, f32) {
    match random.below(3) {
        0 if number == 0.0 => (number, -number),
        0 => (number, number),
        1 => (number, number.next_up()),
        _ => (number.next_up(), number),
    }
}

/// A waypoint on the energy path, or one that falls back.
fn waypoint(random: &mut Random) -> Fields {
    let mut fields: Fields = [None; NAMED_BITS as usize];
    fields[KIND as usize] = Some(3);
    set(&mut fields, TIME_STEP, 0.5);
    set(&mut fields, ALTITUDE, random.pick(&[0.0, 20.0, 50.0]));
    set(&mut fields, CRUISE_SPEED, random.pick(&[0.0, 9.0, 16.0, 30.0]));
    set(&mut fields, AIRSPEED, random.pick(&[4.0, 9.0, 16.0, 30.0]));
    fields
}
