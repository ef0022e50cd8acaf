//! Ties: straight back, exactly on the line, ground speeds at 1, airspeeds at the underspeed
//! thresholds, the centre of the loiter, demands and limits that meet.

use super::{Fields, Input, Item, set, set_configuration, spelled};
use crate::configuration::{self, Numbers, ordered};
use crate::numbers::{self, Random, Style};
use crate::record::*;

pub fn input(random: &mut Random, calls: usize) -> Input {
    let numbers = configuration(random);
    let configuration = spelled(random, &numbers);
    let mut items = Vec::new();
    for _ in 0..calls {
        items.push(match random.below(40) {
            0 => set_configuration(random, Style::Ordinary),
            1 => Item::Set(record_of(random)),
            _ => Item::Call(fields_bytes(&call(random, &numbers))),
        });
    }
    Input { configuration, items }
}

fn record_of(random: &mut Random) -> Vec<u8> {
    let numbers = configuration(random);
    spelled(random, &numbers)
}

/// Round numbers, with which sums and products come out exactly and limits are met exactly.
pub fn round_numbers() -> Numbers {
    [
        0.5, 0.5, 0.25, 2.0, 1.0, 0.5, 0.0, 0.5, 8.0, 0.5, 32.0, 0.5, 0.25, 4.0, 4.0, 4.0, 2.0, 4.0, 0.5, 0.25, 0.5,
        0.25, 1.0, 8.0, 8.0, 16.0, 0.5, 2.0, 0.5, 1.0, 0.25, 0.75, 0.5,
    ]
}

/// The defaults or round numbers, with a field or two at a tie of its own.
fn configuration(random: &mut Random) -> Numbers {
    let mut numbers = if random.once_in(3) { configuration::default() } else { round_numbers() };
    for _ in 0..random.below(4) {
        let (field, choices): (usize, &[f32]) = random.pick(&[
            (7, &[0.0, -0.0, 0.125, -0.125, 0.5]),
            (8, &[0.0, -0.0, 0.2, 0.25, 0.75, 1.0]),
            (14, &[0.0, -0.0, 1.0]),
            (16, &[4.0, 8.0]),
            (18, &[0.0, -0.0, 4.0]),
            (23, &[0.0, -0.0, 1.0, 2.0]),
            (25, &[8.0, 10.0, 16.0]),
            (26, &[4.0, 8.0, 10.0, 16.0]),
            (27, &[0.5, 0.9, 1.0]),
            (31, &[0.0, -0.0, 0.25, 1.0]),
            (32, &[0.0, -0.0, 0.25, 0.2, 1.0]),
        ]);
        numbers[field - 1] = random.pick(choices);
    }
    ordered(numbers)
}

/// A number, or the next one to either side.
fn near(random: &mut Random, number: f32) -> f32 {
    match random.below(5) {
        0 => number.next_down(),
        1 => number.next_up(),
        _ => number,
    }
}

/// Zeros get either sign.
fn signed(random: &mut Random, number: f32) -> f32 {
    if number == 0.0 && random.once_in(2) { -number } else { number }
}

fn call(random: &mut Random, numbers: &Numbers) -> Fields {
    let mut fields: Fields = [None; NAMED_BITS as usize];
    let step = random.pick(&[1.0, 1.0, 0.5, 2.0, 4.0, 0.25]);
    set(&mut fields, TIME_STEP, step);
    if random.once_in(8) {
        fields[KIND as usize] = Some(random.below(7) as u32);
        for bit in COMMAND..POINT {
            let stick = random.pick(&[0.0, -0.0, 1.0, -1.0, 0.5, -0.5, 1.5, -1.5, f32::NAN]);
            let stick = near(random, stick);
            set(&mut fields, bit, stick);
        }
        return fields;
    }
    fields[KIND as usize] = Some(3);
    if random.once_in(6) {
        capture(random, &mut fields, numbers);
    } else {
        across(random, &mut fields);
    }
    up_and_down(random, &mut fields, numbers);
    fields
}

/// As far off a leg as makes the capture angle's ratio 1, or its angle an eighth of a turn.
fn capture(random: &mut Random, fields: &mut Fields, numbers: &Numbers) {
    // The arcsine of 3f3504f3 is FRAC_PI_4.
    const EIGHTH: f32 = f32::from_bits(0x3f35_04f3);
    let speed = random.pick(&[8.0, 16.0, 12.0, 20.0, 2.0]);
    let (distance, _) = stable_flight::guidance::plane::navigation::l1(speed, numbers[8], numbers[9]);
    let off = random.pick(&[distance, distance * EIGHTH]);
    let off = near_once(random, off) * random.pick(&[1.0, -1.0]);
    set(fields, LEG, 1.0);
    set(fields, LEG + 1, 0.0);
    set(fields, POSITION + 1, off);
    set(fields, VELOCITY, random.pick(&[speed, -speed]));
}

/// Point, leg, position and velocity.
fn across(random: &mut Random, fields: &mut Fields) {
    const LEGS: [[f32; 2]; 10] = [
        [1.0, 0.0],
        [0.0, 1.0],
        [-1.0, 0.0],
        [0.0, -1.0],
        [3.0, 4.0],
        [16.0, 0.0],
        [-8.0, 8.0],
        [1e-6, 0.0],
        [0.0, 1e-6],
        [0.0, 0.0],
    ];
    let leg = random.pick(&LEGS).map(|part| near(random, part)).map(|part| signed(random, part));
    let point = random.pick(&[[0.0, 0.0], [16.0, -8.0], [100.0, 7.0]]);
    // Along the leg, straight back, across it, or at a ground speed about 1.
    let along = random.pick(&[1.0, -1.0, 2.0, -4.0, 16.0, -16.0]);
    let velocity = match random.below(4) {
        0 => [-leg[1] * along, leg[0] * along],
        1 => random.pick(&[[1.0, 0.0], [0.0, -1.0], [0.6, 0.8], [-0.6, 0.8], [0.0, 0.0]]),
        _ => [leg[0] * along, leg[1] * along],
    };
    let velocity = velocity.map(|part| near_once(random, part)).map(|part| signed(random, part));
    let off = random.pick(&[0.0, 1.0, -16.0, 1e-3, 32.0]);
    let offset = match random.below(4) {
        0 => [near(random, off), 0.0],
        1 => [0.0, near(random, off)],
        _ => [leg[0] * off, leg[1] * off],
    };
    if !random.once_in(3) {
        set(fields, LEG, leg[0]);
        set(fields, LEG + 1, leg[1]);
    }
    for part in 0..2 {
        set(fields, POINT + part, point[part as usize]);
        let position = signed(random, point[part as usize] + offset[part as usize]);
        set(fields, POSITION + part, position);
        set(fields, VELOCITY + part, velocity[part as usize]);
    }
}

fn near_once(random: &mut Random, number: f32) -> f32 {
    if random.once_in(6) { near(random, number) } else { number }
}

/// Altitude, speeds, roll and cap.
fn up_and_down(random: &mut Random, fields: &mut Fields, numbers: &Numbers) {
    let (least, share) = (numbers[24], numbers[26]);
    let height = random.pick(&[0.0, 16.0, 64.0]);
    let above = random.pick(&[0.0, 0.0, 1.0, -0.5, 0.5, 4.0, -4.0, 100.0]);
    set(fields, POSITION + 2, height);
    set(fields, ALTITUDE, height + above);
    let climb = random.pick(&[0.0, -0.0, 4.0, -4.0, 5.0, -5.0, 2.0, 8.0]);
    set(fields, VELOCITY + 2, climb);
    let cruise = random.pick(&[least, numbers[25], 12.0, 12.0, 20.0, 0.0, -0.0, f32::from_bits(1)]);
    set(fields, CRUISE_SPEED, cruise);
    let airspeed = random.pick(&[least, share * least, 12.0, 3.0, 0.0, -0.0, numbers[25]]);
    let airspeed = near(random, airspeed);
    if !random.once_in(4) {
        set(fields, AIRSPEED, airspeed);
    }
    // At 1.2490457 the square of the cosine passes the floor 0.1.
    let roll = random.pick(&[0.0, -0.0, 0.7853982, 1.5707964, 3.1415927, -6.2831855, 1.2490457, 7.0]);
    let roll = near(random, roll);
    set(fields, ROLL, roll);
    if random.once_in(3) {
        let cap = random.pick(&[0.0, -0.0, 0.25, 0.5, 0.1, 1.0, f32::NAN, numbers[1], numbers[2]]);
        set(fields, CAP, cap);
    }
    if random.once_in(30) {
        let odd = numbers::wild(random);
        set(fields, random.pick(&[ALTITUDE, CRUISE_SPEED, AIRSPEED, POSITION + 2, VELOCITY + 2]), odd);
    }
}
