//! Wild numbers with valid, often extreme configurations. Each call keeps most of the fields of
//! the one before it, so that what a call stores meets the next.

use super::{Fields, Input, Item, set, set_configuration, spelled};
use crate::numbers::{self, Random, Style, odd, ordinary, style, wild};
use crate::record::{self, AIRSPEED, ALTITUDE, CAP, KIND, LEG, NAMED_BITS, REGIME, TIME_STEP};

/// What the number at a bit of the call map stands for, from bit 2.
const COLUMNS: &str = "twwwwppvvhspphvvvrsa";

fn letter(bit: u32) -> char {
    COLUMNS.as_bytes()[(bit - TIME_STEP) as usize] as char
}

pub fn input(random: &mut Random, calls: usize) -> Input {
    let style = style(random);
    let mut numbers = numbers::configuration(random, style);
    let mut items = Vec::new();
    if random.once_in(20) {
        items = overflowing_integral(random, &mut numbers);
    }
    let configuration = spelled(random, &numbers);
    let mut fields = first_fields(random);
    for _ in 0..calls {
        if random.once_in(30) {
            fields = first_fields(random);
        }
        if random.once_in(40) {
            items.push(set_configuration(random, style));
        } else {
            change(random, &mut fields);
            items.push(Item::Call(record::fields_bytes(&fields)));
        }
    }
    Input { configuration, items }
}

/// A fallback whose two terms overflow against each other: a tiny error over a long step fills
/// the altitude integral, then a great error has the other sign.
pub fn overflowing_integral(random: &mut Random, numbers: &mut crate::configuration::Numbers) -> Vec<Item> {
    numbers[11] = random.pick(&[1e20, 1e25]);
    numbers[12] = f32::MAX;
    numbers[13] = f32::MAX;
    let side = random.pick(&[1.0, -1.0]);
    let call = |time_step: f32, altitude: f32| {
        let mut fields: Fields = [None; NAMED_BITS as usize];
        fields[KIND as usize] = Some(3);
        set(&mut fields, TIME_STEP, time_step);
        set(&mut fields, ALTITUDE, altitude);
        Item::Call(record::fields_bytes(&fields))
    };
    // Over a short step the integral keeps its sign, and the answer is NaN too.
    let step = random.pick(&[1.0, 1e-30]);
    vec![call(1e36, -side * 1e-30), call(step, side * 1e20)]
}

/// Fields to begin with; most calls are waypoints.
pub fn first_fields(random: &mut Random) -> Fields {
    let mut fields: Fields = [None; NAMED_BITS as usize];
    let style = style(random);
    fields[KIND as usize] = Some(kind(random));
    if random.once_in(6) {
        fields[REGIME as usize] = Some(random.below(2) as u32);
    }
    for bit in TIME_STEP..NAMED_BITS {
        if random.once_in(8) && bit != TIME_STEP {
            continue;
        }
        let number = number(random, style, bit);
        set(&mut fields, bit, number);
    }
    drop_optional(random, &mut fields);
    fields
}

fn kind(random: &mut Random) -> u32 {
    if random.once_in(4) { random.below(7) as u32 } else { 3 }
}

fn number(random: &mut Random, style: Style, bit: u32) -> f32 {
    if odd(random, style) { wild(random) } else { ordinary(random, letter(bit)) }
}

/// A leg stands whole or not at all.
fn drop_optional(random: &mut Random, fields: &mut Fields) {
    let leg = !random.once_in(3);
    for bit in [LEG as usize, LEG as usize + 1] {
        fields[bit] = if leg { fields[bit].or(Some(0)) } else { None };
    }
    if random.once_in(5) {
        fields[AIRSPEED as usize] = None;
    }
    if !random.once_in(4) {
        fields[CAP as usize] = None;
    }
}

/// Changes a few of the fields for the next call.
fn change(random: &mut Random, fields: &mut Fields) {
    if random.once_in(6) {
        fields[KIND as usize] = Some(kind(random));
    }
    let style = if random.once_in(3) { Style::Spotted } else { Style::Ordinary };
    for _ in 0..random.below(4) {
        let bit = TIME_STEP + random.below((NAMED_BITS - TIME_STEP) as usize) as u32;
        let number = number(random, style, bit);
        set(fields, bit, number);
    }
    if random.once_in(4) {
        drop_optional(random, fields);
    } else if fields[LEG as usize].is_some() != fields[LEG as usize + 1].is_some() {
        fields[LEG as usize] = fields[LEG as usize].or(Some(0));
        fields[LEG as usize + 1] = fields[LEG as usize + 1].or(Some(0));
    }
    // A bad time step would refuse every call until the next new fields.
    if random.once_in(2) {
        let step = ordinary(random, 't');
        set(fields, TIME_STEP, step);
    }
    if random.once_in(10) {
        fields[TIME_STEP as usize] = Some(wild(random).to_bits());
    }
}
