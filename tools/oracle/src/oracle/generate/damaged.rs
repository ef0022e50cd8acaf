//! Damaged records of every kind: recordings whose last record is cut short, has a wrong map or
//! a wrong byte, or several of these at once, so that the order of checks shows.

use super::wild::first_fields;
use super::{Fields, Input, Item, spelled};
use crate::configuration::{crossed, ordered};
use crate::numbers::{self, Random, Style, wild};
use crate::record::{
    CALL_MAP_BYTES, CONFIGURATION_MAP_BYTES, KIND, LEG, REGIME, configuration_bytes, fields_bytes, read_configuration,
};

pub fn input(random: &mut Random, calls: usize) -> Input {
    let numbers = numbers::configuration(random, Style::Ordinary);
    let mut configuration = spelled(random, &numbers);
    if random.once_in(6) {
        damage_configuration(random, &mut configuration);
        return Input { configuration: in_order(configuration), items: Vec::new() };
    }
    let mut items = Vec::new();
    for _ in 0..random.below(calls.clamp(1, 4)) {
        items.push(Item::Call(fields_bytes(&first_fields(random))));
    }
    items.push(Item::Call(damaged_call(random)));
    Input { configuration, items }
}

/// A record that can be read has its pairs in order (K8); others stay as they are.
fn in_order(bytes: Vec<u8>) -> Vec<u8> {
    match read_configuration(&bytes, 0) {
        Ok((numbers, _)) if crossed(&numbers) != 0 => configuration_bytes(&ordered(numbers)),
        _ => bytes,
    }
}

/// A configuration cut short, with an unnamed bit, with a failing field, or two of these.
fn damage_configuration(random: &mut Random, bytes: &mut Vec<u8>) {
    for _ in 0..1 + random.below(2) {
        match random.below(4) {
            0 => bytes.truncate(random.below(bytes.len() + 1)),
            1 if bytes.len() >= CONFIGURATION_MAP_BYTES => bytes[4] |= 2 << random.below(7),
            2 if bytes.len() >= CONFIGURATION_MAP_BYTES + 4 => {
                let fields = (bytes.len() - CONFIGURATION_MAP_BYTES) / 4;
                let at = CONFIGURATION_MAP_BYTES + 4 * random.below(fields);
                bytes[at..at + 4].copy_from_slice(&wild(random).to_bits().to_le_bytes());
            }
            _ => {
                // One field alone, so that each field is met as the first that fails.
                let bit = random.below(33);
                *bytes = (1u64 << bit).to_le_bytes()[..CONFIGURATION_MAP_BYTES].to_vec();
                bytes.extend(random.pick(&[-1.0, f32::NAN, f32::INFINITY, 3.0, 0.0]).to_le_bytes());
            }
        }
    }
}

/// A call record with up to three faults; none now and then.
pub fn damaged_call(random: &mut Random) -> Vec<u8> {
    if random.once_in(30) {
        return (0..1 + random.below(90)).map(|_| random.below(256) as u8).collect();
    }
    let mut fields: Fields = first_fields(random);
    let mut map_flips = 0u32;
    let mut cut = false;
    for _ in 0..random.below(4) {
        match random.below(6) {
            0 => cut = true,
            1 => map_flips |= 1 << (22 + random.below(10)),
            2 => fields[KIND as usize] = None,
            3 => {
                let half = LEG as usize + random.below(2);
                fields[half] = if fields[half].is_some() { None } else { Some(0) };
            }
            4 => fields[KIND as usize] = Some(7 + random.below(249) as u32),
            _ => fields[REGIME as usize] = Some(2 + random.below(254) as u32),
        }
    }
    let mut bytes = fields_bytes(&fields);
    for (byte, flips) in bytes.iter_mut().zip(map_flips.to_le_bytes()) {
        *byte ^= flips;
    }
    if cut {
        let longest = if random.once_in(3) { CALL_MAP_BYTES } else { bytes.len() };
        bytes.truncate(1 + random.below(longest));
    }
    bytes
}

/// Entries for the records alone, in the form that codec.rs reads.
pub fn entries(random: &mut Random, count: usize) -> Vec<u8> {
    let mut bytes = Vec::new();
    for _ in 0..count {
        let configuration = random.once_in(4);
        let record = entry_record(random, configuration);
        // Now and then the place to read from is at the end or past it.
        let junk = random.below(5);
        let beyond = if random.once_in(20) { record.len() + random.below(3) } else { 0 };
        let (write_place, room) = (random.below(8), random.below(160));
        let head = [configuration as usize, junk + beyond, write_place, room, junk + record.len()];
        bytes.extend(head.map(|number| number.min(255) as u8));
        bytes.extend((0..junk).map(|_| random.below(256) as u8));
        bytes.extend(record);
    }
    bytes
}

fn entry_record(random: &mut Random, configuration: bool) -> Vec<u8> {
    if !configuration {
        return damaged_call(random);
    }
    let style = numbers::style(random);
    let numbers = numbers::configuration(random, style);
    let mut record = spelled(random, &numbers);
    if random.once_in(2) {
        damage_configuration(random, &mut record);
    }
    record
}
