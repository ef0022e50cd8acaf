//! Generated inputs, deterministic by kind and seed.

mod backs;
mod crossed;
mod damaged;
mod flights;
mod rare;
mod ties;
mod wild;

use crate::configuration::ordered;
use crate::desk::Form;
use crate::numbers::{self, Random, Style};
use crate::record::{self, Call, NAMED_BITS};

/// One entry after the first configuration.
#[derive(Clone)]
pub enum Item {
    Call(Vec<u8>),
    Set(Vec<u8>),
    Back,
}

/// A first configuration record and what follows it, each as bytes.
pub struct Input {
    pub configuration: Vec<u8>,
    pub items: Vec<Item>,
}

impl Input {
    /// As a recording, which has no set-configuration calls and no taking back, or as a list.
    pub fn bytes(&self, form: Form) -> Vec<u8> {
        let mut bytes = self.configuration.clone();
        for item in &self.items {
            match (form, item) {
                (Form::Recording, Item::Call(record)) => bytes.extend(record),
                (Form::Recording, Item::Set(_) | Item::Back) => {}
                (Form::List, Item::Back) => bytes.push(2),
                (Form::List, Item::Call(record)) => {
                    bytes.push(0);
                    bytes.extend(record);
                }
                (Form::List, Item::Set(record)) => {
                    bytes.push(1);
                    bytes.extend(record);
                }
            }
        }
        bytes
    }
}

/// The seeds of these four give what the fixed list and other stored inputs were made of.
pub const KINDS: [&str; 4] = ["flights", "wild", "ties", "damaged"];

/// An input of a kind, with about so many calls (`damaged` has few, and stops early).
pub fn input(kind: &str, seed: u64, calls: usize) -> Option<Input> {
    match kind {
        "rare" => return Some(rare::input(seed, calls)),
        "crossed" => return Some(crossed::input(seed, calls)),
        "backs" => return Some(backs::input(seed, calls)),
        _ => {}
    }
    let index = KINDS.iter().position(|known| *known == kind)?;
    let mut random = Random::new(seed * KINDS.len() as u64 + index as u64);
    Some(match index {
        0 => flights::input(&mut random, calls),
        1 => wild::input(&mut random, calls),
        2 => ties::input(&mut random, calls),
        _ => damaged::input(&mut random, calls),
    })
}

/// So many entries for the records alone.
pub fn records(seed: u64, count: usize) -> Vec<u8> {
    damaged::entries(&mut Random::new(seed), count)
}

/// A call record, often damaged or not at all.
pub fn call_record(random: &mut Random, damaged: bool) -> Vec<u8> {
    if damaged { damaged::damaged_call(random) } else { record::fields_bytes(&wild::first_fields(random)) }
}

/// The fields of a call record, as words; any may stand, used by the kind or not.
pub type Fields = [Option<u32>; NAMED_BITS as usize];

fn set(fields: &mut Fields, bit: u32, number: f32) {
    fields[bit as usize] = Some(number.to_bits());
}

/// A record's bytes as the writer would write it.
fn written(call: &Call) -> Item {
    Item::Call(record::call_bytes(call))
}

/// A configuration record, mostly by the writer's rules, else with every field spelled out.
fn spelled(random: &mut Random, numbers: &crate::configuration::Numbers) -> Vec<u8> {
    if !random.once_in(4) {
        return record::configuration_bytes(numbers);
    }
    let mut bytes = vec![0xff, 0xff, 0xff, 0xff, 0x01];
    bytes.extend(numbers.iter().flat_map(|number| number.to_bits().to_le_bytes()));
    bytes
}

/// A set-configuration call, one in four with a field that may fail; no pair is crossed.
fn set_configuration(random: &mut Random, style: Style) -> Item {
    let mut numbers = numbers::configuration(random, style);
    if random.once_in(4) {
        numbers[random.below(33)] = numbers::wild(random);
    }
    Item::Set(spelled(random, &ordered(numbers)))
}
