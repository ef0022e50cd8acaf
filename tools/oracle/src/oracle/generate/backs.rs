//! Takings back (K11) among the calls of the other generators: after a change at once, with primes, refused changes or guide calls
//! between, twice in a row, and where there is nothing to take back.

use super::{Input, Item, set_configuration};
use crate::numbers::{Random, Style};

/// Seeds one after the other take flights, wild numbers, ties and rare ways in turn.
pub fn input(seed: u64, calls: usize) -> Input {
    const KINDS: [&str; 4] = ["flights", "wild", "ties", "rare"];
    let (kind, of_kind) = (KINDS[(seed % 4) as usize], seed / 4);
    let random = &mut Random::new(!seed ^ 0x14);
    let Input { configuration, items: given } = super::input(kind, of_kind, calls).expect("one of the kinds");
    let mut items = Vec::new();
    for item in given {
        match random.below(12) {
            0 => items.push(Item::Back),
            1 => items.extend(change_and_back(random)),
            2 => items.push(set_configuration(random, Style::Ordinary)),
            _ => {}
        }
        items.push(item);
    }
    items.truncate(calls);
    Input { configuration, items }
}

/// A change, what may stand between, and a taking back or two.
fn change_and_back(random: &mut Random) -> Vec<Item> {
    let mut items = vec![set_configuration(random, Style::Ordinary)];
    for _ in 0..random.below(3) {
        items.push(if random.once_in(2) { super::rare::prime() } else { set_configuration(random, Style::Spotted) });
    }
    items.extend((0..1 + random.below(2)).map(|_| Item::Back));
    items
}
