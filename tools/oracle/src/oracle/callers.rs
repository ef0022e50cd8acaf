//! Document 02's callers (K9): lists of calls on a guidance and its route, each by a caller.
//!
//! A list: two bytes with the length of a configuration record, low byte first, and the record; then entries. An entry: a byte with the
//! caller's number, two with a length, and so many bytes, a tag and what belongs to it. Tags 0 to 5 are those of the lists with routes,
//! but a record may be broken. 6: the mode report. 7: the stall guard's. 8: a configuration record, of which a fresh guidance is made.
//! 9: what no call is.

use crate::desk::{settings_text, state_text};
use crate::flown::judge::Plane;
use crate::flown::{Flown, validate};
use crate::guidance::Settings;
use crate::numbers::Random;
use crate::record::{self, Call, Command, Regime, Waypoint};
use crate::route::{self, CALL_WORDS, Run};

const CALL: u8 = 0;
const SET: u8 = 1;
const BACK: u8 = 2;
const LOAD: u8 = 3;
const FLY: u8 = 4;
const WRITE: u8 = 5;
const MODE: u8 = 6;
const GUARD: u8 = 7;
const NEW: u8 = 8;
const OTHER: u8 = 9;

/// "The skipper does everything; a deckhand may guide, on a route too, prime and read the mode report; a watcher only reads it."
/// K12's report all callers may read.
fn may(caller: u8, tag: u8) -> bool {
    let reads = tag == MODE || tag == GUARD;
    match caller {
        0 => true,
        1 => reads || tag == CALL || tag == FLY,
        2 => reads,
        _ => false,
    }
}

fn half(bytes: &[u8], at: usize) -> usize {
    u16::from_le_bytes([bytes[at], bytes[at + 1]]) as usize
}

/// 13 comes before every other check and keeps a buffer that was lent.
fn forbidden(entry: &[u8]) -> String {
    let lent = if entry[0] == WRITE { format!(" {}", "a5".repeat(half(entry, 1))) } else { String::new() };
    format!("refused 13{lent}")
}

fn allowed<'a>(run: &mut Run<'a>, entry: &'a [u8]) -> String {
    let refused = |number: u32| format!("refused {number}");
    match entry[0] {
        MODE => format!("mode {}", run.guidance.flight_mode()[1]),
        GUARD => format!("guard {}", run.guidance.state().energy.underspeed as u32),
        OTHER => refused(255),
        NEW => match record::read_configuration(entry, 1) {
            Err(number) => refused(number),
            Ok((numbers, _)) if validate(&numbers) != 0 => format!("refused 1 {}", validate(&numbers)),
            Ok((numbers, _)) => {
                run.guidance = Plane::new(&numbers);
                run.settings = Settings::new(&numbers);
                "new".to_string()
            }
        },
        tag => {
            let broken = match tag {
                CALL => record::read_call(entry, 1).err(),
                SET => record::read_configuration(entry, 1).err(),
                _ => None,
            };
            run.input = entry;
            run.place = 0;
            broken.map_or_else(|| run.next().expect("the entry is whole"), refused)
        }
    }
}

/// A line for each entry, and one with the route's number, the state, the settings and the route after it.
pub fn lines(input: &[u8]) -> String {
    let mut place = 2 + half(input, 0);
    let (numbers, _) = record::read_configuration(input, 2).expect("the list's configuration");
    let mut run = Run::new(input, 0, &numbers);
    let mut out = String::new();
    let mut n = 1;
    while place < input.len() {
        let entry = &input[place + 3..place + 3 + half(input, place + 1)];
        let text = if may(input[place], entry[0]) { allowed(&mut run, entry) } else { forbidden(entry) };
        let held = format!("{} {}", settings_text(&run.settings), run.route.text());
        out += &format!("{n} {text}\n{n} point {} {} {held}\n", run.route.number, state_text(&run.guidance.state()));
        place += 3 + entry.len();
        n += 1;
    }
    out
}

// ---- generated lists

/// How many bytes the first entry of a list with routes has.
fn size(list: &[u8]) -> usize {
    match list[0] {
        CALL => record::read_call(list, 1).expect("its own record").1,
        SET => record::read_configuration(list, 1).expect("its own record").1,
        BACK => 1,
        LOAD => 3 + half(list, 1),
        FLY => 1 + 4 * CALL_WORDS,
        _ => 5,
    }
}

fn waypoint(random: &mut Random) -> Call {
    let command = Command::Waypoint(Waypoint {
        point: [random.between(-200.0, 200.0), 0.0],
        leg: random.once_in(2).then_some([16.0, 2.0]),
        altitude: 60.0,
        cruise_speed: random.pick(&[0.0, 16.0]),
        position: [random.between(-90.0, 90.0), 5.0, 50.0],
        velocity: [14.0, 3.0, 0.2],
        roll: 0.1,
        airspeed: random.pick(&[None, Some(3.0), Some(16.0), Some(f32::NAN)]),
        cap: random.pick(&[None, None, Some(0.3), Some(-0.1)]),
    });
    let regime = if random.once_in(4) { Regime::Copter } else { Regime::Plane };
    Call::Guide { regime, time_step: random.pick(&[0.1, 0.1, 0.1, -1.0]), command }
}

/// A configuration that passes, one that fails, or a record that cannot be read.
fn settings(random: &mut Random) -> Vec<u8> {
    let mut numbers = crate::configuration::default();
    numbers[10] = random.pick(&[60.0, 10.0, 0.5, -1.0]);
    let mut bytes = record::configuration_bytes(&numbers);
    match random.below(8) {
        0 => bytes.truncate(random.below(bytes.len())),
        1 => bytes[4] |= 0xfc,
        _ => {}
    }
    bytes
}

fn extra(random: &mut Random) -> Vec<u8> {
    let tagged = |tag: u8, rest: Vec<u8>| [vec![tag], rest].concat();
    match random.below(11) {
        0 => vec![MODE],
        1 => vec![GUARD],
        2 => tagged(NEW, settings(random)),
        3 => tagged(SET, settings(random)),
        4 => vec![BACK],
        5 => vec![OTHER],
        6 => tagged(CALL, record::call_bytes(&Call::Prime)),
        7 => tagged(WRITE, [random.below(560) as u16, random.below(70) as u16].map(u16::to_le_bytes).concat()),
        8 => {
            let mut bytes = record::call_bytes(&waypoint(random));
            bytes.truncate(random.below(bytes.len()));
            tagged(CALL, bytes)
        }
        9 => route::any_load(random),
        _ => tagged(CALL, record::call_bytes(&waypoint(random))),
    }
}

fn send(bytes: &mut Vec<u8>, caller: u8, entry: &[u8]) {
    bytes.push(caller);
    bytes.extend((entry.len() as u16).to_le_bytes());
    bytes.extend(entry);
}

fn anyone(random: &mut Random) -> u8 {
    let stranger = random.pick(&[3, 4, 128, 255]);
    random.pick(&[0, 0, 0, 1, 1, 2, stranger])
}

/// Who sends what stands between the route's own entries: no load of the skipper's, which would break off the flight.
fn sender(random: &mut Random, entry: &[u8]) -> u8 {
    match anyone(random) {
        0 if entry[0] == LOAD => random.pick(&[1, 2, 3]),
        caller => caller,
    }
}

/// The entries of a list with routes, and others between them, each by a caller drawn at random.
pub fn generate(seed: u64, entries: usize) -> Vec<u8> {
    let random = &mut Random::new(seed ^ 0x63_616c_6c65_7273);
    let list = route::generate(seed, entries / 2);
    let mut place = record::read_configuration(&list, 0).expect("its own record").1;
    let mut bytes = (place as u16).to_le_bytes().to_vec();
    bytes.extend(&list[..place]);
    while place < list.len() {
        let end = place + size(&list[place..]);
        send(&mut bytes, anyone(random), &list[place..end]);
        let entry = extra(random);
        send(&mut bytes, sender(random, &entry), &entry);
        place = end;
    }
    bytes
}
