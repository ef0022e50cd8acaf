//! The desk program's lines, and the same for lists that also set the configuration.

use crate::flown::judge::Plane;
use crate::flown::{Flown, State, validate};
use crate::configuration::{self, Numbers};
use crate::guidance::{self, Answer, Lateral, Settings, Vertical};
use crate::record::{self, Regime, bits};

/// The desk program reads this many calls.
pub const MOST_CALLS: usize = 4096;
pub const TOO_MANY_CALLS: u32 = 9;

/// What is printed: lines for the answers, for the state, or both in turn.
#[derive(Clone, Copy, PartialEq)]
pub enum Print {
    Answers,
    State,
    Both,
}

/// How the input goes on after its configuration.
#[derive(Clone, Copy, PartialEq)]
pub enum Form {
    /// Call records.
    Recording,
    /// A byte 0 and a call record, a byte 1 and a configuration record, or a byte 2, a taking back.
    List,
}

fn hex(numbers: &[f32]) -> String {
    let words: Vec<String> = numbers.iter().map(|n| format!("{:08x}", bits(*n))).collect();
    words.join(" ")
}

pub fn answer_text(answer: &Answer) -> String {
    match answer {
        Answer::Primed => "prime".to_string(),
        Answer::Plane(numbers) => format!("plane {}", hex(numbers)),
        Answer::Rate(numbers) => format!("rate {}", hex(numbers)),
        Answer::Waypoint(lateral, vertical, numbers, off) => {
            let lateral = match lateral {
                Lateral::Track => "track",
                Lateral::Loiter => "loiter",
                Lateral::Idle => "idle",
            };
            let vertical = match vertical {
                Vertical::Energy => "energy",
                Vertical::Hold => "hold",
                Vertical::Fallback => "fallback",
            };
            format!("{lateral} {vertical} {} {}", hex(numbers), hex(&[*off]))
        }
    }
}

/// Requested regime, altitude integral, seeded, slewed height, height, airspeed demand, filtered
/// airspeed, steady acceleration, pitch integral, thrust integral, underspeed.
pub fn state_text(state: &State) -> String {
    let e = &state.energy;
    let numbers = state.numbers();
    format!(
        "state {} {} {} {} {}",
        (state.requested == Regime::Plane) as u32,
        hex(&numbers[..1]),
        e.seeded as u32,
        hex(&numbers[1..]),
        e.underspeed as u32
    )
}

/// A sum of a configuration's bits, so that a line shows whether it changed.
fn sum(numbers: &Numbers) -> u32 {
    numbers.iter().fold(0, |sum, number| sum.wrapping_mul(16_777_619).wrapping_add(bits(*number)))
}

/// Whether a configuration is kept to be taken back, and sums of the one in force and of the kept one, the default where there is none.
pub fn settings_text(settings: &Settings) -> String {
    let former = settings.former.unwrap_or_else(configuration::default);
    format!("{} {:08x} {:08x}", settings.former.is_some() as u32, sum(&settings.numbers), sum(&former))
}

struct Run<'a> {
    input: &'a [u8],
    place: usize,
    form: Form,
    guidance: Plane,
    settings: Settings,
}

impl Run<'_> {
    /// The text of the next call's line, or why the run stops.
    fn next(&mut self) -> Result<String, String> {
        let mut tag = 0;
        if self.form == Form::List {
            tag = self.input[self.place];
            self.place += 1;
        }
        match tag {
            0 => self.next_call().map_err(|number| number.to_string()),
            1 => self.next_configuration().map_err(|number| number.to_string()),
            2 => Ok(self.next_taking_back()),
            _ => Err("tag".to_string()),
        }
    }

    fn next_call(&mut self) -> Result<String, u32> {
        let (call, next) = record::read_call(self.input, self.place)?;
        self.place = next;
        Ok(match guidance::call(&mut self.guidance, &call) {
            Ok(answer) => answer_text(&answer),
            Err(number) => format!("refused {number}"),
        })
    }

    fn next_configuration(&mut self) -> Result<String, u32> {
        let (numbers, next) = record::read_configuration(self.input, self.place)?;
        self.place = next;
        Ok(match guidance::set_configuration(&mut self.guidance, &mut self.settings, &numbers) {
            Ok(()) => "set".to_string(),
            Err(field) => format!("refused 1 {field}"),
        })
    }

    fn next_taking_back(&mut self) -> String {
        match guidance::take_back(&mut self.guidance, &mut self.settings) {
            Ok(()) => "back".to_string(),
            Err(number) => format!("refused {number}"),
        }
    }
}

/// The lines for a whole input.
pub fn lines(input: &[u8], form: Form, print: Print) -> String {
    let (numbers, place) = match record::read_configuration(input, 0) {
        Ok(read) => read,
        Err(number) => return format!("config stopped {number}\n"),
    };
    let field = validate(&numbers);
    if field != 0 {
        return format!("config refused {field}\n");
    }
    let mut run = Run { input, place, form, guidance: Plane::new(&numbers), settings: Settings::new(&numbers) };
    let mut out = String::new();
    for n in 1.. {
        if run.place == input.len() {
            break;
        }
        if form == Form::Recording && n > MOST_CALLS {
            out += &format!("{n} stopped {TOO_MANY_CALLS}\n");
            break;
        }
        match run.next() {
            Ok(text) => {
                if print != Print::State {
                    out += &format!("{n} {text}\n");
                }
                if print != Print::Answers {
                    out += &format!("{n} {} {}\n", state_text(&run.guidance.state()), settings_text(&run.settings));
                }
            }
            Err(reason) => {
                out += &format!("{n} stopped {reason}\n");
                break;
            }
        }
    }
    out
}

/// A recording rewritten by the writer's rules, up to a record that cannot be read.
pub fn rewrite(input: &[u8]) -> (Vec<u8>, Result<(), u32>) {
    let (numbers, mut place) = match record::read_configuration(input, 0) {
        Ok(read) => read,
        Err(number) => return (Vec::new(), Err(number)),
    };
    let mut out = record::configuration_bytes(&numbers);
    while place < input.len() {
        match record::read_call(input, place) {
            Ok((call, next)) => {
                out.extend(record::call_bytes(&call));
                place = next;
            }
            Err(number) => return (out, Err(number)),
        }
    }
    (out, Ok(()))
}
