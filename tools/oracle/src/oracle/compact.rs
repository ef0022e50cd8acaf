//! Document 02, K7: a recording compacted inside its buffer, by the words of demand 3.

use crate::configuration::Numbers;
use crate::desk::{MOST_CALLS, TOO_MANY_CALLS};
use crate::flown::judge::Plane;
use crate::flown::{Flown, validate};
use crate::guidance::{self, Answer, Vertical};
use crate::record::{self, Call};

/// A call of the recording: its bytes' places, and its answer in the list as first run.
pub struct Ran {
    from: usize,
    to: usize,
    pub call: Call,
    answer: Option<Answer>,
}

/// A recording that the desk program reads to its end: its configuration, the place after it, and its calls.
pub struct Run {
    pub numbers: Numbers,
    first: usize,
    pub calls: Vec<Ran>,
}

/// A recording read and run, or the line that the desk program's text ends in.
pub fn run(input: &[u8]) -> Result<Run, String> {
    let (numbers, first) = record::read_configuration(input, 0).map_err(|number| format!("config stopped {number}"))?;
    let field = validate(&numbers);
    if field != 0 {
        return Err(format!("config refused {field}"));
    }
    let mut calls = read_all(input, first)?;
    let mut guidance = Plane::new(&numbers);
    for ran in &mut calls {
        ran.answer = guidance::call(&mut guidance, &ran.call).ok();
    }
    Ok(Run { numbers, first, calls })
}

/// The new length and the buffer, or the line that the desk program's text ends in.
pub fn compact(input: &[u8]) -> Result<(usize, Vec<u8>), String> {
    let Run { first, calls, .. } = run(input)?;
    let mut out = input[..first].to_vec();
    for (n, ran) in calls.iter().enumerate() {
        if !struck(&calls[..n], ran) {
            out.extend(&input[ran.from..ran.to]);
        }
    }
    let length = out.len();
    out.resize(input.len(), 0);
    Ok((length, out))
}

fn read_all(input: &[u8], first: usize) -> Result<Vec<Ran>, String> {
    let mut calls = Vec::new();
    let mut from = first;
    while from < input.len() {
        let n = calls.len() + 1;
        if n > MOST_CALLS {
            return Err(format!("{n} stopped {TOO_MANY_CALLS}"));
        }
        let (call, to) = record::read_call(input, from).map_err(|number| format!("{n} stopped {number}"))?;
        calls.push(Ran { from, to, call, answer: None });
        from = to;
    }
    Ok(calls)
}

/// "Every refused call, and every hold unless the last accepted guide or prime call before it was a fallback."
pub fn struck(before: &[Ran], ran: &Ran) -> bool {
    match ran.answer {
        None => true,
        Some(Answer::Waypoint(_, Vertical::Hold, ..)) => {
            let last = before.iter().rev().find_map(|earlier| earlier.answer);
            !matches!(last, Some(Answer::Waypoint(_, Vertical::Fallback, ..)))
        }
        Some(_) => false,
    }
}

/// The length or the refusal's line, and every byte of the buffer.
pub fn text(input: &[u8]) -> String {
    let hex = |bytes: &[u8]| bytes.iter().map(|byte| format!("{byte:02x}")).collect::<String>();
    match compact(input) {
        Ok((length, bytes)) => format!("length {length}\n{}\n", hex(&bytes)),
        Err(line) => format!("{line}\n{}\n", hex(input)),
    }
}
