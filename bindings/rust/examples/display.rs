//! Plays the wheelhouse display: it reads the records that the box sends over the cable, one configuration and then
//! calls, works out the setpoints itself, and prints them as the desk program does. It replays records, and so acts as the skipper.
//!
//!     box LINES | display

use nuthkolla::{Answer, Caller, LateralLaw, PlaneGuidance, Refusal, Setpoint, VerticalLaw};
use std::io::{self, Read, Write};

/// A number's bits, any NaN as 7fc00000.
fn bits(x: f32) -> u32 {
    if x.is_nan() { 0x7fc0_0000 } else { x.to_bits() }
}

fn line(answer: &Answer) -> String {
    let kind = match answer.laws {
        Some(laws) => {
            let lateral = match laws.lateral {
                LateralLaw::Track => "track",
                LateralLaw::Loiter => "loiter",
                LateralLaw::Idle => "idle",
            };
            let vertical = match laws.vertical {
                VerticalLaw::Energy => "energy",
                VerticalLaw::Hold => "hold",
                VerticalLaw::Fallback => "fallback",
            };
            format!("{lateral} {vertical}")
        }
        None => "plane".to_string(),
    };
    match answer.setpoint {
        None => "prime".to_string(),
        Some(Setpoint::Plane(s)) => {
            let off = answer.cross_track_m.map_or(String::new(), |m| format!(" {:08x}", bits(m)));
            format!("{kind} {:08x} {:08x} {:08x}{off}", bits(s.roll_rad), bits(s.pitch_rad), bits(s.thrust))
        }
        Some(Setpoint::PlaneRate(s)) => {
            format!("rate {:08x} {:08x} {:08x} {:08x}", bits(s.roll_radps), bits(s.pitch_radps), bits(s.yaw_radps), bits(s.thrust))
        }
    }
}

/// How many bytes the call record at the start of `bytes` has, where its map has arrived.
fn size(bytes: &[u8]) -> Option<usize> {
    let map = u32::from_le_bytes(bytes.get(..4)?.try_into().ok()?);
    let single = (map & 3).count_ones() as usize;
    Some(4 + single + 4 * (map >> 2 & 0xfffff).count_ones() as usize)
}

fn main() -> Result<(), Box<dyn std::error::Error>> {
    let mut cable = io::stdin().lock();
    let mut out = io::BufWriter::new(io::stdout().lock());
    let mut held: Vec<u8> = Vec::new();
    let mut guidance: Option<PlaneGuidance> = None;
    let mut number = 0;
    let mut part = [0; 4096];
    loop {
        let count = cable.read(&mut part)?;
        held.extend(&part[..count]);
        let mut place = 0;
        // The configuration comes first; 5 says that it has not arrived whole.
        if guidance.is_none() {
            match PlaneGuidance::from_record(Caller::Skipper, &held) {
                Err(Refusal::Short) if count != 0 => continue,
                made => guidance = Some(made?),
            }
            place = nuthkolla::read_config(&held, 0)?.1;
        }
        let guidance = guidance.as_mut().expect("made above");
        while size(&held[place..]).is_some_and(|size| size <= held.len() - place) {
            number += 1;
            let end = place + size(&held[place..]).expect("as above");
            match guidance.call_record(Caller::Skipper, &held[place..end]) {
                Ok(answer) => writeln!(out, "{number} {}", line(&answer))?,
                Err(refusal @ (Refusal::Short | Refusal::Map | Refusal::Kind)) => return Err(refusal.into()),
                Err(refusal) => writeln!(out, "{number} {refusal}")?,
            }
            place = end;
        }
        held.drain(..place);
        if count == 0 {
            return Ok(out.flush()?);
        }
    }
}
