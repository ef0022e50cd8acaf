//! Document 02, K13: the box's recording and the display's held together.

use crate::compact::{self, Run};
use crate::record::{Call, Command, Regime, bits};

/// "Configuration and call values are held equal as bits, whatever map spelled them": a value, or none.
type Values = Vec<Option<u32>>;

fn values(call: &Call) -> Values {
    let Call::Guide { regime, time_step, command } = call else {
        return vec![None];
    };
    let mut all = vec![Some(matches!(regime, Regime::Plane) as u32), Some(bits(*time_step))];
    let mut put = |kind: u32, numbers: &[f32]| {
        all.push(Some(kind));
        all.extend(numbers.iter().map(|number| Some(bits(*number))));
    };
    match command {
        Command::Attitude(numbers) => put(1, numbers),
        Command::Rate(numbers) => put(2, numbers),
        Command::AbsoluteAttitude(numbers) => put(4, numbers),
        Command::Land => put(5, &[]),
        Command::AbsoluteRate(numbers) => put(6, numbers),
        Command::Waypoint(w) => {
            put(3, &[w.point[0], w.point[1], w.altitude, w.cruise_speed, w.roll]);
            put(3, &w.position);
            put(3, &w.velocity);
            all.extend([w.leg.map(|leg| bits(leg[0])), w.leg.map(|leg| bits(leg[1]))]);
            all.extend([w.airspeed.map(bits), w.cap.map(bits)]);
        }
    }
    all
}

/// The remaining calls with their original numbers, counted from 1.
fn remaining(run: &Run) -> Vec<(usize, Values)> {
    let numbered = run.calls.iter().enumerate();
    let left = numbered.filter(|(n, ran)| !compact::struck(&run.calls[..*n], ran));
    left.map(|(n, ran)| (n + 1, values(&ran.call))).collect()
}

/// A line: `agree`, `part BOX DISPLAY` with the calls' numbers, or whose recording was refused and the desk program's last line of it.
pub fn text(of_box: &[u8], of_display: &[u8]) -> String {
    let ours = match compact::run(of_box) {
        Ok(run) => run,
        Err(line) => return format!("box {line}\n"),
    };
    let theirs = match compact::run(of_display) {
        Ok(run) => run,
        Err(line) => return format!("display {line}\n"),
    };
    if ours.numbers.iter().zip(&theirs.numbers).any(|(a, b)| bits(*a) != bits(*b)) {
        return "part 0 0\n".to_string();
    }
    let (ours, theirs) = (remaining(&ours), remaining(&theirs));
    for n in 0.. {
        match (ours.get(n), theirs.get(n)) {
            (None, None) => break,
            (Some(a), Some(b)) if a.1 == b.1 => {}
            (a, b) => return format!("part {} {}\n", a.map_or(0, |call| call.0), b.map_or(0, |call| call.0)),
        }
    }
    "agree\n".to_string()
}
