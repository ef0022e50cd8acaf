//! Document 02's numbers of the lateral law, by its words and the stand-ins: ties, and the distance off the line.

use crate::guidance;
use crate::record::Waypoint;

fn normalised([x, y]: [f32; 2], floor: f32) -> Option<[f32; 2]> {
    arithmetic::normalise(x, y, floor).map(|(x, y)| [x, y])
}

fn cross(a: [f32; 2], b: [f32; 2]) -> f32 {
    a[0] * b[1] - a[1] * b[0]
}

fn less(a: [f32; 2], b: [f32; 2]) -> [f32; 2] {
    [a[0] - b[0], a[1] - b[1]]
}

/// What the track law follows, a leg or a loiter's tangent: a point and the normalised direction.
struct Line {
    point: [f32; 2],
    direction: [f32; 2],
}

/// The line of a waypoint; none where the law gives up.
fn line(w: &Waypoint, radius: f32) -> Option<Line> {
    if guidance::idle_reason(w).is_some() {
        return None;
    }
    if let Some(leg) = guidance::finite_leg(w) {
        return Some(Line { point: w.point, direction: normalised(leg, 1e-6)? });
    }
    let [x, y] = normalised(less([w.position[0], w.position[1]], w.point), 1e-3)?;
    let point = [w.point[0] + x * radius, w.point[1] + y * radius];
    Some(Line { point, direction: normalised([-y, x], 1e-6)? })
}

/// K6: metres off the line, right positive; +0 where the law gives up.
pub fn distance(w: &Waypoint, radius: f32) -> f32 {
    match line(w, radius) {
        Some(Line { point, direction }) => cross(direction, less([w.position[0], w.position[1]], point)),
        None => 0.0,
    }
}

/// K5: which zero the cross product of direction and velocity is, at a tie straight back.
pub fn tie(w: &Waypoint) -> Option<&'static str> {
    // The direction does not depend on the radius.
    let direction = line(w, 1.0)?.direction;
    let velocity = [w.velocity[0], w.velocity[1]];
    let side = cross(direction, velocity);
    let back = arithmetic::dot(direction[0], direction[1], velocity[0], velocity[1]) < 0.0;
    (side == 0.0 && back).then_some(if side.is_sign_negative() { "-0" } else { "+0" })
}
