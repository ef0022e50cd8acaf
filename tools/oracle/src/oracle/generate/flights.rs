//! Plausible flights: a simple plane flies what the oracle answers, along a route, with wind,
//! gusts, stretches of bad sensors, sticks, caps and other settings.

use super::{Input, Item, set_configuration, spelled, written};
use crate::flown::judge::Plane;
use crate::flown::{Flown, validate};
use crate::guidance::{self, Answer};
use crate::numbers::{self, Random, Style};
use crate::record::{Call, Command, Regime, Waypoint, read_configuration};

const GRAVITY: f32 = 9.80665;

/// The plane that is flown. Its trigonometry is the stand-ins', so that a seed gives the same
/// flight on every machine.
struct Craft {
    position: [f32; 3],
    /// Through the air: north, east, each a share of the airspeed.
    heading: [f32; 2],
    airspeed: f32,
    climb: f32,
    roll: f32,
    wind: [f32; 2],
}

impl Craft {
    fn new(random: &mut Random) -> Self {
        let angle = random.between(-0.7, 0.7);
        Craft {
            position: [random.between(-50.0, 50.0), random.between(-50.0, 50.0), random.between(20.0, 60.0)],
            heading: [arithmetic::cosine(angle), arithmetic::sine(angle)],
            airspeed: random.between(11.0, 22.0),
            climb: random.between(-2.0, 2.0),
            roll: 0.0,
            wind: [random.between(-6.0, 6.0), random.between(-6.0, 6.0)],
        }
    }

    fn velocity(&self) -> [f32; 3] {
        let [north, east] = self.heading;
        [north * self.airspeed + self.wind[0], east * self.airspeed + self.wind[1], self.climb]
    }

    fn fly(&mut self, [roll, pitch, thrust]: [f32; 3], dt: f32) {
        let share = (dt / 0.5).min(1.0);
        self.roll += (roll.clamp(-1.2, 1.2) - self.roll) * share;
        let pitch = pitch.clamp(-0.8, 0.8);
        let speed = self.airspeed.max(5.0);
        let turn = GRAVITY * arithmetic::sine(self.roll) / arithmetic::cosine(self.roll) / speed * dt;
        let (sine, cosine) = (arithmetic::sine(turn.clamp(-1.5, 1.5)), arithmetic::cosine(turn.clamp(-1.5, 1.5)));
        let [north, east] = self.heading;
        self.heading = [north * cosine - east * sine, north * sine + east * cosine];
        let accel = 8.0 * (thrust - 0.5) - 6.0 * arithmetic::sine(pitch) - 0.02 * (self.airspeed - 16.0);
        self.airspeed = (self.airspeed + accel * dt).clamp(2.0, 40.0);
        self.climb += (self.airspeed * arithmetic::sine(pitch) - self.climb) * share;
        let velocity = self.velocity();
        for (part, speed) in self.position.iter_mut().zip(velocity) {
            *part += speed * dt;
        }
    }
}

/// What a stretch of the flight is like.
#[derive(Clone, Copy, PartialEq)]
enum Stretch {
    Plain,
    NoAirspeed,
    BadAirspeed,
    BadHeight,
    BadPosition,
    Stall,
    Capped,
    Sticks,
    NoSpeedTarget,
    BadSteps,
}

const STRETCHES: [Stretch; 16] = [
    Stretch::Plain,
    Stretch::Plain,
    Stretch::Plain,
    Stretch::Plain,
    Stretch::Plain,
    Stretch::Plain,
    Stretch::Plain,
    Stretch::NoAirspeed,
    Stretch::BadAirspeed,
    Stretch::BadHeight,
    Stretch::BadPosition,
    Stretch::Stall,
    Stretch::Capped,
    Stretch::Sticks,
    Stretch::NoSpeedTarget,
    Stretch::BadSteps,
];

struct Route {
    points: Vec<[f32; 2]>,
    next: usize,
    altitude: f32,
    cruise_speed: f32,
}

impl Route {
    fn new(random: &mut Random) -> Self {
        let count = 2 + random.below(4);
        let points = (0..count).map(|_| [random.between(-400.0, 400.0), random.between(-400.0, 400.0)]);
        Route {
            points: points.collect(),
            next: 1,
            altitude: random.between(20.0, 90.0),
            cruise_speed: random.between(12.0, 22.0),
        }
    }

    /// The point flown to, and the leg to it: none at the last point, where the plane loiters.
    fn aim(&mut self, position: [f32; 3]) -> ([f32; 2], Option<[f32; 2]>) {
        let last = self.points.len() - 1;
        if self.next > last {
            return (self.points[last], None);
        }
        let (from, to) = (self.points[self.next - 1], self.points[self.next]);
        let leg = [to[0] - from[0], to[1] - from[1]];
        if leg[0] * (position[0] - to[0]) + leg[1] * (position[1] - to[1]) >= 0.0 {
            self.next += 1;
        }
        (to, Some(leg))
    }
}

pub fn input(random: &mut Random, calls: usize) -> Input {
    let style = random.pick(&[Style::Ordinary, Style::Ordinary, Style::Spotted]);
    let numbers =
        if random.once_in(2) { crate::configuration::default() } else { numbers::configuration(random, style) };
    let mut flight = Flight {
        guidance: Plane::new(&numbers),
        craft: Craft::new(random),
        route: Route::new(random),
        stretch: Stretch::Plain,
    };
    let configuration = spelled(random, &numbers);
    let items = (0..calls).map(|_| flight.next(random)).collect();
    Input { configuration, items }
}

struct Flight {
    guidance: Plane,
    craft: Craft,
    route: Route,
    stretch: Stretch,
}

impl Flight {
    fn next(&mut self, random: &mut Random) -> Item {
        if random.once_in(25) {
            self.stretch = random.pick(&STRETCHES);
        }
        if random.once_in(300) {
            self.route = Route::new(random);
        }
        if random.once_in(150) {
            self.route.altitude = random.between(10.0, 120.0);
        }
        if random.once_in(200) {
            return self.set_configuration(random);
        }
        let call = if random.once_in(250) { Call::Prime } else { self.call(random) };
        let dt = 0.1;
        if let Ok(answer) = guidance::call(&mut self.guidance, &call) {
            if let Answer::Plane(flown) | Answer::Waypoint(_, _, flown, _) = answer {
                self.craft.fly(flown, dt);
            }
        }
        written(&call)
    }

    fn set_configuration(&mut self, random: &mut Random) -> Item {
        let item = set_configuration(random, Style::Ordinary);
        if let Item::Set(record) = &item {
            let (numbers, _) = read_configuration(record, 0).expect("a record that was just made");
            if validate(&numbers) == 0 {
                self.guidance.set_config(&numbers).expect("a valid configuration");
            }
        }
        item
    }

    fn call(&mut self, random: &mut Random) -> Call {
        let regime = if random.once_in(50) { Regime::Copter } else { Regime::Plane };
        let mut time_step = if random.once_in(10) { random.between(0.05, 0.2) } else { 0.1 };
        if self.stretch == Stretch::BadSteps && random.once_in(2) {
            time_step = random.pick(&[0.0, -0.1, f32::NAN, f32::INFINITY]);
        }
        let command = if self.stretch == Stretch::Sticks {
            self.sticks(random)
        } else {
            Command::Waypoint(self.waypoint(random))
        };
        Call::Guide { regime, time_step, command }
    }

    fn sticks(&self, random: &mut Random) -> Command {
        let mut stick = || random.between(-1.1, 1.1);
        let four = [stick(), stick(), stick(), stick()];
        let three = [four[0], four[1], four[3]];
        match random.below(5) {
            0 => Command::Attitude(three),
            1 => Command::Rate(four),
            2 => Command::AbsoluteAttitude(three),
            3 => Command::Land,
            _ => Command::AbsoluteRate(four),
        }
    }

    /// What the sensors report, and where the route leads.
    fn waypoint(&mut self, random: &mut Random) -> Waypoint {
        let craft = &self.craft;
        let (point, leg) = self.route.aim(craft.position);
        let gust = random.between(-0.3, 0.3);
        let mut w = Waypoint {
            point,
            leg,
            altitude: self.route.altitude,
            cruise_speed: self.route.cruise_speed,
            position: craft.position,
            velocity: craft.velocity(),
            roll: craft.roll,
            airspeed: Some(craft.airspeed + gust),
            cap: None,
        };
        let bad = random.pick(&[f32::NAN, f32::INFINITY, -f32::INFINITY, 1e30]);
        match self.stretch {
            Stretch::NoAirspeed => w.airspeed = None,
            Stretch::BadAirspeed => w.airspeed = Some(random.pick(&[f32::NAN, -1.0, f32::INFINITY, 1e25])),
            Stretch::BadHeight => w.position[2] = bad,
            Stretch::BadPosition => w.position[random.below(2)] = bad,
            Stretch::Stall => w.airspeed = Some(random.between(6.0, 11.0)),
            Stretch::Capped => w.cap = Some(random.pick(&[0.0, 0.05, 0.1, 0.3, -0.05])),
            Stretch::NoSpeedTarget => w.cruise_speed = 0.0,
            Stretch::Plain | Stretch::Sticks | Stretch::BadSteps => {}
        }
        w
    }
}
