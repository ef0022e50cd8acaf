//! The published guidance behind one trait, for each of its three copies.

use crate::configuration::{Numbers, crossed, field_number};
use crate::record::{Command, Regime, Waypoint};

/// The whole stored state. Of the energy state an absent number is +0.
#[derive(Clone, Copy, Debug)]
pub struct State {
    pub requested: Regime,
    pub altitude_integral: f32,
    pub energy: EnergyState,
}

#[derive(Clone, Copy, Debug, Default)]
pub struct EnergyState {
    /// Whether the demands and the filters hold numbers.
    pub seeded: bool,
    pub slewed_height: f32,
    pub height: f32,
    pub airspeed_demand: f32,
    pub filtered_airspeed: f32,
    pub steady_accel: f32,
    pub pitch_integral: f32,
    pub thrust_integral: f32,
    pub underspeed: bool,
}

impl State {
    /// Every number of the state.
    pub fn numbers(&self) -> [f32; 8] {
        let e = &self.energy;
        [
            self.altitude_integral,
            e.slewed_height,
            e.height,
            e.airspeed_demand,
            e.filtered_airspeed,
            e.steady_accel,
            e.pitch_integral,
            e.thrust_integral,
        ]
    }
}

/// A setpoint of the Rust: roll, pitch, thrust, or roll, pitch, yaw, thrust.
#[derive(Clone, Copy, Debug)]
pub enum Setpoint {
    Plane([f32; 3]),
    Rate([f32; 4]),
}

/// A guidance of the Rust, as it is: it panics where the Rust panics.
pub trait Flown: Sized {
    fn new(numbers: &Numbers) -> Self;
    /// A guidance with this configuration and state.
    fn with(numbers: &Numbers, state: &State) -> Self;
    /// The number of the first failing field, if `set_config` refuses.
    fn set_config(&mut self, numbers: &Numbers) -> Result<(), u32>;
    fn prime(&mut self);
    fn guide_capped(&mut self, time_step: f32, regime: Regime, command: &Command) -> Setpoint;
    /// The mode report: mode (0 copter, 1 plane), refusal (0 none, 1 unsupported).
    fn flight_mode(&self) -> [u32; 2];
    fn state(&self) -> State;
    /// The radius in force.
    fn loiter_radius(&self) -> f32;
    fn copy(&self) -> Self;
}

/// The number of the first field that `validate` refuses, or of the first crossed pair (K8), 0 if none.
pub fn validate(numbers: &Numbers) -> u32 {
    judge::validate(numbers).map_or_else(|field| field, |()| crossed(numbers))
}

macro_rules! flown {
    ($name:ident, $library:ident) => {
        // Of the three copies only the judge is asked for everything.
        #[allow(dead_code)]
        pub mod $name {
            use super::*;
            use $library::guidance::plane::navigation::PiLoop;
            use $library::guidance::plane::tecs::{Demand, Tecs};
            use $library::guidance::plane::{PlaneGuidance, PlaneGuidanceConfig};
            use $library::{
                AbsoluteAttitudeCommand, AbsoluteRateCommand, AttitudeCommand, Configurable, ControlInput, FlightMode,
                FlightRegime, Guidance, LandCommand, ModeRefusal, RateCommand, Vec2, Vec3, VehicleState,
                WaypointCommand,
            };

            pub struct Plane(pub PlaneGuidance);

            include!("config_places.rs");

            pub fn config(numbers: &Numbers) -> PlaneGuidanceConfig {
                let mut config = PlaneGuidanceConfig::default();
                for (place, number) in places(&mut config).into_iter().zip(numbers) {
                    *place = *number;
                }
                config
            }

            fn numbers(mut config: PlaneGuidanceConfig) -> Numbers {
                places(&mut config).map(|place| *place)
            }

            pub fn default() -> Numbers {
                numbers(PlaneGuidanceConfig::default())
            }

            pub fn validate(numbers: &Numbers) -> Result<(), u32> {
                let checked = config(numbers).validate();
                checked.map_err(|error| field_number(error.section, error.field))
            }

            fn control_input(command: &Command) -> ControlInput {
                match *command {
                    Command::Attitude([roll, pitch, throttle]) => {
                        ControlInput::Attitude(AttitudeCommand { throttle, roll, pitch, yaw: 0.0 })
                    }
                    Command::Rate([roll_rate, pitch_rate, yaw_rate, throttle]) => {
                        ControlInput::Rate(RateCommand { throttle, roll_rate, pitch_rate, yaw_rate })
                    }
                    Command::Waypoint(w) => ControlInput::Waypoint(WaypointCommand {
                        position_m: Vec2::new(w.point[0], w.point[1]),
                        velocity_mps: w.leg.map(|[north, east]| Vec2::new(north, east)),
                        altitude_m: w.altitude,
                        cruise_speed_mps: w.cruise_speed,
                        heading_rad: None,
                    }),
                    Command::AbsoluteAttitude([roll_rad, pitch_rad, thrust]) => {
                        ControlInput::AbsoluteAttitude(AbsoluteAttitudeCommand {
                            roll_rad,
                            pitch_rad,
                            heading_rad: 0.0,
                            thrust,
                        })
                    }
                    Command::Land => ControlInput::Land(LandCommand::default()),
                    Command::AbsoluteRate([roll_radps, pitch_radps, yaw_radps, thrust]) => {
                        ControlInput::AbsoluteRate(AbsoluteRateCommand { roll_radps, pitch_radps, yaw_radps, thrust })
                    }
                }
            }

            pub fn vehicle_state(w: &Waypoint) -> VehicleState {
                VehicleState {
                    position_m: Vec3::new(w.position[0], w.position[1], w.position[2]),
                    velocity_mps: Vec3::new(w.velocity[0], w.velocity[1], w.velocity[2]),
                    roll_rad: w.roll,
                    airspeed_mps: w.airspeed,
                    ..Default::default()
                }
            }

            /// The Rust's three Options are set and cleared together, so one flag serves.
            pub fn energy_state(tecs: &Tecs) -> EnergyState {
                let seeded = tecs.demand.is_some();
                assert_eq!(seeded, tecs.filtered_airspeed_mps.is_some());
                assert_eq!(seeded, tecs.steady_accel_mps2.is_some());
                let demand = tecs.demand.as_ref();
                EnergyState {
                    seeded,
                    slewed_height: demand.map_or(0.0, |d| d.slewed_height_m),
                    height: demand.map_or(0.0, |d| d.height_m),
                    airspeed_demand: demand.map_or(0.0, |d| d.airspeed_mps),
                    filtered_airspeed: tecs.filtered_airspeed_mps.unwrap_or(0.0),
                    steady_accel: tecs.steady_accel_mps2.unwrap_or(0.0),
                    pitch_integral: tecs.pitch_integral_rad,
                    thrust_integral: tecs.thrust_integral,
                    underspeed: tecs.underspeed,
                }
            }

            pub fn tecs(e: &EnergyState) -> Tecs {
                let demand =
                    Demand { slewed_height_m: e.slewed_height, height_m: e.height, airspeed_mps: e.airspeed_demand };
                let mut tecs = Tecs::default();
                tecs.demand = e.seeded.then_some(demand);
                tecs.filtered_airspeed_mps = e.seeded.then_some(e.filtered_airspeed);
                tecs.steady_accel_mps2 = e.seeded.then_some(e.steady_accel);
                tecs.pitch_integral_rad = e.pitch_integral;
                tecs.thrust_integral = e.thrust_integral;
                tecs.underspeed = e.underspeed;
                tecs
            }

            fn flight_regime(regime: Regime) -> FlightRegime {
                match regime {
                    Regime::Copter => FlightRegime::Copter,
                    Regime::Plane => FlightRegime::Plane,
                }
            }

            impl Flown for Plane {
                fn new(numbers: &Numbers) -> Self {
                    Plane(PlaneGuidance::new(config(numbers)))
                }

                fn with(numbers: &Numbers, state: &State) -> Self {
                    let mut guidance = PlaneGuidance::new(config(numbers));
                    guidance.requested = flight_regime(state.requested);
                    guidance.altitude = PiLoop { integral: state.altitude_integral };
                    guidance.tecs = tecs(&state.energy);
                    Plane(guidance)
                }

                fn set_config(&mut self, numbers: &Numbers) -> Result<(), u32> {
                    let set = self.0.set_config(config(numbers));
                    set.map_err(|error| field_number(error.section, error.field))
                }

                fn prime(&mut self) {
                    self.0.prime(&VehicleState::default());
                }

                fn guide_capped(&mut self, time_step: f32, regime: Regime, command: &Command) -> Setpoint {
                    let (state, cap) = match command {
                        Command::Waypoint(w) => (vehicle_state(w), w.cap),
                        _ => (VehicleState::default(), None),
                    };
                    let input = control_input(command);
                    let regime = flight_regime(regime);
                    match self.0.guide_capped(time_step, regime, &input, &state, cap) {
                        $library::Setpoint::Plane(p) => Setpoint::Plane([p.roll_rad, p.pitch_rad, p.thrust]),
                        $library::Setpoint::PlaneRate(r) => {
                            Setpoint::Rate([r.roll_radps, r.pitch_radps, r.yaw_radps, r.thrust])
                        }
                        _ => unreachable!("the plane guidance gives no other setpoint"),
                    }
                }

                fn flight_mode(&self) -> [u32; 2] {
                    let report = self.0.flight_mode().expect("the plane guidance gives a report");
                    let mode = match report.mode {
                        FlightMode::Copter => 0,
                        FlightMode::Plane => 1,
                        _ => unreachable!("the plane guidance flies no transition"),
                    };
                    let refusal = match report.refusal {
                        None => 0,
                        Some(ModeRefusal::Unsupported) => 1,
                        _ => unreachable!("the plane guidance has no other reason"),
                    };
                    [mode, refusal]
                }

                fn state(&self) -> State {
                    let requested = match self.0.requested {
                        FlightRegime::Copter => Regime::Copter,
                        _ => Regime::Plane,
                    };
                    State { requested, altitude_integral: self.0.altitude.integral, energy: energy_state(&self.0.tecs) }
                }

                fn loiter_radius(&self) -> f32 {
                    self.0.config.loiter_radius_m
                }

                fn copy(&self) -> Self {
                    Plane(self.0.clone())
                }
            }
        }
    };
}

flown!(judge, stable_flight);
flown!(original, stable_flight_original);
flown!(counted, stable_flight_counted);
