//! Commands, sensors, setpoints and the configuration, under the published Rust's names.

/// North and east, in metres or metres a second.
#[derive(Clone, Copy, Debug, Default, PartialEq)]
pub struct Vec2 {
    pub x: f32,
    pub y: f32,
}

impl Vec2 {
    pub fn new(x: f32, y: f32) -> Self {
        Vec2 { x, y }
    }
}

/// North, east and up; or roll, pitch and yaw.
#[repr(C)]
#[derive(Clone, Copy, Debug, Default, PartialEq)]
pub struct Vec3 {
    pub x: f32,
    pub y: f32,
    pub z: f32,
}

impl Vec3 {
    pub fn new(x: f32, y: f32, z: f32) -> Self {
        Vec3 { x, y, z }
    }
}

/// Fields 15 to 30 of a configuration: total energy control.
#[repr(C)]
#[derive(Clone, Copy, Debug, PartialEq)]
pub struct TecsConfig {
    pub time_constant_s: f32,
    pub max_climb_mps: f32,
    pub min_sink_mps: f32,
    pub max_sink_mps: f32,
    pub thrust_damping: f32,
    pub integrator_gain: f32,
    pub pitch_damping: f32,
    pub pitch_integrator_gain: f32,
    pub speed_weight: f32,
    pub roll_compensation: f32,
    pub min_airspeed_mps: f32,
    pub max_airspeed_mps: f32,
    pub underspeed_share: f32,
    pub height_demand_time_constant_s: f32,
    pub airspeed_rate_time_constant_s: f32,
    pub kinetic_rate_high_pass_s: f32,
}

impl Default for TecsConfig {
    fn default() -> Self {
        PlaneGuidanceConfig::default().tecs
    }
}

/// A configuration: 33 numbers.
#[repr(C)]
#[derive(Clone, Copy, Debug, PartialEq)]
pub struct PlaneGuidanceConfig {
    pub max_bank_rad: f32,
    pub max_pitch_up_rad: f32,
    pub max_pitch_down_rad: f32,
    pub max_rate_radps: Vec3,
    pub trim_pitch_rad: f32,
    pub cruise_thrust: f32,
    pub l1_period_s: f32,
    pub l1_damping: f32,
    pub loiter_radius_m: f32,
    pub altitude_p: f32,
    pub altitude_i: f32,
    pub altitude_max_integral: f32,
    pub tecs: TecsConfig,
    pub min_thrust: f32,
    pub max_thrust: f32,
    pub climb_thrust_per_rad: f32,
}

impl Default for PlaneGuidanceConfig {
    fn default() -> Self {
        // Safety: it takes nothing, and gives a plain struct.
        unsafe { crate::ffi::nuthkolla_default_config() }
    }
}

impl PlaneGuidanceConfig {
    /// `Ok` when every field is in its range, and neither least airspeed nor least thrust is above its greatest.
    ///
    /// # Errors
    ///
    /// The first field that fails.
    pub fn validate(&self) -> Result<(), InvalidConfig> {
        // Safety: it takes a plain struct by value.
        match unsafe { crate::ffi::nuthkolla_validate(*self) } {
            0 => Ok(()),
            number => Err(InvalidConfig::of(number, self)),
        }
    }
}

/// The names of the fields, 1 to 33.
pub const FIELDS: [&str; 33] = [
    "max_bank_rad",
    "max_pitch_up_rad",
    "max_pitch_down_rad",
    "max_rate_radps.x",
    "max_rate_radps.y",
    "max_rate_radps.z",
    "trim_pitch_rad",
    "cruise_thrust",
    "l1_period_s",
    "l1_damping",
    "loiter_radius_m",
    "altitude_p",
    "altitude_i",
    "altitude_max_integral",
    "tecs.time_constant_s",
    "tecs.max_climb_mps",
    "tecs.min_sink_mps",
    "tecs.max_sink_mps",
    "tecs.thrust_damping",
    "tecs.integrator_gain",
    "tecs.pitch_damping",
    "tecs.pitch_integrator_gain",
    "tecs.speed_weight",
    "tecs.roll_compensation",
    "tecs.min_airspeed_mps",
    "tecs.max_airspeed_mps",
    "tecs.underspeed_share",
    "tecs.height_demand_time_constant_s",
    "tecs.airspeed_rate_time_constant_s",
    "tecs.kinetic_rate_high_pass_s",
    "min_thrust",
    "max_thrust",
    "climb_thrust_per_rad",
];

/// A least number above its greatest: both names, and both numbers as they were given.
#[derive(Clone, Copy, Debug, PartialEq)]
pub struct Crossed {
    pub least_field: &'static str,
    pub least: f32,
    pub greatest_field: &'static str,
    pub greatest: f32,
}

/// A configuration whose field `number` fails: refusal 1. Numbers 34 and 35 are a pair that is crossed.
///
/// ```
/// let mut config = nuthkolla::PlaneGuidanceConfig::default();
/// (config.tecs.min_airspeed_mps, config.tecs.max_airspeed_mps) = (25.0, 10.0);
/// let refused = nuthkolla::PlaneGuidance::new(nuthkolla::Caller::Skipper, config).unwrap_err();
/// assert_eq!(refused.to_string(), "refused 1: field 34: tecs.min_airspeed_mps 25 is above tecs.max_airspeed_mps 10");
/// ```
#[derive(Clone, Copy, Debug, PartialEq)]
pub struct InvalidConfig {
    pub number: u32,
    /// Of 34 and 35, what is crossed.
    pub crossed: Option<Crossed>,
}

impl InvalidConfig {
    pub(crate) fn of(number: u32, config: &PlaneGuidanceConfig) -> InvalidConfig {
        let pair = |least: usize, values: (f32, f32)| Crossed {
            least_field: FIELDS[least - 1],
            least: values.0,
            greatest_field: FIELDS[least],
            greatest: values.1,
        };
        let crossed = match number {
            34 => Some(pair(25, (config.tecs.min_airspeed_mps, config.tecs.max_airspeed_mps))),
            35 => Some(pair(31, (config.min_thrust, config.max_thrust))),
            _ => None,
        };
        InvalidConfig { number, crossed }
    }

    /// The field's name; of a crossed pair the least's.
    pub fn field(&self) -> &'static str {
        let at = (self.number as usize).wrapping_sub(1);
        let own = FIELDS.get(at).copied().unwrap_or("unnamed");
        self.crossed.map_or(own, |pair| pair.least_field)
    }
}

impl core::fmt::Display for InvalidConfig {
    fn fmt(&self, f: &mut core::fmt::Formatter<'_>) -> core::fmt::Result {
        match self.crossed {
            None => write!(f, "field {} ({}) is out of its range", self.number, self.field()),
            Some(pair) => {
                let Crossed { least_field, least, greatest_field, greatest } = pair;
                write!(f, "field {}: {least_field} {least} is above {greatest_field} {greatest}", self.number)
            }
        }
    }
}

impl std::error::Error for InvalidConfig {}

/// The regime that a command asks for. This guidance flies planes only.
#[derive(Clone, Copy, Debug, Default, PartialEq, Eq)]
pub enum FlightRegime {
    #[default]
    Copter,
    Plane,
}

#[derive(Clone, Copy, Debug, Default, PartialEq, Eq)]
pub enum FlightMode {
    #[default]
    Copter,
    Plane,
}

#[derive(Clone, Copy, Debug, PartialEq, Eq)]
pub enum ModeRefusal {
    Unsupported,
}

#[derive(Clone, Copy, Debug, Default, PartialEq, Eq)]
pub struct FlightModeReport {
    pub mode: FlightMode,
    pub refusal: Option<ModeRefusal>,
}

/// Sticks: roll and pitch from -1 to 1, throttle from 0 to 1. `yaw` is never read.
#[derive(Clone, Copy, Debug, Default, PartialEq)]
pub struct AttitudeCommand {
    pub throttle: f32,
    pub roll: f32,
    pub pitch: f32,
    pub yaw: f32,
}

/// Sticks for body rates, each from -1 to 1; throttle from 0 to 1.
#[derive(Clone, Copy, Debug, Default, PartialEq)]
pub struct RateCommand {
    pub throttle: f32,
    pub roll_rate: f32,
    pub pitch_rate: f32,
    pub yaw_rate: f32,
}

/// A point to fly to: with a leg velocity along the line through it, without one around it. `heading_rad` is never read.
#[derive(Clone, Copy, Debug, Default, PartialEq)]
pub struct WaypointCommand {
    pub position_m: Vec2,
    pub velocity_mps: Option<Vec2>,
    pub altitude_m: f32,
    pub cruise_speed_mps: f32,
    pub heading_rad: Option<f32>,
}

/// An attitude in radians, flown as given. `heading_rad` is never read.
#[derive(Clone, Copy, Debug, Default, PartialEq)]
pub struct AbsoluteAttitudeCommand {
    pub roll_rad: f32,
    pub pitch_rad: f32,
    pub heading_rad: f32,
    pub thrust: f32,
}

/// Body rates in rad/s, flown as given.
#[derive(Clone, Copy, Debug, Default, PartialEq)]
pub struct AbsoluteRateCommand {
    pub roll_radps: f32,
    pub pitch_radps: f32,
    pub yaw_radps: f32,
    pub thrust: f32,
}

/// A plane doesn't land here: level, no thrust. `position_m` is never read.
#[derive(Clone, Copy, Debug, Default, PartialEq)]
pub struct LandCommand {
    pub position_m: Vec2,
}

#[derive(Clone, Copy, Debug, PartialEq)]
pub enum ControlInput {
    Attitude(AttitudeCommand),
    Rate(RateCommand),
    Waypoint(WaypointCommand),
    AbsoluteAttitude(AbsoluteAttitudeCommand),
    Land(LandCommand),
    AbsoluteRate(AbsoluteRateCommand),
}

impl Default for ControlInput {
    fn default() -> Self {
        ControlInput::Attitude(AttitudeCommand::default())
    }
}

/// What the sensors report, of which a waypoint alone reads: position and velocity as north, east, up.
#[derive(Clone, Copy, Debug, Default, PartialEq)]
pub struct VehicleState {
    pub position_m: Vec3,
    pub velocity_mps: Vec3,
    pub roll_rad: f32,
    pub airspeed_mps: Option<f32>,
}

#[derive(Clone, Copy, Debug, Default, PartialEq)]
pub struct PlaneSetpoint {
    pub roll_rad: f32,
    pub pitch_rad: f32,
    pub thrust: f32,
}

#[derive(Clone, Copy, Debug, Default, PartialEq)]
pub struct BodyRateSetpoint {
    pub roll_radps: f32,
    pub pitch_radps: f32,
    pub yaw_radps: f32,
    pub thrust: f32,
}

#[derive(Clone, Copy, Debug, PartialEq)]
pub enum Setpoint {
    Plane(PlaneSetpoint),
    PlaneRate(BodyRateSetpoint),
}

/// The law that gave a waypoint its roll.
#[derive(Clone, Copy, Debug, PartialEq, Eq)]
pub enum LateralLaw {
    Track,
    Loiter,
    /// A leg of length up to 1e-6, or a ground speed below 1.0 or NaN: the plane flies neither leg nor circle.
    Idle,
}

/// The law that gave a waypoint its pitch and thrust.
#[derive(Clone, Copy, Debug, PartialEq, Eq)]
pub enum VerticalLaw {
    Energy,
    Hold,
    Fallback,
}

#[derive(Clone, Copy, Debug, PartialEq, Eq)]
pub struct Laws {
    pub lateral: LateralLaw,
    pub vertical: VerticalLaw,
}

/// The answer to a call: a guide call's setpoint, with a waypoint's two laws and distance; nothing of a prime.
#[derive(Clone, Copy, Debug, PartialEq)]
pub struct Answer {
    pub setpoint: Option<Setpoint>,
    pub laws: Option<Laws>,
    /// Of a waypoint the metres off its line, the leg or the loiter's tangent, right positive; it may be infinite or NaN. +0 where
    /// it is idle or within 1e-3 m of a loiter's centre; with a finite offset from the waypoint a zero too where the leg's or, of a
    /// loiter, the offset's length overflows.
    pub cross_track_m: Option<f32>,
    /// The place after the record that was read.
    pub next: usize,
}

/// Who makes a call on a guidance or its route.
///
/// | | Skipper | Deckhand | Watcher |
/// |---|---|---|---|
/// | a new guidance | yes | | |
/// | guide, prime | yes | yes | |
/// | set or take back a configuration | yes | | |
/// | load or write a route | yes | | |
/// | guide along a route | yes | yes | |
/// | the mode report, the stall guard's | yes | yes | yes |
///
/// A call without the right is refused with 13 before anything else is looked at, and changes nothing. Whatever replays records or
/// draws a path acts as the skipper and takes no caller: [`compact`](crate::compact), [`agree`](crate::agree),
/// [`draw_path`](crate::PlaneGuidance::draw_path). What has neither guidance nor route, as a record that is written, read or converted,
/// asks for no right.
#[derive(Clone, Copy, Debug, PartialEq, Eq)]
pub enum Caller {
    Skipper,
    Deckhand,
    Watcher,
}

impl Caller {
    /// The caller's number.
    pub fn number(self) -> u32 {
        match self {
            Caller::Skipper => 0,
            Caller::Deckhand => 1,
            Caller::Watcher => 2,
        }
    }
}

/// Why a call was refused. A refused call changes nothing.
#[derive(Clone, Copy, Debug, PartialEq)]
pub enum Refusal {
    /// 1: a configuration's field fails, or a pair of its fields is crossed.
    Config(InvalidConfig),
    /// 2: the time step is not finite or not above 0.
    TimeStep,
    /// 3: a waypoint's pitch cap is below 0.
    Cap,
    /// 4: a waypoint's pitch, thrust or a number it would store would not be finite.
    NotFinite,
    /// 5: a record has fewer bytes than its map demands, or its map is cut short.
    Short,
    /// 6: a record's map has an unnamed bit, lacks the kind bit, or has half a leg; or a route's second map is empty.
    Map,
    /// 7: a kind is above 6, or a regime above 1.
    Kind,
    /// 8: the buffer has too few bytes from the place on, or too few numbers for a path.
    Room,
    /// 10: a route's map is empty.
    NoPoint,
    /// 11: a number of a route's record is not finite.
    PointNotFinite,
    /// 9: a recording has more than 4,096 calls.
    Calls,
    /// 12: a path's step count is 0 or above 600.
    Steps,
    /// 13: the caller lacks the right.
    Right,
    /// 14: no change is left to take back.
    NothingKept,
    /// 15: a record is already of the wanted edition.
    Already,
}

impl Refusal {
    /// The refusal's number.
    pub fn number(&self) -> u32 {
        match self {
            Refusal::Config(_) => 1,
            Refusal::TimeStep => 2,
            Refusal::Cap => 3,
            Refusal::NotFinite => 4,
            Refusal::Short => 5,
            Refusal::Map => 6,
            Refusal::Kind => 7,
            Refusal::Room => 8,
            Refusal::NoPoint => 10,
            Refusal::PointNotFinite => 11,
            Refusal::Calls => 9,
            Refusal::Steps => 12,
            Refusal::Right => 13,
            Refusal::NothingKept => 14,
            Refusal::Already => 15,
        }
    }

    /// `Ok` for 0. The library gives no other number to the calls of this crate; 1 is made where the configuration is at hand.
    pub(crate) fn of(refusal: u32) -> Result<(), Refusal> {
        Err(match refusal {
            0 => return Ok(()),
            2 => Refusal::TimeStep,
            3 => Refusal::Cap,
            4 => Refusal::NotFinite,
            5 => Refusal::Short,
            6 => Refusal::Map,
            7 => Refusal::Kind,
            10 => Refusal::NoPoint,
            11 => Refusal::PointNotFinite,
            9 => Refusal::Calls,
            12 => Refusal::Steps,
            13 => Refusal::Right,
            14 => Refusal::NothingKept,
            15 => Refusal::Already,
            _ => Refusal::Room,
        })
    }
}

impl core::fmt::Display for Refusal {
    fn fmt(&self, f: &mut core::fmt::Formatter<'_>) -> core::fmt::Result {
        match self {
            Refusal::Config(field) => write!(f, "refused 1: {field}"),
            other => write!(f, "refused {}", other.number()),
        }
    }
}

impl std::error::Error for Refusal {}
