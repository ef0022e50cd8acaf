//! include/nuthkolla.h, declared again. Sizes, places and numbers are held against the header's by tools/host/layout.txt.

#[repr(C)]
#[derive(Clone, Copy, Debug, Default, PartialEq)]
pub struct Tecs {
    pub seeded: u32,
    pub slewed_height_m: f32,
    pub height_m: f32,
    pub airspeed_mps: f32,
    pub pitch_integral_rad: f32,
    pub thrust_integral: f32,
    pub underspeed: u32,
    pub filtered_airspeed_mps: f32,
    pub steady_accel_mps2: f32,
}

/// The configuration before the last accepted change; where `kept` is 0 there is none to take back.
#[repr(C)]
#[derive(Clone, Copy, Debug, Default, PartialEq)]
pub struct Former {
    pub kept: u32,
    pub config: crate::PlaneGuidanceConfig,
}

#[repr(C)]
#[derive(Clone, Copy, Debug, Default, PartialEq)]
pub struct Guidance {
    pub config: crate::PlaneGuidanceConfig,
    pub requested: u32,
    pub altitude_integral: f32,
    pub tecs: Tecs,
    pub former: Former,
}

#[repr(C)]
#[derive(Clone, Copy, Debug)]
pub struct Answer {
    pub refusal: u32,
    pub field: u32,
    pub setpoint: u32,
    pub lateral: u32,
    pub vertical: u32,
    pub roll: f32,
    pub pitch: f32,
    pub yaw: f32,
    pub thrust: f32,
    pub cross_track_m: f32,
    pub next: usize,
}

#[repr(C)]
#[derive(Clone, Copy, Debug, Default)]
pub struct Call {
    pub kind: u32,
    pub regime: u32,
    pub dt: f32,
    pub numbers: [f32; 4],
    pub waypoint: [f32; 2],
    pub has_leg: u32,
    pub leg: [f32; 2],
    pub altitude_m: f32,
    pub cruise_speed_mps: f32,
    pub position_m: crate::Vec3,
    pub velocity_mps: crate::Vec3,
    pub roll_rad: f32,
    pub has_airspeed: u32,
    pub airspeed_mps: f32,
    pub has_cap: u32,
    pub pitch_cap_rad: f32,
}

#[repr(C)]
#[derive(Clone, Copy, Debug)]
pub struct Place {
    pub refusal: u32,
    pub next: usize,
}

#[repr(C)]
#[derive(Clone, Copy, Debug)]
pub struct ConfigRead {
    pub refusal: u32,
    pub next: usize,
    pub config: crate::PlaneGuidanceConfig,
}

/// A route as a host holds it; no function takes it whole.
#[repr(C)]
#[derive(Clone, Copy, Debug, PartialEq)]
pub struct Route {
    pub map: u64,
    pub number: u32,
    pub numbers: [f32; crate::ROUTE_NUMBERS],
}

#[repr(C)]
#[derive(Clone, Copy, Debug)]
pub struct RouteLoaded {
    pub refusal: u32,
    pub number: u32,
    pub map: u64,
    pub next: usize,
}

#[repr(C)]
#[derive(Clone, Copy, Debug, Default)]
pub struct RouteCall {
    pub map: u64,
    pub number: u32,
    pub regime: u32,
    pub dt: f32,
    pub position_m: crate::Vec3,
    pub velocity_mps: crate::Vec3,
    pub roll_rad: f32,
    pub has_airspeed: u32,
    pub airspeed_mps: f32,
    pub has_cap: u32,
    pub pitch_cap_rad: f32,
}

#[repr(C)]
#[derive(Clone, Copy, Debug)]
pub struct Compaction {
    pub refusal: u32,
    pub field: u32,
    pub call: u32,
    pub length: usize,
}

#[repr(C)]
#[derive(Clone, Copy, Debug)]
pub struct Agreed {
    pub agree: u32,
    pub box_call: u32,
    pub display_call: u32,
    pub whose: u32,
    pub refusal: u32,
    pub field: u32,
    pub call: u32,
}

pub const BOX: u32 = 1;
pub const DISPLAY: u32 = 2;

#[repr(C)]
#[derive(Clone, Copy, Debug)]
pub struct Conversion {
    pub refusal: u32,
    pub read: usize,
    pub written: usize,
}

#[repr(C)]
#[derive(Clone, Copy, Debug)]
pub struct RouteAnswer {
    pub answer: Answer,
    pub number: u32,
}

#[repr(C)]
#[derive(Clone, Copy, Debug)]
pub struct Path {
    pub refusal: u32,
    pub reason: u32,
    pub drawn: usize,
    pub stopped: usize,
}

#[repr(C)]
#[derive(Clone, Copy, Debug)]
pub struct Reported {
    pub refusal: u32,
    pub value: u32,
}

pub const MODE: u32 = 0;
pub const STALL_GUARD: u32 = 1;

pub const CALL: u32 = 0;
pub const SET_CONFIG: u32 = 1;
pub const NEW: u32 = 2;
pub const TAKE_BACK: u32 = 3;

// kinds of a setpoint, of a waypoint's two laws, and the refusal of what is not known
pub const NO_SETPOINT: u32 = 0;
pub const PLANE: u32 = 1;
pub const PLANE_RATE: u32 = 2;
pub const TRACK: u32 = 1;
pub const LOITER: u32 = 2;
pub const IDLE: u32 = 3;
pub const ENERGY: u32 = 1;
pub const HOLD: u32 = 2;
pub const FALLBACK: u32 = 3;
pub const UNKNOWN: u32 = 255;

// kinds of a call
pub const PRIME: u32 = 0;
pub const ATTITUDE: u32 = 1;
pub const RATE: u32 = 2;
pub const WAYPOINT: u32 = 3;
pub const ABSOLUTE_ATTITUDE: u32 = 4;
pub const LAND: u32 = 5;
pub const ABSOLUTE_RATE: u32 = 6;

extern "C" {
    pub fn nuthkolla_run(guidance: *mut Guidance, caller: u32, what: u32, bytes: *const u8, length: usize) -> Answer;
    pub fn nuthkolla_report(guidance: Guidance, caller: u32, what: u32) -> Reported;
    pub fn nuthkolla_write_call(out: *mut u8, length: usize, at: usize, call: Call) -> Place;
    pub fn nuthkolla_write_config(out: *mut u8, length: usize, at: usize, config: crate::PlaneGuidanceConfig) -> Place;
    pub fn nuthkolla_read_config(bytes: *const u8, length: usize, at: usize) -> ConfigRead;
    pub fn nuthkolla_load_route(caller: u32, bytes: *const u8, length: usize, at: usize, numbers: *mut f32, count: usize) -> RouteLoaded;
    pub fn nuthkolla_run_route(guidance: *mut Guidance, caller: u32, call: RouteCall, numbers: *const f32, count: usize) -> RouteAnswer;
    pub fn nuthkolla_write_route(
        caller: u32,
        out: *mut u8,
        length: usize,
        at: usize,
        map: u64,
        numbers: *const f32,
        count: usize,
    ) -> Place;
    pub fn nuthkolla_compact(bytes: *mut u8, length: usize) -> Compaction;
    pub fn nuthkolla_agree(of_box: *const u8, box_length: usize, of_display: *const u8, display_length: usize) -> Agreed;
    pub fn nuthkolla_convert_record(
        bytes: *const u8,
        length: usize,
        at: usize,
        edition: u32,
        out: *mut u8,
        out_length: usize,
        place: usize,
    ) -> Conversion;
    pub fn nuthkolla_draw_path(guidance: Guidance, call: Call, steps: usize, out: *mut f32, length: usize) -> Path;
    pub fn nuthkolla_default_config() -> crate::PlaneGuidanceConfig;
    pub fn nuthkolla_validate(config: crate::PlaneGuidanceConfig) -> u32;
}
