//! The Rust wrapper's sizes, places and numbers under the header's names, as layout.c prints the header's.

use nuthkolla::{ffi, Caller, PlaneGuidanceConfig, TecsConfig, Vec3, CALL_BYTES, CONFIG_BYTES, PATH_STEPS, ROUTE_BYTES, ROUTE_NUMBERS};
use std::mem::{offset_of, size_of, size_of_val, zeroed};

macro_rules! size {
    ($name:literal, $type:ty) => {
        println!("{} {}", $name, size_of::<$type>())
    };
}

// Every struct here is numbers alone, so that zeros are one.
macro_rules! at {
    ($name:literal, $type:ty, $($field:tt)+) => {{
        let zeros: $type = unsafe { zeroed() };
        println!("{} {} {}", $name, offset_of!($type, $($field)+), size_of_val(&zeros.$($field)+))
    }};
}

macro_rules! element {
    ($name:literal, $type:ty, $array:ident, $index:literal) => {{
        let zeros: $type = unsafe { zeroed() };
        let size = size_of_val(&zeros.$array[$index]);
        println!("{} {} {}", $name, offset_of!($type, $array) + $index * size, size)
    }};
}

fn main() {
    size!("nuthkolla_vec3", Vec3);
    size!("nuthkolla_tecs_config", TecsConfig);
    size!("nuthkolla_config", PlaneGuidanceConfig);
    at!("nuthkolla_config.max_bank_rad", PlaneGuidanceConfig, max_bank_rad);
    at!("nuthkolla_config.max_pitch_up_rad", PlaneGuidanceConfig, max_pitch_up_rad);
    at!("nuthkolla_config.max_pitch_down_rad", PlaneGuidanceConfig, max_pitch_down_rad);
    at!("nuthkolla_config.max_rate_radps.x", PlaneGuidanceConfig, max_rate_radps.x);
    at!("nuthkolla_config.max_rate_radps.y", PlaneGuidanceConfig, max_rate_radps.y);
    at!("nuthkolla_config.max_rate_radps.z", PlaneGuidanceConfig, max_rate_radps.z);
    at!("nuthkolla_config.trim_pitch_rad", PlaneGuidanceConfig, trim_pitch_rad);
    at!("nuthkolla_config.cruise_thrust", PlaneGuidanceConfig, cruise_thrust);
    at!("nuthkolla_config.l1_period_s", PlaneGuidanceConfig, l1_period_s);
    at!("nuthkolla_config.l1_damping", PlaneGuidanceConfig, l1_damping);
    at!("nuthkolla_config.loiter_radius_m", PlaneGuidanceConfig, loiter_radius_m);
    at!("nuthkolla_config.altitude_p", PlaneGuidanceConfig, altitude_p);
    at!("nuthkolla_config.altitude_i", PlaneGuidanceConfig, altitude_i);
    at!("nuthkolla_config.altitude_max_integral", PlaneGuidanceConfig, altitude_max_integral);
    at!("nuthkolla_config.tecs.time_constant_s", PlaneGuidanceConfig, tecs.time_constant_s);
    at!("nuthkolla_config.tecs.max_climb_mps", PlaneGuidanceConfig, tecs.max_climb_mps);
    at!("nuthkolla_config.tecs.min_sink_mps", PlaneGuidanceConfig, tecs.min_sink_mps);
    at!("nuthkolla_config.tecs.max_sink_mps", PlaneGuidanceConfig, tecs.max_sink_mps);
    at!("nuthkolla_config.tecs.thrust_damping", PlaneGuidanceConfig, tecs.thrust_damping);
    at!("nuthkolla_config.tecs.integrator_gain", PlaneGuidanceConfig, tecs.integrator_gain);
    at!("nuthkolla_config.tecs.pitch_damping", PlaneGuidanceConfig, tecs.pitch_damping);
    at!("nuthkolla_config.tecs.pitch_integrator_gain", PlaneGuidanceConfig, tecs.pitch_integrator_gain);
    at!("nuthkolla_config.tecs.speed_weight", PlaneGuidanceConfig, tecs.speed_weight);
    at!("nuthkolla_config.tecs.roll_compensation", PlaneGuidanceConfig, tecs.roll_compensation);
    at!("nuthkolla_config.tecs.min_airspeed_mps", PlaneGuidanceConfig, tecs.min_airspeed_mps);
    at!("nuthkolla_config.tecs.max_airspeed_mps", PlaneGuidanceConfig, tecs.max_airspeed_mps);
    at!("nuthkolla_config.tecs.underspeed_share", PlaneGuidanceConfig, tecs.underspeed_share);
    at!("nuthkolla_config.tecs.height_demand_time_constant_s", PlaneGuidanceConfig, tecs.height_demand_time_constant_s);
    at!("nuthkolla_config.tecs.airspeed_rate_time_constant_s", PlaneGuidanceConfig, tecs.airspeed_rate_time_constant_s);
    at!("nuthkolla_config.tecs.kinetic_rate_high_pass_s", PlaneGuidanceConfig, tecs.kinetic_rate_high_pass_s);
    at!("nuthkolla_config.min_thrust", PlaneGuidanceConfig, min_thrust);
    at!("nuthkolla_config.max_thrust", PlaneGuidanceConfig, max_thrust);
    at!("nuthkolla_config.climb_thrust_per_rad", PlaneGuidanceConfig, climb_thrust_per_rad);
    size!("nuthkolla_tecs", ffi::Tecs);
    size!("nuthkolla_guidance", ffi::Guidance);
    at!("nuthkolla_guidance.config", ffi::Guidance, config);
    at!("nuthkolla_guidance.requested", ffi::Guidance, requested);
    at!("nuthkolla_guidance.altitude.integral", ffi::Guidance, altitude_integral);
    at!("nuthkolla_guidance.tecs.seeded", ffi::Guidance, tecs.seeded);
    at!("nuthkolla_guidance.tecs.demand.slewed_height_m", ffi::Guidance, tecs.slewed_height_m);
    at!("nuthkolla_guidance.tecs.demand.height_m", ffi::Guidance, tecs.height_m);
    at!("nuthkolla_guidance.tecs.demand.airspeed_mps", ffi::Guidance, tecs.airspeed_mps);
    at!("nuthkolla_guidance.tecs.pitch_integral_rad", ffi::Guidance, tecs.pitch_integral_rad);
    at!("nuthkolla_guidance.tecs.thrust_integral", ffi::Guidance, tecs.thrust_integral);
    at!("nuthkolla_guidance.tecs.underspeed", ffi::Guidance, tecs.underspeed);
    at!("nuthkolla_guidance.tecs.filtered_airspeed_mps", ffi::Guidance, tecs.filtered_airspeed_mps);
    at!("nuthkolla_guidance.tecs.steady_accel_mps2", ffi::Guidance, tecs.steady_accel_mps2);
    at!("nuthkolla_guidance.former.kept", ffi::Guidance, former.kept);
    at!("nuthkolla_guidance.former.config", ffi::Guidance, former.config);
    size!("nuthkolla_answer", ffi::Answer);
    at!("nuthkolla_answer.refusal", ffi::Answer, refusal);
    at!("nuthkolla_answer.field", ffi::Answer, field);
    at!("nuthkolla_answer.setpoint", ffi::Answer, setpoint);
    at!("nuthkolla_answer.lateral", ffi::Answer, lateral);
    at!("nuthkolla_answer.vertical", ffi::Answer, vertical);
    at!("nuthkolla_answer.roll", ffi::Answer, roll);
    at!("nuthkolla_answer.pitch", ffi::Answer, pitch);
    at!("nuthkolla_answer.yaw", ffi::Answer, yaw);
    at!("nuthkolla_answer.thrust", ffi::Answer, thrust);
    at!("nuthkolla_answer.cross_track_m", ffi::Answer, cross_track_m);
    at!("nuthkolla_answer.next", ffi::Answer, next);
    size!("nuthkolla_call", ffi::Call);
    at!("nuthkolla_call.kind", ffi::Call, kind);
    at!("nuthkolla_call.regime", ffi::Call, regime);
    at!("nuthkolla_call.dt", ffi::Call, dt);
    element!("nuthkolla_call.first", ffi::Call, numbers, 0);
    element!("nuthkolla_call.second", ffi::Call, numbers, 1);
    element!("nuthkolla_call.third", ffi::Call, numbers, 2);
    element!("nuthkolla_call.fourth", ffi::Call, numbers, 3);
    element!("nuthkolla_call.waypoint_north_m", ffi::Call, waypoint, 0);
    element!("nuthkolla_call.waypoint_east_m", ffi::Call, waypoint, 1);
    at!("nuthkolla_call.has_leg", ffi::Call, has_leg);
    element!("nuthkolla_call.leg_north_mps", ffi::Call, leg, 0);
    element!("nuthkolla_call.leg_east_mps", ffi::Call, leg, 1);
    at!("nuthkolla_call.altitude_m", ffi::Call, altitude_m);
    at!("nuthkolla_call.cruise_speed_mps", ffi::Call, cruise_speed_mps);
    at!("nuthkolla_call.position_m", ffi::Call, position_m);
    at!("nuthkolla_call.velocity_mps", ffi::Call, velocity_mps);
    at!("nuthkolla_call.roll_rad", ffi::Call, roll_rad);
    at!("nuthkolla_call.has_airspeed", ffi::Call, has_airspeed);
    at!("nuthkolla_call.airspeed_mps", ffi::Call, airspeed_mps);
    at!("nuthkolla_call.has_cap", ffi::Call, has_cap);
    at!("nuthkolla_call.pitch_cap_rad", ffi::Call, pitch_cap_rad);
    size!("nuthkolla_place", ffi::Place);
    at!("nuthkolla_place.refusal", ffi::Place, refusal);
    at!("nuthkolla_place.next", ffi::Place, next);
    size!("nuthkolla_config_read", ffi::ConfigRead);
    at!("nuthkolla_config_read.refusal", ffi::ConfigRead, refusal);
    at!("nuthkolla_config_read.next", ffi::ConfigRead, next);
    at!("nuthkolla_config_read.config", ffi::ConfigRead, config);
    size!("nuthkolla_route", ffi::Route);
    at!("nuthkolla_route.map", ffi::Route, map);
    at!("nuthkolla_route.number", ffi::Route, number);
    at!("nuthkolla_route.numbers", ffi::Route, numbers);
    size!("nuthkolla_route_loaded", ffi::RouteLoaded);
    at!("nuthkolla_route_loaded.refusal", ffi::RouteLoaded, refusal);
    at!("nuthkolla_route_loaded.number", ffi::RouteLoaded, number);
    at!("nuthkolla_route_loaded.map", ffi::RouteLoaded, map);
    at!("nuthkolla_route_loaded.next", ffi::RouteLoaded, next);
    size!("nuthkolla_route_call", ffi::RouteCall);
    at!("nuthkolla_route_call.map", ffi::RouteCall, map);
    at!("nuthkolla_route_call.number", ffi::RouteCall, number);
    at!("nuthkolla_route_call.regime", ffi::RouteCall, regime);
    at!("nuthkolla_route_call.dt", ffi::RouteCall, dt);
    at!("nuthkolla_route_call.position_m", ffi::RouteCall, position_m);
    at!("nuthkolla_route_call.velocity_mps", ffi::RouteCall, velocity_mps);
    at!("nuthkolla_route_call.roll_rad", ffi::RouteCall, roll_rad);
    at!("nuthkolla_route_call.has_airspeed", ffi::RouteCall, has_airspeed);
    at!("nuthkolla_route_call.airspeed_mps", ffi::RouteCall, airspeed_mps);
    at!("nuthkolla_route_call.has_cap", ffi::RouteCall, has_cap);
    at!("nuthkolla_route_call.pitch_cap_rad", ffi::RouteCall, pitch_cap_rad);
    size!("nuthkolla_route_answer", ffi::RouteAnswer);
    at!("nuthkolla_route_answer.answer", ffi::RouteAnswer, answer);
    at!("nuthkolla_route_answer.number", ffi::RouteAnswer, number);
    size!("nuthkolla_compaction", ffi::Compaction);
    at!("nuthkolla_compaction.refusal", ffi::Compaction, refusal);
    at!("nuthkolla_compaction.field", ffi::Compaction, field);
    at!("nuthkolla_compaction.call", ffi::Compaction, call);
    at!("nuthkolla_compaction.length", ffi::Compaction, length);
    size!("nuthkolla_agreed", ffi::Agreed);
    at!("nuthkolla_agreed.agree", ffi::Agreed, agree);
    at!("nuthkolla_agreed.box_call", ffi::Agreed, box_call);
    at!("nuthkolla_agreed.display_call", ffi::Agreed, display_call);
    at!("nuthkolla_agreed.whose", ffi::Agreed, whose);
    at!("nuthkolla_agreed.refusal", ffi::Agreed, refusal);
    at!("nuthkolla_agreed.field", ffi::Agreed, field);
    at!("nuthkolla_agreed.call", ffi::Agreed, call);
    size!("nuthkolla_conversion", ffi::Conversion);
    at!("nuthkolla_conversion.refusal", ffi::Conversion, refusal);
    at!("nuthkolla_conversion.read", ffi::Conversion, read);
    at!("nuthkolla_conversion.written", ffi::Conversion, written);
    size!("nuthkolla_path", ffi::Path);
    at!("nuthkolla_path.refusal", ffi::Path, refusal);
    at!("nuthkolla_path.reason", ffi::Path, reason);
    at!("nuthkolla_path.drawn", ffi::Path, drawn);
    at!("nuthkolla_path.stopped", ffi::Path, stopped);
    size!("nuthkolla_reported", ffi::Reported);
    at!("nuthkolla_reported.refusal", ffi::Reported, refusal);
    at!("nuthkolla_reported.value", ffi::Reported, value);
    println!("NUTHKOLLA_SKIPPER {}", Caller::Skipper.number());
    println!("NUTHKOLLA_DECKHAND {}", Caller::Deckhand.number());
    println!("NUTHKOLLA_WATCHER {}", Caller::Watcher.number());
    println!("NUTHKOLLA_MODE {}", ffi::MODE);
    println!("NUTHKOLLA_STALL_GUARD {}", ffi::STALL_GUARD);
    println!("NUTHKOLLA_CALL {}", ffi::CALL);
    println!("NUTHKOLLA_SET_CONFIG {}", ffi::SET_CONFIG);
    println!("NUTHKOLLA_NEW {}", ffi::NEW);
    println!("NUTHKOLLA_TAKE_BACK {}", ffi::TAKE_BACK);
    println!("NUTHKOLLA_NO_SETPOINT {}", ffi::NO_SETPOINT);
    println!("NUTHKOLLA_PLANE {}", ffi::PLANE);
    println!("NUTHKOLLA_PLANE_RATE {}", ffi::PLANE_RATE);
    println!("NUTHKOLLA_TRACK {}", ffi::TRACK);
    println!("NUTHKOLLA_LOITER {}", ffi::LOITER);
    println!("NUTHKOLLA_IDLE {}", ffi::IDLE);
    println!("NUTHKOLLA_ENERGY {}", ffi::ENERGY);
    println!("NUTHKOLLA_HOLD {}", ffi::HOLD);
    println!("NUTHKOLLA_FALLBACK {}", ffi::FALLBACK);
    println!("NUTHKOLLA_UNKNOWN {}", ffi::UNKNOWN);
    println!("NUTHKOLLA_CALL_BYTES {}", CALL_BYTES);
    println!("NUTHKOLLA_CONFIG_BYTES {}", CONFIG_BYTES);
    println!("NUTHKOLLA_PRIME {}", ffi::PRIME);
    println!("NUTHKOLLA_ATTITUDE {}", ffi::ATTITUDE);
    println!("NUTHKOLLA_RATE {}", ffi::RATE);
    println!("NUTHKOLLA_WAYPOINT {}", ffi::WAYPOINT);
    println!("NUTHKOLLA_ABSOLUTE_ATTITUDE {}", ffi::ABSOLUTE_ATTITUDE);
    println!("NUTHKOLLA_LAND {}", ffi::LAND);
    println!("NUTHKOLLA_ABSOLUTE_RATE {}", ffi::ABSOLUTE_RATE);
    println!("NUTHKOLLA_ROUTE_BYTES {}", ROUTE_BYTES);
    println!("NUTHKOLLA_ROUTE_NUMBERS {}", ROUTE_NUMBERS);
    println!("NUTHKOLLA_PATH_STEPS {}", PATH_STEPS);
    println!("NUTHKOLLA_BOX {}", ffi::BOX);
    println!("NUTHKOLLA_DISPLAY {}", ffi::DISPLAY);
}
