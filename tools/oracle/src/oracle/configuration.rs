//! A configuration as document 01 has it: 33 numbers, in the order of `validate`, and document 02's two pairs.

pub type Numbers = [f32; 33];

/// The Rust's names of the fields, field 1 first, as `InvalidConfig` gives them.
pub const FIELDS: [&str; 33] = [
    "max_bank_rad",
    "max_pitch_up_rad",
    "max_pitch_down_rad",
    "max_rate_radps.x",
    "max_rate_radps.y",
    "max_rate_radps.z",
    "trim_pitch_rad",
    "cruise_thrust",
    "l1_period_s",
    "l1_damping",
    "loiter_radius_m",
    "altitude_p",
    "altitude_i",
    "altitude_max_integral",
    "tecs.time_constant_s",
    "tecs.max_climb_mps",
    "tecs.min_sink_mps",
    "tecs.max_sink_mps",
    "tecs.thrust_damping",
    "tecs.integrator_gain",
    "tecs.pitch_damping",
    "tecs.pitch_integrator_gain",
    "tecs.speed_weight",
    "tecs.roll_compensation",
    "tecs.min_airspeed_mps",
    "tecs.max_airspeed_mps",
    "tecs.underspeed_share",
    "tecs.height_demand_time_constant_s",
    "tecs.airspeed_rate_time_constant_s",
    "tecs.kinetic_rate_high_pass_s",
    "min_thrust",
    "max_thrust",
    "climb_thrust_per_rad",
];

/// The number of a field that the Rust's `validate` names.
pub fn field_number(section: Option<&str>, field: &str) -> u32 {
    let name = match section {
        Some(section) => format!("{section}.{field}"),
        None => field.to_string(),
    };
    let index = FIELDS.iter().position(|known| *known == name);
    index.expect("a field that `validate` names is one of the 33") as u32 + 1
}

/// The pairs of K8, least and greatest, by their places, and the number by which a crossed one fails.
const PAIRS: [(usize, usize, u32); 2] = [(24, 25, 34), (30, 31, 35)];

/// K8: the number of the first pair whose least is above its greatest, 0 if there is none. The Rust lets them pass.
pub fn crossed(numbers: &Numbers) -> u32 {
    let first = PAIRS.iter().find(|(least, greatest, _)| numbers[*least] > numbers[*greatest]);
    first.map_or(0, |(_, _, number)| *number)
}

/// What the generators give where a pair came out crossed: the same numbers, exchanged. One that fails a check of its own stays.
pub fn ordered(mut numbers: Numbers) -> Numbers {
    if crate::flown::judge::validate(&numbers).is_ok() {
        for (least, greatest, _) in PAIRS {
            if numbers[least] > numbers[greatest] {
                numbers.swap(least, greatest);
            }
        }
    }
    numbers
}

/// The Rust's `Default`.
pub fn default() -> Numbers {
    crate::flown::judge::default()
}
