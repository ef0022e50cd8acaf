//! Records, from document 01: "Records and desk program". Numbers and maps are low byte first.

use crate::configuration::{self, Numbers};

/// A record has fewer bytes than its map demands, or the place is past the end.
pub const SHORT: u32 = 5;
/// A map has an unnamed bit, lacks the kind bit, or has half a leg.
pub const BAD_MAP: u32 = 6;
/// A kind byte is above 6, or a regime byte is above 1.
pub const BAD_BYTE: u32 = 7;
/// The writer's buffer has too few bytes from the named place, or the place is past its end.
pub const NO_ROOM: u32 = 8;

pub const CONFIGURATION_MAP_BYTES: usize = 5;
pub const CALL_MAP_BYTES: usize = 4;

/// Bits of a call map.
pub const KIND: u32 = 0;
pub const REGIME: u32 = 1;
pub const TIME_STEP: u32 = 2;
pub const COMMAND: u32 = 3;
pub const POINT: u32 = 7;
pub const LEG: u32 = 9;
pub const ALTITUDE: u32 = 11;
pub const CRUISE_SPEED: u32 = 12;
pub const POSITION: u32 = 13;
pub const VELOCITY: u32 = 16;
pub const ROLL: u32 = 19;
pub const AIRSPEED: u32 = 20;
pub const CAP: u32 = 21;
pub const NAMED_BITS: u32 = 22;

#[derive(Clone, Copy, Debug, PartialEq)]
pub enum Regime {
    Copter,
    Plane,
}

/// What a waypoint call uses: bits 7 to 21.
#[derive(Clone, Copy, Debug)]
pub struct Waypoint {
    pub point: [f32; 2],
    pub leg: Option<[f32; 2]>,
    pub altitude: f32,
    pub cruise_speed: f32,
    pub position: [f32; 3],
    pub velocity: [f32; 3],
    pub roll: f32,
    pub airspeed: Option<f32>,
    pub cap: Option<f32>,
}

#[derive(Clone, Copy, Debug)]
pub enum Command {
    /// Roll, pitch, throttle.
    Attitude([f32; 3]),
    /// Roll rate, pitch rate, yaw rate, throttle.
    Rate([f32; 4]),
    Waypoint(Waypoint),
    /// Roll, pitch, thrust.
    AbsoluteAttitude([f32; 3]),
    Land,
    /// Roll, pitch, yaw, thrust.
    AbsoluteRate([f32; 4]),
}

#[derive(Clone, Copy, Debug)]
pub enum Call {
    Prime,
    Guide { regime: Regime, time_step: f32, command: Command },
}

/// The bits of a number, every NaN as one.
pub fn bits(number: f32) -> u32 {
    if number.is_nan() { 0x7fc0_0000 } else { number.to_bits() }
}

fn number_at(bytes: &[u8], place: usize) -> u32 {
    u32::from_le_bytes(bytes[place..place + 4].try_into().unwrap())
}

/// A configuration record read at a place, and the place after it.
pub fn read_configuration(bytes: &[u8], place: usize) -> Result<(Numbers, usize), u32> {
    let left = bytes.len().checked_sub(place).ok_or(SHORT)?;
    if left < CONFIGURATION_MAP_BYTES {
        return Err(SHORT);
    }
    let map = number_at(bytes, place) as u64 | (bytes[place + 4] as u64) << 32;
    if map >> configuration::FIELDS.len() != 0 {
        return Err(BAD_MAP);
    }
    if left < CONFIGURATION_MAP_BYTES + 4 * map.count_ones() as usize {
        return Err(SHORT);
    }
    let mut at = place + CONFIGURATION_MAP_BYTES;
    let mut numbers = configuration::default();
    for (bit, number) in numbers.iter_mut().enumerate() {
        if map >> bit & 1 == 1 {
            *number = f32::from_bits(number_at(bytes, at));
            at += 4;
        }
    }
    Ok((numbers, at))
}

/// The fields of a call record as they stand: bytes at bits 0 and 1, numbers from bit 2.
pub type Fields = [Option<u32>; NAMED_BITS as usize];

fn field_bytes(bit: u32) -> usize {
    if bit <= REGIME { 1 } else { 4 }
}

pub fn map_is_good(map: u32) -> bool {
    let leg = map >> LEG & 3;
    map >> NAMED_BITS == 0 && map & 1 == 1 && (leg == 0 || leg == 3)
}

/// The map of a call record at a place.
pub fn map_at(bytes: &[u8], place: usize) -> Result<u32, u32> {
    let left = bytes.len().checked_sub(place).ok_or(SHORT)?;
    if left < CALL_MAP_BYTES { Err(SHORT) } else { Ok(number_at(bytes, place)) }
}

fn read_fields(bytes: &[u8], place: usize) -> Result<(Fields, usize), u32> {
    let map = map_at(bytes, place)?;
    if !map_is_good(map) {
        return Err(BAD_MAP);
    }
    fields_at(bytes, place, map)
}

/// The fields behind a map, and the place after them.
pub fn fields_at(bytes: &[u8], place: usize, map: u32) -> Result<(Fields, usize), u32> {
    let left = bytes.len() - place;
    let standing = |bit: &u32| map >> bit & 1 == 1;
    let size: usize = (0..NAMED_BITS).filter(standing).map(field_bytes).sum();
    if left < CALL_MAP_BYTES + size {
        return Err(SHORT);
    }
    let mut fields = [None; NAMED_BITS as usize];
    let mut at = place + CALL_MAP_BYTES;
    for bit in (0..NAMED_BITS).filter(standing) {
        let value = if bit <= REGIME { bytes[at] as u32 } else { number_at(bytes, at) };
        fields[bit as usize] = Some(value);
        at += field_bytes(bit);
    }
    Ok((fields, at))
}

/// A call record read at a place, and the place after it.
pub fn read_call(bytes: &[u8], place: usize) -> Result<(Call, usize), u32> {
    let (fields, next) = read_fields(bytes, place)?;
    Ok((call_of(&fields)?, next))
}

/// The call that fields make, or number 7.
pub fn call_of(fields: &Fields) -> Result<Call, u32> {
    let kind = fields[KIND as usize].unwrap_or(0);
    let regime = fields[REGIME as usize].unwrap_or(1);
    if kind > 6 || regime > 1 {
        return Err(BAD_BYTE);
    }
    if kind == 0 {
        return Ok(Call::Prime);
    }
    let given = |bit: u32| fields[bit as usize].map(f32::from_bits);
    let number = |bit: u32| given(bit).unwrap_or(0.0);
    let three = [number(COMMAND), number(COMMAND + 1), number(COMMAND + 2)];
    let four = [three[0], three[1], three[2], number(COMMAND + 3)];
    let command = match kind {
        1 => Command::Attitude(three),
        2 => Command::Rate(four),
        3 => Command::Waypoint(waypoint(given)),
        4 => Command::AbsoluteAttitude(three),
        5 => Command::Land,
        _ => Command::AbsoluteRate(four),
    };
    let regime = if regime == 0 { Regime::Copter } else { Regime::Plane };
    Ok(Call::Guide { regime, time_step: number(TIME_STEP), command })
}

fn waypoint(given: impl Fn(u32) -> Option<f32>) -> Waypoint {
    let number = |bit: u32| given(bit).unwrap_or(0.0);
    Waypoint {
        point: [number(POINT), number(POINT + 1)],
        leg: given(LEG).map(|north| [north, number(LEG + 1)]),
        altitude: number(ALTITUDE),
        cruise_speed: number(CRUISE_SPEED),
        position: [number(POSITION), number(POSITION + 1), number(POSITION + 2)],
        velocity: [number(VELOCITY), number(VELOCITY + 1), number(VELOCITY + 2)],
        roll: number(ROLL),
        airspeed: given(AIRSPEED),
        cap: given(CAP),
    }
}

/// The bytes of a configuration by the writer's rules: a field stands if its bits are not the
/// default's.
pub fn configuration_bytes(numbers: &Numbers) -> Vec<u8> {
    let mut map = 0u64;
    let mut fields = Vec::new();
    for (bit, (number, default)) in numbers.iter().zip(configuration::default()).enumerate() {
        if bits(*number) != bits(default) {
            map |= 1 << bit;
            fields.extend(bits(*number).to_le_bytes());
        }
    }
    let mut bytes = map.to_le_bytes()[..CONFIGURATION_MAP_BYTES].to_vec();
    bytes.extend(fields);
    bytes
}

/// The fields that the writer lets stand: what missing would give is left out.
pub fn written_fields(call: &Call) -> Fields {
    let mut fields: Fields = [None; NAMED_BITS as usize];
    let Call::Guide { regime, time_step, command } = call else {
        fields[KIND as usize] = Some(0);
        return fields;
    };
    if *regime == Regime::Copter {
        fields[REGIME as usize] = Some(0);
    }
    let mut number = |bit: u32, value: f32| {
        if bits(value) != 0 {
            fields[bit as usize] = Some(bits(value));
        }
    };
    number(TIME_STEP, *time_step);
    let mut row = |from: u32, values: &[f32]| {
        for (bit, value) in (from..).zip(values) {
            number(bit, *value);
        }
    };
    let kind = match command {
        Command::Attitude(three) => {
            row(COMMAND, three);
            1
        }
        Command::Rate(four) => {
            row(COMMAND, four);
            2
        }
        Command::AbsoluteAttitude(three) => {
            row(COMMAND, three);
            4
        }
        Command::Land => 5,
        Command::AbsoluteRate(four) => {
            row(COMMAND, four);
            6
        }
        Command::Waypoint(w) => {
            row(POINT, &w.point);
            row(ALTITUDE, &[w.altitude, w.cruise_speed]);
            row(POSITION, &w.position);
            row(VELOCITY, &w.velocity);
            row(ROLL, &[w.roll]);
            optional_fields(w, &mut fields);
            3
        }
    };
    fields[KIND as usize] = Some(kind);
    fields
}

/// Leg, airspeed and cap stand whenever they are present, at +0 too.
fn optional_fields(w: &Waypoint, fields: &mut Fields) {
    if let Some([north, east]) = w.leg {
        fields[LEG as usize] = Some(bits(north));
        fields[LEG as usize + 1] = Some(bits(east));
    }
    fields[AIRSPEED as usize] = w.airspeed.map(bits);
    fields[CAP as usize] = w.cap.map(bits);
}

/// The bytes of a call record with these fields.
pub fn fields_bytes(fields: &Fields) -> Vec<u8> {
    let standing = (0..NAMED_BITS).filter(|&bit| fields[bit as usize].is_some());
    let map: u32 = standing.clone().map(|bit| 1 << bit).sum();
    let mut bytes = map.to_le_bytes().to_vec();
    for bit in standing {
        let value = fields[bit as usize].unwrap_or(0).to_le_bytes();
        bytes.extend(&value[..field_bytes(bit)]);
    }
    bytes
}

/// The bytes of a call by the writer's rules.
pub fn call_bytes(call: &Call) -> Vec<u8> {
    fields_bytes(&written_fields(call))
}

/// Writes a record from a place in a buffer, and gives the place after it; other bytes are kept.
pub fn write(record: &[u8], buffer: &mut [u8], place: usize) -> Result<usize, u32> {
    let left = buffer.len().checked_sub(place).ok_or(NO_ROOM)?;
    if left < record.len() {
        return Err(NO_ROOM);
    }
    buffer[place..place + record.len()].copy_from_slice(record);
    Ok(place + record.len())
}
