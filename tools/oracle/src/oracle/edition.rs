//! Records with down positive, from document 02's K14: a second edition of the call record, and each converted to the other.
//!
//! Entries: the wanted edition, the reader's place, the writer's place and the length of the writer's buffer, a byte each; the
//! number of bytes to read from, a byte; those bytes. Place 255 is the largest one. The buffer's bytes were a5.

use crate::generate::call_record;
use crate::numbers::Random;
use crate::record::{self, ALTITUDE, BAD_MAP, CALL_MAP_BYTES, Fields, POSITION, SHORT, VELOCITY};

/// The record is already of the wanted edition.
const ALREADY: u32 = 15;
/// No such edition.
const UNKNOWN: u32 = 255;
/// Stands in the map of the second edition, with no field.
const SECOND: u32 = 1 << 22;
/// Altitude, position z and velocity z.
const DOWN: [u32; 3] = [ALTITUDE, POSITION + 2, VELOCITY + 2];
const SIGN: u32 = 1 << 31;
const FILL: u8 = 0xa5;
/// Zeros, NaNs and infinities of both signs, and the least subnormal.
const SPECIAL: [u32; 9] = [0, SIGN, 0x7fc0_0000, 0xffc0_0000, 0x7f80_0001, 0xffff_ffff, 0x7f80_0000, 0xff80_0000, 1];

/// The fields of one edition as the other has them: the sign bit of each that stands is flipped.
fn flipped(mut fields: Fields) -> Fields {
    for bit in DOWN {
        fields[bit as usize] = fields[bit as usize].map(|number| number ^ SIGN);
    }
    fields
}

/// The record of a call of either edition at a place, as the wanted one, and the place after it.
fn converted(bytes: &[u8], place: usize, wanted: u8) -> Result<(Vec<u8>, usize), u32> {
    let map = record::map_at(bytes, place)?;
    let second = map & SECOND != 0;
    if !record::map_is_good(map & !SECOND) {
        return Err(BAD_MAP);
    }
    if second == (wanted == 2) {
        return Err(ALREADY);
    }
    let (fields, next) = record::fields_at(bytes, place, map & !SECOND)?;
    let call = record::call_of(&if second { flipped(fields) } else { fields })?;
    // What missing would give, +0, is left out as a call value, before it is flipped.
    let fields = record::written_fields(&call);
    if wanted == 1 {
        return Ok((record::fields_bytes(&fields), next));
    }
    let mut bytes = record::fields_bytes(&flipped(fields));
    bytes[2] |= (SECOND >> 16) as u8;
    Ok((bytes, next))
}

/// Both places, or the refusal.
fn convert(bytes: &[u8], place: usize, wanted: u8, buffer: &mut [u8], to: usize) -> Result<(usize, usize), u32> {
    if wanted != 1 && wanted != 2 {
        return Err(UNKNOWN);
    }
    let (record, next) = converted(bytes, place, wanted)?;
    let end = record::write(&record, buffer, to)?;
    Ok((next, end))
}

fn place_of(byte: u8) -> usize {
    if byte == 255 { usize::MAX } else { byte as usize }
}

fn answer(head: &[u8], bytes: &[u8]) -> String {
    let mut buffer = vec![FILL; head[3] as usize];
    let said = match convert(bytes, place_of(head[1]), head[0], &mut buffer, place_of(head[2])) {
        Ok((next, end)) => format!("read {next} wrote {end}"),
        Err(number) => format!("refused {number}"),
    };
    let hex: String = buffer.iter().map(|byte| format!("{byte:02x}")).collect();
    format!("{said} {hex}").trim_end().to_string()
}

/// A line for each entry; a last entry that is cut short stops.
pub fn lines(mut input: &[u8]) -> String {
    let mut out = String::new();
    for n in 1.. {
        if input.is_empty() {
            break;
        }
        let parts =
            input.split_at_checked(5).and_then(|(head, rest)| Some((head, rest.split_at_checked(head[4] as usize)?)));
        let Some((head, (bytes, rest))) = parts else {
            out += &format!("{n} stopped {SHORT}\n");
            break;
        };
        out += &format!("{n} {}\n", answer(head, bytes));
        input = rest;
    }
    out
}

/// The place of the field of a bit in a record with this map.
fn field_place(map: u32, bit: u32) -> usize {
    let below = (0..bit).filter(|bit| map >> bit & 1 == 1);
    CALL_MAP_BYTES + below.map(|bit| if bit < 2 { 1 } else { 4 }).sum::<usize>()
}

/// Zeros of both signs, NaNs of both signs and infinities in the fields with down positive, of half the records.
fn set_special(random: &mut Random, record: &mut [u8]) {
    let Ok(map) = record::map_at(record, 0) else { return };
    for bit in DOWN {
        let at = field_place(map, bit);
        if map >> bit & 1 == 1 && at + 4 <= record.len() && random.once_in(2) {
            record[at..at + 4].copy_from_slice(&random.pick(&SPECIAL).to_le_bytes());
        }
    }
}

/// So many entries: calls of every kind in either edition, half of them damaged; mostly the other edition is wanted.
pub fn generate(seed: u64, count: usize) -> Vec<u8> {
    let mut random = Random::new(seed ^ 0x0e14);
    let random = &mut random;
    let mut bytes = Vec::new();
    for _ in 0..count {
        let damaged = random.once_in(2);
        let mut record = call_record(random, damaged);
        set_special(random, &mut record);
        if random.once_in(2) && record.len() >= CALL_MAP_BYTES {
            record[2] |= (SECOND >> 16) as u8;
        }
        let marked = record::map_at(&record, 0).is_ok_and(|map| map & SECOND != 0);
        let wanted = match random.below(40) {
            0 => random.pick(&[0, 3, 4, 128, 255]),
            1..=5 => 1 + marked as u8,
            _ => 2 - marked as u8,
        };
        let junk = random.below(5);
        let beyond = if random.once_in(20) { record.len() + random.below(3) } else { 0 };
        let read_place = if random.once_in(100) { 255 } else { (junk + beyond).min(254) as u8 };
        let write_place = if random.once_in(100) { 255 } else { random.below(8) as u8 };
        let room = if random.once_in(3) { random.below(100) } else { 94 + random.below(60) };
        bytes.extend([wanted, read_place, write_place, room as u8, (junk + record.len()) as u8]);
        bytes.extend((0..junk).map(|_| random.below(256) as u8));
        bytes.extend(record);
    }
    bytes
}
