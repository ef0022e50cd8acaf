//! A test-only form of input for the records alone. Each entry: a byte 0 for a call or 1 for a
//! configuration; the reader's place, the writer's place and the length of the writer's buffer,
//! a byte each; the number of bytes to read from, a byte; those bytes. The record that is read
//! is written by the writer's rules into a buffer of bytes a5.

use crate::record::{self, SHORT};

const FILL: u8 = 0xa5;

struct Entry<'a> {
    configuration: bool,
    read_place: usize,
    write_place: usize,
    room: usize,
    bytes: &'a [u8],
}

/// The next entry and what is left after it.
fn entry(input: &[u8]) -> Option<(Entry<'_>, &[u8])> {
    let (head, rest) = input.split_at_checked(5)?;
    let (bytes, rest) = rest.split_at_checked(head[4] as usize)?;
    let entry = Entry {
        configuration: head[0] == 1,
        read_place: head[1] as usize,
        write_place: head[2] as usize,
        room: head[3] as usize,
        bytes,
    };
    Some((entry, rest))
}

fn answer(entry: &Entry) -> String {
    let read = if entry.configuration {
        let read = record::read_configuration(entry.bytes, entry.read_place);
        read.map(|(numbers, next)| (record::configuration_bytes(&numbers), next))
    } else {
        let read = record::read_call(entry.bytes, entry.read_place);
        read.map(|(call, next)| (record::call_bytes(&call), next))
    };
    let (written, next) = match read {
        Ok(read) => read,
        Err(number) => return format!("refused {number}"),
    };
    let mut buffer = vec![FILL; entry.room];
    let end = match record::write(&written, &mut buffer, entry.write_place) {
        Ok(end) => format!("wrote {end}"),
        Err(number) => format!("refused {number}"),
    };
    let hex: String = buffer.iter().map(|byte| format!("{byte:02x}")).collect();
    format!("read {next} {end} {hex}").trim_end().to_string()
}

/// A line for each entry; a last entry that is cut short stops.
pub fn lines(mut input: &[u8]) -> String {
    let mut out = String::new();
    for n in 1.. {
        if input.is_empty() {
            break;
        }
        let Some((entry, rest)) = entry(input) else {
            out += &format!("{n} stopped {SHORT}\n");
            break;
        };
        out += &format!("{n} {}\n", answer(&entry));
        input = rest;
    }
    out
}
