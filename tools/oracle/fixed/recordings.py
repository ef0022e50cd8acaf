"""Recordings as text: a record a line, its map and fields apart, with a remark after `#`."""

import struct

NAMED = {
    "regime": 1,
    "step": 2,
    "command": 3,
    "point": 7,
    "leg": 9,
    "altitude": 11,
    "cruise": 12,
    "position": 13,
    "velocity": 16,
    "roll": 19,
    "airspeed": 20,
    "cap": 21,
}
KINDS = {"prime": 0, "attitude": 1, "rate": 2, "waypoint": 3, "absolute attitude": 4, "land": 5, "absolute rate": 6}
NAN = float("nan")
INFINITY = float("inf")


def number(value):
    """A number's four bytes; an int gives its bits."""
    if isinstance(value, int):
        return struct.pack("<I", value)
    if value != value:
        return struct.pack("<I", 0x7FC00000)
    return struct.pack("<f", value)


def call(kind, **fields):
    """A call record with these fields standing; a field of several numbers takes a list."""
    standing = {0: bytes([KINDS[kind]])}
    for name, value in fields.items():
        if name == "regime":
            standing[1] = bytes([value])
            continue
        values = value if isinstance(value, (list, tuple)) else [value]
        for offset, part in enumerate(values):
            standing[NAMED[name] + offset] = number(part)
    bits = sorted(standing)
    parts = [sum(1 << bit for bit in bits).to_bytes(4, "little")] + [standing[bit] for bit in bits]
    return " ".join(part.hex() for part in parts)


def configuration(fields=None):
    """A configuration record with these fields, by number, standing."""
    fields = fields or {}
    order = sorted(fields)
    parts = [sum(1 << (field - 1) for field in order).to_bytes(5, "little")]
    parts += [number(fields[field]) for field in order]
    return " ".join(part.hex() for part in parts)


def raw(text):
    """The bytes of a recording's text."""
    return bytes.fromhex(" ".join(line.split("#")[0] for line in text.split("\n")))


def _record(data, at, map_bytes, sizes):
    word = int.from_bytes(data[at : at + map_bytes], "little")
    parts, at = [data[at : at + map_bytes]], at + map_bytes
    for bit in range(8 * map_bytes):
        if word >> bit & 1:
            parts.append(data[at : at + sizes(bit)])
            at += sizes(bit)
    return " ".join(part.hex() for part in parts), at


def text(data, is_list):
    """A good recording or list, as text."""
    line, at = _record(data, 0, 5, lambda bit: 4)
    lines = [line]
    while at < len(data):
        tag = data[at] if is_list else 0
        start = at + 1 if is_list else at
        if tag == 2:
            lines.append("02")
            at = start
            continue
        if tag == 1:
            line, at = _record(data, start, 5, lambda bit: 4)
        else:
            line, at = _record(data, start, 4, lambda bit: 1 if bit < 2 else 4)
        lines.append(f"{tag:02x} {line}" if is_list else line)
    return "\n".join(lines) + "\n"
