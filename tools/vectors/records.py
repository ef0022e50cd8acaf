#!/usr/bin/env python3
"""records.py ORACLE [FOLDER]: the records on which crates/records_cases runs, data/entries, and its stdout.

They are written to the crate, or to the folder named. ORACLE is the program that tools/oracle/build makes; its codec alone
gives the lines of stdout, and half of the entries (`generate records`). The others are written out here: document 01's
example, each kind with all its fields and with none, each refusal, buffers that are just long enough or a byte short,
records at the end of a buffer, zeros of both signs, patterns of NaN, and each field of a configuration.

An entry: a byte 0 for a call or 1 for a configuration, the reader's place, the writer's place, the buffer's length, the number
of bytes to read from, a byte each, and those bytes. Place 255 is the largest usize to the crate; to the oracle it is past
the end all the same.
"""
import pathlib
import struct
import subprocess
import sys

HERE = pathlib.Path(__file__).resolve().parent
CRATE = HERE.parent.parent / "crates/records_cases"
CALL, CONFIG = 0, 1
NANS = [0x7F800001, 0x7FBFFFFF, 0x7FC00000, 0x7FC00001, 0x7FFFFFFF, 0xFF800001, 0xFFC00000, 0xFFFFFFFF]
ONE, MINUS_0 = 0x3F800000, 0x80000000
NUMBERS = range(2, 22)  # the bits of a call's numbers
USED = {0: [], 1: range(2, 6), 2: range(2, 7), 3: [2, *range(7, 22)], 4: range(2, 6), 5: [2], 6: range(2, 7)}
LEG, AIRSPEED, CAP = (9, 10), 20, 21


def call(kind, numbers, regime=None, map_bits=0):
    """A call record: numbers by bit; a regime byte where it is not None; map_bits are added to its map."""
    bits = 1 | map_bits | sum(1 << n for n in numbers) | (2 if regime is not None else 0)
    body = bytes([kind]) + (bytes([regime]) if regime is not None else b"")
    return struct.pack("<I", bits) + body + b"".join(struct.pack("<I", numbers[n]) for n in sorted(numbers))


def config(numbers, map_bits=0):
    """A configuration record: numbers by bit, the field's number less 1."""
    bits = map_bits | sum(1 << n for n in numbers)
    return bits.to_bytes(5, "little") + b"".join(struct.pack("<I", numbers[n]) for n in sorted(numbers))


def entry(what, record, place=0, to=0, room=96, before=b"", after=b""):
    data = before + record + after
    return bytes([what, place or len(before), to, room, len(data)]) + data


def plain(n):
    """A number for a field: its own for each bit."""
    return struct.unpack("<I", struct.pack("<f", n + 0.5))[0]


def kinds():
    for kind in range(7):
        whole = {n: plain(n) for n in USED[kind]}
        every = {n: plain(n) for n in NUMBERS}
        for regime in (None, 0, 1):
            yield entry(CALL, call(kind, {}, regime))
            yield entry(CALL, call(kind, whole, regime), to=7)
            yield entry(CALL, call(kind, every, regime), before=b"\xee" * 3, after=b"\xdd" * 2, to=3)
        for n in USED[kind]:
            leg = {m: 0 for m in LEG} if n in LEG else {}
            for bits in (0, MINUS_0, ONE, *NANS):
                yield entry(CALL, call(kind, {**leg, n: bits}), room=24)


def refusals():
    example = call(3, {2: ONE, 11: 0x7F800000, 12: ONE, 20: 0})
    for n in range(len(example) + 1):
        yield entry(CALL, example[:n])
    for place in (1, len(example) - 1, len(example), len(example) + 1, 254, 255):
        yield entry(CALL, example, place=place)
    for n in range(22, 32):
        yield entry(CALL, call(0, {}, map_bits=1 << n))
        yield entry(CALL, call(0, {}, map_bits=1 << n)[:4])
    for kind in range(8):
        yield entry(CALL, b"\x00\x00\x00\x00" + bytes([kind]))
        for n in LEG:
            yield entry(CALL, call(kind, {n: ONE}))
            yield entry(CALL, call(kind, {n: ONE})[:6])
        for regime in (2, 128, 255):
            yield entry(CALL, call(kind, {}, regime))
            yield entry(CALL, call(kind, {2: ONE}, regime)[:-1])
    for kind in (7, 9, 128, 255):
        yield entry(CALL, call(kind, {2: ONE}))
        yield entry(CALL, call(kind, {2: ONE})[:-1])


def buffers():
    record = call(3, {2: ONE, 20: 0, 21: MINUS_0}, 0)
    size = len(record)
    for room in (1, 3, 4, size - 1, size, size + 1):
        for to in (0, 1, room - 1, room, room + 1, 255):
            yield entry(CALL, record, to=max(to, 0), room=room)
    for to in range(12):
        yield entry(CALL, record, to=to, room=to + size)
        yield entry(CALL, record, to=to, room=to + size - 1)


def configurations(default):
    yield entry(CONFIG, config({}))
    yield entry(CONFIG, config(default), room=5)
    for n in range(33):
        for bits in (default[n], default[n] ^ 1, default[n] ^ MINUS_0, 0, MINUS_0, *NANS[:3]):
            yield entry(CONFIG, config({n: bits}), room=12, to=1)
    every = config({n: plain(n) for n in range(33)})
    for room in (len(every) - 1, len(every), len(every) + 1):
        yield entry(CONFIG, every, room=room)
        yield entry(CONFIG, every, to=1, room=room)
    for n in (*range(6), len(every) - 1):
        yield entry(CONFIG, every[:n])
    for n in range(33, 40):
        yield entry(CONFIG, config({}, 1 << n))
        yield entry(CONFIG, config({0: ONE}, 1 << n)[:7])
    for place in (5, 6, 254, 255):
        yield entry(CONFIG, config({}), place=place)
        yield entry(CONFIG, config({}), to=place, room=5)


def example():
    """Document 01's recording."""
    yield entry(CONFIG, bytes.fromhex("0000000000"))
    for text in ("050000000500 00803f", "3d000000040000803f0000803f000000bf00000040", "0100000005", "05181000030000803f0000807f0000803f00000000"):
        yield entry(CALL, bytes.fromhex(text))


def main():
    oracle = sys.argv[1]
    folder = pathlib.Path(sys.argv[2]) if len(sys.argv) > 2 else CRATE

    def run(*words, given=b""):
        return subprocess.run([oracle, *words], input=given, stdout=subprocess.PIPE, check=True).stdout

    default = DEFAULT
    drawn = run("generate", "records", "1", "300")
    entries = b"".join([*example(), *kinds(), *refusals(), *buffers(), *configurations(default), drawn])
    (folder / "data").mkdir(parents=True, exist_ok=True)
    (folder / "data/entries").write_bytes(entries)
    # the program ends the line of an empty buffer with a space
    (folder / "stdout").write_bytes(run("records", given=entries).replace(b" refused 8\n", b" refused 8 \n"))


# The Default values, from document 01 and the Rust.
DEFAULT = dict(enumerate([
    0x3F490FDB, 0x3EB2B8C2, 0x3EDF66F3, 0x40490FDB, 0x40490FDB, 0, 0, 0x3F000000, 0x41400000, 0x3F400000, 0x42200000,
    0x3D4CCCCD, 0x3C23D70A, 0x41A00000, 0x40A00000, 0x40A00000, 0x40000000, 0x40A00000, 0x3F000000, 0x3E99999A, 0x3E99999A,
    0x3E4CCCCD, 0x3F800000, 0x41200000, 0x41200000, 0x41C80000, 0x3F666666, 0x40400000, 0x3F000000, 0x3F800000, 0x3E4CCCCD,
    0x3F800000, 0x3F000000,
]))

if __name__ == "__main__":
    main()
