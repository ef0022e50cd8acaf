"""Generated recordings with wild numbers, and the bytes that document 01's writer gives for them.

Written from document 01 without the code that it checks.
"""

import struct

NAN = 0x7FC00000

# ---- document 01's maps, written here a second time

CONFIGURATION_FIELDS = 33
CALL_FIELDS = 22
KIND, REGIME, LEG, AIRSPEED, CAP = 0, 1, (9, 10), 20, 21
WHENEVER_PRESENT = {*LEG, AIRSPEED, CAP}
USED = {
    0: set(),
    1: {1, 2, 3, 4, 5},
    2: {1, 2, 3, 4, 5, 6},
    3: {1, 2, *range(7, 22)},
    4: {1, 2, 3, 4, 5},
    5: {1, 2},
    6: {1, 2, 3, 4, 5, 6},
}
# The Default values as bits, from the published Rust and DEG = PI / 180.
DEFAULTS = """
    3f490fdb 3eb2b8c2 3edf66f3 40490fdb 40490fdb 00000000 00000000 3f000000 41400000 3f400000 42200000
    3d4ccccd 3c23d70a 41a00000 40a00000 40a00000 40000000 40a00000 3f000000 3e99999a 3e99999a 3e4ccccd
    3f800000 41200000 41200000 41c80000 3f666666 40400000 3f000000 3f800000 3e4ccccd 3f800000 3f000000
"""
DEFAULTS = [int(word, 16) for word in DEFAULTS.split()]


def packed(fields, map_bytes):
    """A record with exactly these fields: bit to (value, size)."""
    data = sum(1 << bit for bit in fields).to_bytes(map_bytes, "little")
    for bit in sorted(fields):
        number, size = fields[bit]
        data += number.to_bytes(size, "little")
    return data


def plain(number):
    return NAN if number & 0x7FFFFFFF > 0x7F800000 else number


def written_configuration(fields):
    kept = {bit: (plain(n), 4) for bit, (n, _) in fields.items() if plain(n) != DEFAULTS[bit]}
    return packed(kept, 5)


def written_call(fields):
    kind = fields[KIND][0]
    kept = {KIND: (kind, 1)}
    for bit in USED[kind] & fields.keys():
        number, size = fields[bit]
        if bit == REGIME:
            stands = number == 0
        else:
            number = plain(number)
            stands = bit in WHENEVER_PRESENT or number != 0
        if stands:
            kept[bit] = (number, size)
    return packed(kept, 4)


# ---- generated fields

SPECIAL = [0, 0x80000000, 0x7F800000, 0xFF800000, NAN, 0xFFFFFFFF, 0x7F800001, 1, 0x007FFFFF, 0x00800000]
SPECIAL += [0x7F7FFFFF, 0x3F800000, 0xBF800000, 0x3DCCCCCD, 0x7FC00001]


def wild_number(rng):
    choice = rng.randrange(4)
    if choice == 0:
        return rng.choice(SPECIAL)
    if choice == 1:
        decimal = round(rng.uniform(-1000, 1000), rng.randrange(4))
        return int.from_bytes(struct.pack("<f", decimal), "little")
    if choice == 2:
        return rng.randrange(512) << 23 | rng.randrange(2)  # a power of two, or the next number
    return rng.getrandbits(32)


def wild_configuration(rng):
    share = rng.choice([0, 0.1, 0.9])
    fields = {}
    for bit in range(CONFIGURATION_FIELDS):
        if rng.random() < share:
            fields[bit] = (DEFAULTS[bit] if rng.random() < 0.2 else wild_number(rng), 4)
    return fields


def wild_call(rng):
    kind = rng.randrange(7)
    fields = {KIND: (kind, 1)}
    unused = rng.choice([0, 0, 0.3])
    for bit in range(1, CALL_FIELDS):
        if rng.random() < (0.6 if bit in USED[kind] else unused):
            fields[bit] = (rng.randrange(2), 1) if bit == REGIME else (wild_number(rng), 4)
    if (LEG[0] in fields) != (LEG[1] in fields):
        for bit in LEG:
            fields[bit] = (wild_number(rng), 4)
    return fields
