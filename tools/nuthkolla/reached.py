"""What the calls of a comparison reached: counts over compared lines, and the oracle's counts of ways."""

from collections import Counter

# What can stand in a line of answers, and of records.
WAYPOINTS = [f"{lateral} {vertical}" for lateral in ("track", "loiter", "idle") for vertical in ("energy", "hold", "fallback")]
ANSWERS = {
    **{laws: f" {laws} " for laws in WAYPOINTS},
    "plane": " plane ",
    "rate": " rate ",
    "prime": " prime\n",
    "set": " set\n",
    "back": " back\n",
    "refused 1, set": " refused 1 ",
    "refused 1, first configuration": "config refused ",
    **{f"refused {number}": f" refused {number}\n" for number in (2, 3, 4, 14)},
    **{f"stopped {number}, configuration": f"config stopped {number}\n" for number in (5, 6)},
    **{f"stopped {number}": f" stopped {number}\n" for number in (5, 6, 7, 9)},
}
RECORDS = {
    "read and written": " wrote ",
    "read, refused 8": " refused 8",
    **{f"refused {number}": f" refused {number}\n" for number in (5, 6, 7)},
}

PATHS = {
    "whole": " whole",
    "stopped, not finite": " not-finite",
    **{f"stopped, refused {number}": f" refused {number}" for number in (2, 3, 4)},
    **{f"refused {number}": f" refused {number}" for number in (8, 12)},
}

# The oracle's sections of counts, with every name that must be met.
SECTIONS = {
    "answers": [name for name in ANSWERS if not name.startswith(("set", "back", "stopped", "refused 1"))],
    "caps": ["+0", "-0", "NaN", "above 0", "below 0", "none"],
    "commands": ["absolute attitude", "absolute rate", "attitude", "land", "prime", "rate", "waypoint"],
    "configurations": [*(f"refused, field {field:2}" for field in range(1, 36)), "set", "taken", "taken back", "refused 14"],
    "energy steps": ["first step, no underspeed", "later step, no underspeed", "later step, underspeed stood"],
    "fallbacks": ["airspeed NaN", "airspeed below 0", "cruise speed NaN", "cruise speed not above 0", "no airspeed"],
    "holds": [
        *(f"{name} not finite" for name in ("airspeed", "altitude", "climb", "height", "target")),
        "energy state kept",
        "nothing to keep",
    ],
    "idle": ["short leg", *(f"ground speed {speed}, {leg}" for speed in ("NaN", "below 1") for leg in ("on a leg", "no leg"))],
    "legs": ["finite", "finite, length overflows", "finite, length up to 1e-6", "none", "not finite"],
    "records": [*(f"call stopped {number}" for number in (5, 6, 7)), *(f"configuration stopped {number}" for number in (5, 6))],
}
SECTIONS["ties"] = [f"{law}, {zero}" for law in ("leg", "tangent") for zero in ("+0", "-0")]
SECTIONS["distances"] = ["idle, zero", *(f"{law}, {side}" for law in ("track", "loiter") for side in ("NaN", "infinite", "zero", "right", "left"))]
BESIDE = "beside the Rust's own min, max and clamp"


def of_lines(patterns, lines):
    """How many lines have each name; "stopped 5" alone is a call's."""
    found = Counter({name: lines.count(pattern.encode()) for name, pattern in patterns.items()})
    for number in (5, 6):
        found[f"stopped {number}"] -= found[f"stopped {number}, configuration"]
    return Counter({name: found[name] for name in patterns})


def of_sections(text):
    """The counts of each section, names that were never met as 0."""
    counts = {f"{section}: {name}": 0 for section, names in SECTIONS.items() for name in names}
    for block in text.strip("\n").split("\n\n"):
        section, *lines = block.split("\n")
        for line in lines if section != BESIDE else []:
            count, name = line.strip().split("  ", 1)
            if f"{section}: {name}" not in counts:
                raise ValueError(f"{section}: {name} is not listed in SECTIONS")
            counts[f"{section}: {name}"] = int(count)
    return counts


def of_places(text, unreachable):
    """The counts of each way at each place of the published text and the arithmetic, but for those that none can take."""
    counts = {}
    lines = text.strip("\n").split("\n")
    for place, ways in zip(lines[::2], lines[1::2]):
        for way in ways.strip().split(", "):
            name, count = way.rsplit(" ", 1)
            name = f"{place.split()[0]} {name.replace(' ', '-')}"
            if name not in unreachable:
                counts[name] = int(count)
            elif int(count) != 0:
                raise ValueError(f"{name} is listed as unreachable and was taken")
    return counts


def of_report(report, unreachable_rows):
    """All counts of an oracle's report that could be other than 0."""
    unreachable = {" ".join(row.split()[:2]) for row in unreachable_rows if not row.startswith("#")}
    sections, rest = report.split("\nplaces\n")
    places = rest.split("\nnever taken\n")[0]
    return {**of_sections(sections), **of_places(places, unreachable)}


# ---- records: which of document 01's rules an entry meets

KINDS = 7
CALL_BITS, FIELDS = 22, 33
USED_BY = {0: 0x000001, 1: 0x00003F, 2: 0x00007F, 3: 0x3FFF87, 4: 0x00003F, 5: 0x000007, 6: 0x00007F}
READER = ["place past the end", "map cut short", "unnamed bit", "fields cut short"]
WRITER = ["place past the buffer", "too few bytes", "exactly full", "room left"]
ENTRIES = [
    *(f"configuration, {name}" for name in [*READER, *WRITER, *(f"field {field}" for field in range(1, FIELDS + 1))]),
    *(f"call, {name}" for name in [*READER, *WRITER, "no kind bit", "half a leg", "kind above 6", "regime above 1"]),
    *(f"call, kind {kind}" for kind in range(KINDS)),
    *(f"call, bit {bit}" for bit in range(1, CALL_BITS)),
    "call, unused field stands",
]


def reader_ways(entry):
    """The rules that a reader meets, by name: those of one refusal, or what is read."""
    configuration, place, data = entry[0] == 1, entry[1], entry[5:]
    map_bytes, bits = (5, FIELDS) if configuration else (4, CALL_BITS)
    if place > len(data):
        return ["place past the end"]
    if len(data) - place < map_bytes:
        return ["map cut short"]
    bit_map = int.from_bytes(data[place : place + map_bytes], "little")
    faults = ["unnamed bit"] if bit_map >> bits else []
    if not configuration:
        faults += [] if bit_map & 1 else ["no kind bit"]
        faults += ["half a leg"] if bit_map >> 9 & 3 in (1, 2) else []
    if faults:
        return faults
    single = 0 if configuration else (bit_map & 3).bit_count()
    if len(data) - place - map_bytes < 4 * bit_map.bit_count() - 3 * single:
        return ["fields cut short"]
    if configuration:
        return [f"field {bit + 1}" for bit in range(FIELDS) if bit_map >> bit & 1]
    return call_ways(bit_map, data[place + map_bytes :])


def call_ways(bit_map, body):
    """The same of a call whose bytes are all there."""
    kind, regime = body[0], body[1] if bit_map & 2 else 1
    faults = ["kind above 6"] * (kind >= KINDS) + ["regime above 1"] * (regime > 1)
    if faults:
        return faults
    standing = [f"bit {bit}" for bit in range(1, CALL_BITS) if bit_map >> bit & 1]
    return [f"kind {kind}", *standing, *["unused field stands"] * (bit_map & ~USED_BY[kind] != 0)]


def writer_way(entry, line):
    """The rule that the writer meets, if there is something to write."""
    words, room = line.split(), entry[3]
    if words[1] != b"read":
        return []
    if words[3] == b"refused":
        return ["place past the buffer" if entry[2] > room else "too few bytes"]
    return ["exactly full" if int(words[4]) == room else "room left"]


def of_entries(items, lines):
    """How many entries met each rule; the lines are the oracle's for them."""
    found = Counter({name: 0 for name in ENTRIES})
    for entry, line in zip(items, lines, strict=True):
        what = "configuration" if entry[0] == 1 else "call"
        found.update(f"{what}, {name}" for name in [*reader_ways(entry), *writer_way(entry, line)])
    return found
