"""The style of drawings: for print and light screens, and for dark screens."""

# Light colours, for print and for screens by day; the second set by night. Each pair of classes differs by shape or by
# dashes too.
COLOURS = {
    "paper": ("#ffffff", "#14181d"),
    "ink": ("#1b1f24", "#e8eaed"),
    "soft": ("#56606b", "#b4bcc6"),
    "grid": ("#dde1e6", "#30373f"),
    "line": ("#1f5fa8", "#7fb8ff"),
    "aim": ("#2b6e33", "#8fd694"),
    "fallback": ("#8a5300", "#ffc46b"),
    "hold": ("#6b3fa0", "#cbaeff"),
    "refused": ("#b3261e", "#ff8f85"),
    "ahead": ("#a3195b", "#ff9ccf"),
    "other": ("#8a4b08", "#f0b27a"),
    "raised": ("#f2f4f7", "#1e242b"),
    "focus": ("#0b57d0", "#ffd54a"),
}

# Classes, and the colours of their lines and of what they fill.
STROKES = {
    ".grid": "grid",
    ".line": "line",
    ".aim, .demand": "aim",
    ".fallback, .guard, .hatching": "fallback",
    ".hold": "hold",
    ".refused": "refused",
    ".ahead": "ahead",
    ".frame, .tick, .ring": "soft",
    ".limit": "ink",
    ".over": "paper",
}
FILLS = {
    ".paper": "paper",
    ".ink": "ink",
    ".soft": "soft",
    ".energy, .way": "line",
    ".head": "aim",
    ".tip": "ahead",
    ".fallback": "paper",
    ".hold": "hold",
    ".span": "grid",
    ".guard": "fallback",
}
# What stands on a page alone.
PAGE_STROKES = {".plane": "paper", ".cursor": "ink", ".other": "other", ".route": "ink", ".parting": "refused"}
PAGE_FILLS = {".plane": "ink", ".pointer": "ink", ".route": "paper", ".other.way": "paper"}
DAY, NIGHT = 0, 1


def colours(side, under="", tables=(STROKES, FILLS)):
    """The rules of a side; under: what a selector has to stand under."""
    rules = []
    for word, table in zip(("stroke", "fill"), tables):
        for names, colour in table.items():
            names = ", ".join(f"{under}{name}" for name in names.split(", "))
            rules.append(f"{names} {{ {word}: {COLOURS[colour][side]}; }}")
    return "\n".join(rules)


SHAPES = """
text { font-family: "DejaVu Sans", Verdana, Arial, sans-serif; font-size: 13px; }
.title { font-size: 21px; font-weight: bold; }
.name { font-weight: bold; }
.small { font-size: 12px; }
.over { paint-order: stroke; stroke-width: 3; stroke-linejoin: round; }
.middle { text-anchor: middle; }
.end { text-anchor: end; }
.frame, .grid, .tick, .aim, .line, .limit, .demand, .mark, .place, .ring, .ahead, .hatching { fill: none; }
.frame, .grid, .tick { stroke-width: 1; }
.line { stroke-width: 1.6; stroke-linejoin: round; }
.track { stroke-width: 1; }
.ahead { stroke-width: 2; stroke-dasharray: 4 2; stroke-linejoin: round; }
.aim { stroke-width: 1.6; stroke-dasharray: 9 4; }
.centre { stroke-dasharray: none; }
.limit { stroke-width: 1.2; stroke-dasharray: 3 3; }
.demand { stroke-width: 1.4; stroke-dasharray: 9 4; }
.refused { stroke-width: 2; fill: none; }
.fallback { stroke-width: 1.4; }
.hold { stroke-width: 1; }
.ring { stroke-width: 1; stroke-dasharray: 3 2; }
.span { stroke: none; }
.guard { stroke-width: 1; fill-opacity: 0.15; }
.hatching { stroke-width: 1; stroke-opacity: 0.6; }
.through { stroke-width: 1; stroke-dasharray: 1 4; }
"""


def style():
    """For a drawing of its own."""
    dark = f"@media screen and (prefers-color-scheme: dark) {{\n{colours(NIGHT)}\n}}"
    return f"{SHAPES}{colours(DAY)}\n{dark}\n"


PAGE_SHAPES = """
.other { fill: none; stroke-width: 1.8; stroke-dasharray: 2 3; }
.other.way { stroke-width: 1.2; stroke-dasharray: none; }
.plane { stroke-width: 1.5; stroke-linejoin: round; }
.cursor { fill: none; stroke-width: 1.5; }
.route { stroke-width: 1.6; }
.parting { fill: none; stroke-width: 2.5; }
"""


def variables(side):
    return " ".join(f"--{name}: {pair[side]};" for name, pair in COLOURS.items())


def themed_style():
    """For a page whose root names its theme: its colours as variables, and the rules of its drawings."""
    parts = [SHAPES, PAGE_SHAPES]
    for side, root in ((DAY, ":root"), (NIGHT, ":root[data-theme=night]")):
        under = f"{root} " if side == NIGHT else ""
        parts += [f"{root} {{ {variables(side)} }}", colours(side, under), colours(side, under, (PAGE_STROKES, PAGE_FILLS))]
    return "\n".join(parts) + "\n"
