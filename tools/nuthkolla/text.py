"""The text form of a recording: the configuration, then a line a call."""

from nuthkolla.numbers import NotANumber, from_text, to_text
from nuthkolla.record import CONFIGURATION, KINDS, REGIMES, USED, Call

CONFIG = "config"
BYTE_ORDER_MARK = "\ufeff"


class BadText(Exception):
    """A line that cannot be read, and why."""

    def __init__(self, line, reason):
        super().__init__(f"line {line}: {reason}")
        self.line = line


# ---- writing


def numbers_text(numbers):
    return ",".join(map(to_text, numbers))


def configuration_text(configuration):
    changed = (name for name, default in CONFIGURATION.items() if configuration[name] != default)
    return " ".join([CONFIG, *(f"{name}={to_text(configuration[name])}" for name in changed)])


def call_text(call):
    """A call's line. What missing would give is left out, as in a record."""
    words = [call.kind]
    for field in USED[call.kind]:
        numbers = call.numbers.get(field.name, ())
        if any(numbers) or numbers and field.optional:
            words.append(f"{field.name}={numbers_text(numbers)}")
    if call.regime == "copter":
        words.append("regime=copter")
    return " ".join(words)


def recording_text(configuration, calls):
    lines = [configuration_text(configuration), *map(call_text, calls)]
    return "".join(line + "\n" for line in lines)


# ---- reading


def fields_of(words):
    """The words name=value as a dictionary."""
    fields = {}
    for word in words:
        name, equals, text = word.partition("=")
        if not equals or not name:
            raise ValueError(f"{word!r} is not of the form name=value")
        if name in fields:
            raise ValueError(f"{name} is given twice")
        fields[name] = text
    return fields


def check_names(fields, what, allowed):
    for name in fields:
        if name not in allowed:
            known = f"its fields are {', '.join(allowed)}" if allowed else "it takes none"
            raise ValueError(f"{what} has no field {name!r}; {known}")


def numbers_of(name, text, count):
    parts = text.split(",")
    if len(parts) != count:
        wanted = "one number" if count == 1 else f"{count} numbers with commas between them"
        raise ValueError(f"{name} takes {wanted}, not {text!r}")
    try:
        return tuple(map(from_text, parts))
    except NotANumber as problem:
        raise ValueError(f"{name}: {problem}") from None


def configuration_of(words):
    fields = fields_of(words)
    check_names(fields, CONFIG, CONFIGURATION)
    given = {name: numbers_of(name, text, 1)[0] for name, text in fields.items()}
    return CONFIGURATION | given


def call_of(kind, words):
    if kind == CONFIG:
        raise ValueError("a recording has one configuration, before its first call")
    if kind not in KINDS:
        raise ValueError(f"{kind!r} is no kind of call; the kinds are {', '.join(KINDS)}")
    fields = fields_of(words)
    used = USED[kind]
    names = [field.name for field in used]
    check_names(fields, kind, names + ["regime"] if used else [])
    regime = fields.pop("regime", "plane")
    if regime not in REGIMES:
        raise ValueError(f"regime is copter or plane, not {regime!r}")
    numbers = {field.name: (0,) * field.count for field in used if not field.optional}
    for field in used:
        if field.name in fields:
            numbers[field.name] = numbers_of(field.name, fields[field.name], field.count)
    return Call(kind, regime, numbers)


def read_text(text):
    """The configuration, and the calls with the numbers of their lines. A byte-order mark is passed over."""
    configuration, calls, last = None, [], 1
    for last, line in enumerate(text.removeprefix(BYTE_ORDER_MARK).split("\n"), 1):
        words = line.partition("#")[0].split()
        if not words:
            continue
        try:
            if configuration is not None:
                calls.append((last, call_of(words[0], words[1:])))
            elif words[0] == CONFIG:
                configuration = configuration_of(words[1:])
            else:
                raise ValueError(f"the first line is the configuration ({CONFIG} ..), not {words[0]!r}")
        except ValueError as problem:
            raise BadText(last, problem) from None
    if configuration is None:
        raise BadText(last, f"the text ends without a configuration ({CONFIG} ..)")
    return configuration, calls
