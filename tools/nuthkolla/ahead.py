"""The turn to come at a call of a recording: the path that the library draws, and in words where it stopped."""

from typing import NamedTuple

from nuthkolla import files, programs
from nuthkolla.numbers import value
from nuthkolla.refusals import CALL

MOST_STEPS = 600


class Ahead(NamedTuple):
    """The path ahead of a call: places north and east, that of the call itself first."""

    number: int
    places: list
    words: str


def told(drawn, step, reason):
    """How far a path goes."""
    if step == 0:
        return f"{drawn} steps"
    why = f"is refused: {CALL[reason]}" if reason else "has a position or a velocity that is not finite"
    return f"{drawn} steps; step {step} {why}"


def read_ahead(data, flown, number, steps):
    """The path of so many steps at a call."""
    if not any(moment.number == number and moment.call.kind == "waypoint" for moment in flown):
        raise files.Failure(f"the recording has no waypoint call {number}")
    if not 1 <= steps <= MOST_STEPS:
        raise files.Failure(f"a path has 1 to {MOST_STEPS} steps")
    command, drawer = programs.path_command(number, steps)
    lines = files.run(command, data).out.decode().splitlines()
    _, drawn, step, reason = map(int, lines[0].split()[1:])
    places = [tuple(value(int(word, 16)) for word in line.split()[:2]) for line in lines[1:]]
    here = [moment.place for moment in flown if moment.number == number and moment.place]
    return Ahead(number, here + places, f"{told(drawn, step, reason)}; drawn by {drawer}")
