"""A recording as target/host/page replays it through the archive: moments, the stall guard and the turn to come at each call."""

from typing import NamedTuple

from nuthkolla import files, programs
from nuthkolla.ahead import told
from nuthkolla.flight import moments
from nuthkolla.numbers import to_text
from nuthkolla.recorded import matched
from nuthkolla.words import ending_words


class Turn(NamedTuple):
    """The turn to come at a call: north and east of each point as two f32, low byte first, and in words how far it goes."""

    points: bytes
    words: str


class Replay(NamedTuple):
    """A recording's name and bytes, and what the archive says of its calls: the desk program's lines, guard and turn by call.

    recording: what nuthkolla.record reads of the bytes; ending: in words why the replay ended before the recording's end; empty where it did not.
    """

    name: str
    data: bytes
    recording: tuple
    flown: list
    lines: list
    guard: list
    turns: list
    ending: str

    @property
    def configuration(self):
        return self.recording[0]


def turn_of(words, call):
    """A line `path STEPS DRAWN STOPPED REASON POINTS`; of a call that is no waypoint there is none."""
    if not words:
        return Turn(b"", "none: it is drawn of waypoint calls")
    drawn, stopped, reason = map(int, words[2:5])
    each = f", {to_text(call.numbers['dt'][0])} s each" if drawn else ""
    return Turn(bytes.fromhex("".join(words[5:])), told(drawn, stopped, reason) + each)


def read_replay(name, data, seconds):
    """seconds: how far ahead the turns to come reach."""
    lines, guard, paths = [], [], []
    for line in files.run([*programs.page_command(), "flight", str(seconds)], data).out.decode().splitlines():
        if line.startswith("guard "):
            guard.append(line == "guard 1")
        elif line.startswith("path "):
            paths[-1] = line.split()
        else:
            lines.append(line)
            paths.append([])
    recording, (answers, ending) = matched(data, "\n".join(lines))
    flown = moments(recording[1], answers)
    turns = [turn_of(words, moment.call) for words, moment in zip(paths, flown)]
    words = ending_words(ending, recording, data) if ending else ""
    return Replay(name, data, recording, flown, lines[: len(flown)], guard, turns, words)
