"""Whether two recordings tell one story, as the archive says it (document 02, K13), in words."""

from typing import NamedTuple

from nuthkolla import files, programs
from nuthkolla.text import numbers_text
from nuthkolla.words import command_words, ending_words


class Agreement(NamedTuple):
    """title and sentences; calls: the call of each recording at which they part, 0 where there is none; parted: whether they do."""

    title: str
    words: list
    calls: tuple
    parted: bool = True


def field_words(call, name):
    """A field as the text form has it."""
    if name == "regime":
        return call.regime
    return numbers_text(call.numbers[name]) if name in call.numbers else "none"


def apart_words(replays, numbers):
    """What two calls ask for, and in what they differ."""
    one, other = calls = [replay.flown[number - 1].call for replay, number in zip(replays, numbers)]
    if one.kind != other.kind:
        return [f"{replay.name}: {command_words(call)}." for replay, call in zip(replays, calls)]
    names = [name for name in {**one.numbers, **other.numbers} if one.numbers.get(name) != other.numbers.get(name)]
    names += ["regime"] if one.regime != other.regime else []
    apart = [f"{name} is {field_words(one, name)} in {replays[0].name}, {field_words(other, name)} in {replays[1].name}" for name in names]
    return [f"{replays[0].name}: {command_words(one)}.", f"They differ: {'; '.join(apart)}."]


def parted(replays, calls):
    if calls == (0, 0):
        names = [name for name in replays[0].configuration if replays[0].configuration[name] != replays[1].configuration[name]]
        return Agreement("The stories part: the configurations differ", [f"They differ in {', '.join(names)}."], calls)
    words = ["Refused calls, and holds that leave no trace, are not counted."]
    if all(calls):
        title = f"The stories part at call {calls[0]} of {replays[0].name} and call {calls[1]} of {replays[1].name}"
        return Agreement(title, words + apart_words(replays, calls), calls)
    longer = replays[0] if calls[0] else replays[1]
    told = f"Call {max(calls)} of {longer.name}: {command_words(longer.flown[max(calls) - 1].call)}."
    return Agreement(f"The stories part: {longer.name} goes on at call {max(calls)}, the other has ended", [*words, told], calls)


def read_agreement(box, display):
    """box, display: the replays of the two recordings."""
    data = b"".join(len(replay.data).to_bytes(4, "little") + replay.data for replay in (box, display))
    words = files.run([*programs.page_command(), "agree"], data).out.decode().split()
    if words == ["agree"]:
        told = "Every call that leaves a trace is the same in both, and so is its answer."
        return Agreement("The recordings tell one story", [told], (0, 0), False)
    if words[0] == "part":
        return parted((box, display), tuple(map(int, words[1:])))
    refused = box if words[0] == "box" else display
    why = ending_words(words[1:], refused.recording, refused.data)
    return Agreement(f"Not compared: {refused.name} cannot be read to its end", [f"{refused.name}: {why}."], (0, 0), False)
