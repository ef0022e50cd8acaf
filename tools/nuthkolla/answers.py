"""The desk program's lines: the answers to a recording's calls."""

import re
from typing import NamedTuple

from nuthkolla.record import MOST_CALLS
from nuthkolla.settings import first_failing

NUMBERS = {"plane": 3, "rate": 4, "prime": 0}
LATERAL = ("track", "loiter", "idle")
VERTICAL = ("energy", "hold", "fallback")
WORD = re.compile(r"[0-9a-f]{8}", re.ASCII)
ENDING = re.compile(r"config refused ([1-9]|[12][0-9]|3[0-5])|config stopped [56]|[0-9]+ stopped [5679]", re.ASCII)

# Which answers a kind of call may get, beside a refusal.
ANSWERS_TO = {
    "prime": "prime",
    "attitude": "plane",
    "absolute-attitude": "plane",
    "land": "plane",
    "rate": "rate",
    "absolute-rate": "rate",
    "waypoint": "waypoint",
}


class BadLines(Exception):
    """Lines that the desk program does not print, or that answer another recording."""


class Answer(NamedTuple):
    """One line. kind: plane, rate, prime, waypoint or refused; numbers: bits; laws: the two names of a waypoint's."""

    kind: str
    numbers: tuple = ()
    laws: tuple = ()
    refusal: int = 0


def words_to_numbers(words, count):
    if len(words) != count or not all(map(WORD.fullmatch, words)):
        raise ValueError(f"{count} numbers of 8 hexadecimal digits should stand here")
    return tuple(int(word, 16) for word in words)


def answer_of(words):
    first = words[0]
    if first in NUMBERS:
        return Answer(first, words_to_numbers(words[1:], NUMBERS[first]))
    if first in LATERAL and words[1:2] and words[1] in VERTICAL:
        return Answer("waypoint", words_to_numbers(words[2:], 4), tuple(words[:2]))
    if first == "refused" and len(words) == 2 and words[1] in ("2", "3", "4"):
        return Answer("refused", refusal=int(words[1]))
    raise ValueError("this is no line of the desk program")


def ends(words, n):
    """Whether line n is one that ends a replay early."""
    return words and bool(ENDING.fullmatch(" ".join(words))) and (words[0] == str(n) or words[0] == "config" and n == 1)


def read_lines(text):
    """The answers in order, and the words of the line that ended them early, or none."""
    answers = []
    for n, line in enumerate(text.splitlines(), 1):
        words = line.split()
        if ends(words, n):
            return answers, words
        try:
            if len(words) < 2 or words[0] != str(n):
                raise ValueError(f"the answer to call {n} should stand here")
            answers.append(answer_of(words[1:]))
        except ValueError as problem:
            raise BadLines(f"line {n} of the answers: {problem}") from None
    return answers, None


def configuration_ending(configuration, refusal):
    """How a replay ends before any call, as a line says it; none where the configuration passes."""
    if configuration is None:
        return ["config", "stopped", str(refusal.number)]
    failing = first_failing(configuration)
    return ["config", "refused", str(failing)] if failing else None


def check_match(recording, lines):
    """Fails unless these lines, as read_lines gives them, answer this recording, as read_recording gives it."""
    configuration, calls, refusal = recording
    answers, ending = lines
    wanted = configuration_ending(configuration, refusal)
    if wanted != (ending if ending and ending[0] == "config" else None):
        raise BadLines("the configuration does not fit the lines")
    if wanted:
        return
    read = min(len(calls), MOST_CALLS)
    if len(answers) != read:
        raise BadLines(f"there are {len(answers)} answers to {read} calls")
    for n, (call, answer) in enumerate(zip(calls, answers), 1):
        if answer.kind not in (ANSWERS_TO[call.kind], "refused"):
            raise BadLines(f"call {n} is of kind {call.kind}, its answer of kind {answer.kind}")
