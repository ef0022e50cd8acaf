"""A recording's file and its answers, read as a flight."""

import os

from nuthkolla import files, programs
from nuthkolla.answers import check_match, read_lines
from nuthkolla.flight import moments
from nuthkolla.record import MOST_BYTES, read_recording, recording_bytes
from nuthkolla.text import BadText, read_text
from nuthkolla.words import ending_words


class NothingToDraw(Exception):
    """A recording without answers. ending: in words why it was not read to its end; empty where it was, and has no calls."""

    def __init__(self, ending):
        super().__init__(ending or "the recording has no calls: there is nothing to draw")
        self.ending = ending


def encoded(name, text):
    """The bytes of a text form."""
    try:
        configuration, calls = read_text(text)
    except BadText as problem:
        raise files.Failure(f"{files.named(name)}, {problem}") from None
    return recording_bytes(configuration, [call for _, call in calls])


def bytes_of(name, most=MOST_BYTES):
    """A recording's bytes, of a text form those that it stands for: of either as many as can decide anything, or so many."""
    if os.fspath(name).endswith(".txt"):
        return encoded(name, files.read_text_file(name))[:most]
    return files.read_bytes(name, most)


def desk_lines(data):
    """The desk program's lines, or the oracle's in its place."""
    return files.run(programs.desk_command(), data).out.decode()


def read_flight(recording_file, lines_file):
    """The flight of a recording's file and of its lines, which the desk program prints where there is no file of them."""
    data = bytes_of(recording_file)
    return data, *flight_of(data, files.read_text_file(lines_file) if lines_file else desk_lines(data))


def matched(data, lines):
    """What is read of a recording and of its lines, which have to answer it."""
    recording, found = read_recording(data), read_lines(lines)
    check_match(recording, found)
    return recording, found


def flight_of(data, lines):
    """The configuration, the moments, and in words why the replay ended early; empty where it did not."""
    recording, (answers, ending) = matched(data, lines)
    words = ending_words(ending, recording, data) if ending else ""
    if not answers:
        raise NothingToDraw(words)
    configuration, calls, _ = recording
    return configuration, moments(calls, answers), words
