"""How the tools begin and end. Status 0: the recording was read to its end; 1: it stopped or was refused, or two recordings part; 2: the
tool could not do its work, which a line on standard error says."""

import argparse
import os
import signal
import sys
import traceback

from nuthkolla import files

READ, STOPPED, FAILED = 0, 1, 2


class Parser(argparse.ArgumentParser):
    """The arguments of a word of ./desk; wrong ones are told in one line."""

    def __init__(self, word, text, **more):
        super().__init__(prog=f"./desk {word}", description=text, formatter_class=argparse.RawDescriptionHelpFormatter, **more)
        self.word = word

    def error(self, message):
        raise files.Failure(f"{message} (./desk {self.word} --help)")


def end_by(number, _):
    raise SystemExit(128 + number)


def fault_words(problem):
    """A fault of the tool itself, on a line: what and where."""
    place = traceback.extract_tb(problem.__traceback__)[-1]
    return f"a fault of the tool itself: {type(problem).__name__}: {problem} ({os.path.basename(place.filename)}, line {place.lineno})"


def run(word, main, problems=()):
    """Runs main, which gives the status. problems: exceptions that are told as a line, beside Failure and those of files."""
    files.hold_standard()
    for number in (signal.SIGTERM, signal.SIGHUP):
        signal.signal(number, end_by)  # so that what was begun is taken away
    status, said = FAILED, None
    try:
        status = main() or READ
        files.print_bytes(b"")
    except SystemExit as exit_:
        status = exit_.code or READ
        if isinstance(status, str):
            files.complain(status)
            status = STOPPED
    except KeyboardInterrupt:
        status = 130
    except (files.Failure, *problems) as problem:
        said = problem
    except OSError as problem:
        said = f"{problem.filename or 'input or output'}: {problem.strerror}"
    except MemoryError:
        said = "there is too little memory"
    except Exception as problem:
        said = fault_words(problem)
    if said:
        status = FAILED
        files.complain(f"{word}: {said}".replace("\n", " "))
        files.drop_output()
    sys.exit(flushed(word, status))


def flushed(word, status):
    """The status, with what argparse has printed gone out; where it cannot go, it is dropped."""
    try:
        if sys.stdout:
            sys.stdout.flush()
    except BrokenPipeError:
        files.drop_output()
    except OSError as problem:
        files.drop_output()
        files.complain(f"{word}: standard output cannot be written: {problem.strerror}")
        return FAILED
    return status
