"""What every tool does with files and programs: reads within a bound, runs and looks at how it ended, writes whole or not at all.

What cannot be done is a Failure, one line, which nuthkolla.command tells; the tool ends with status 2.
"""

import contextlib
import os
import pathlib
import secrets
import signal
import stat
import subprocess
import sys
from typing import NamedTuple

ROOT = pathlib.Path(__file__).resolve().parent.parent.parent
STANDARD = "-"  # the name of standard input, and of standard output
MOST_TEXT = 8 << 20  # bytes of a text form; 4,096 calls with every field have some 2 MB
# What ends a program that has too little stack; docs/HOST.md has what each needs.
STACK_SIGNALS = ("SIGSEGV", "SIGBUS", "SIGILL", "SIGABRT")


class Failure(Exception):
    """What a tool could not do, in one line."""


def named(name, standard="standard input"):
    """A file's name on one line, whatever stands in it. standard: which of the two - is."""
    text = "".join(c if c.isprintable() else "?" for c in os.fspath(name)) or "''"
    return standard if text == STANDARD else text.encode("utf-8", "replace").decode()


def cannot(name, what, problem):
    return Failure(f"{named(name)} cannot be {what}: {problem.strerror or problem}")


# ---- standard input, output and error

closed = set()  # of descriptors 0 to 2, those that the tool was started without


def hold_standard():
    """No file that is opened later gets the number of a standard descriptor that is closed."""
    for number in (0, 1, 2):
        try:
            os.fstat(number)
        except OSError:
            closed.add(number)
            os.dup2(os.open(os.devnull, os.O_RDWR), number)


def complain(line):
    """A line on standard error; where that takes none it is lost."""
    with contextlib.suppress(OSError, AttributeError):
        sys.stderr.write(line.encode("utf-8", "replace").decode() + "\n")
        sys.stderr.flush()


def drop_output():
    """What standard output did not take is dropped: Python would try again at its end, and fail once more."""
    os.dup2(os.open(os.devnull, os.O_WRONLY), 1)


def print_bytes(data, inputs=()):
    """To standard output. A reader that has closed its end has enough, which is no failure."""
    if 1 in closed:
        if data:
            raise Failure("standard output is closed")
        return
    found = os.fstat(1)
    if stat.S_ISREG(found.st_mode):
        not_input("standard output", found, inputs)
    try:
        sys.stdout.flush()
        sys.stdout.buffer.write(data)
        sys.stdout.buffer.flush()
    except BrokenPipeError:
        drop_output()
    except OSError as problem:
        drop_output()
        raise Failure(f"standard output cannot be written: {problem.strerror}") from None


def print_text(text):
    print_bytes(text.encode("utf-8", "replace"))


def tell(output, line):
    """A line on what was done: on standard error where standard output has the bytes."""
    if os.fspath(output) == STANDARD:
        complain(line)
    else:
        print_text(line + "\n")


# ---- reading


def read_bytes(name, most):
    """A file's bytes, so many at most, so that a device without an end is no matter."""
    if os.fspath(name) == STANDARD and 0 in closed:
        raise Failure("standard input is closed")
    try:
        with open(0 if os.fspath(name) == STANDARD else name, "rb", closefd=os.fspath(name) != STANDARD) as file:
            return file.read(most)
    except FileNotFoundError:
        raise Failure(f"there is no file {named(name)}") from None
    except IsADirectoryError:
        raise Failure(f"{named(name)} is a folder") from None
    except OSError as problem:
        raise cannot(name, "read", problem) from None


def text_of(name, data):
    """Bytes as UTF-8 text."""
    if len(data) > MOST_TEXT:
        raise Failure(f"{named(name)} has more than {MOST_TEXT} bytes of text")
    try:
        return data.decode("utf-8")
    except UnicodeDecodeError as problem:
        line = data.count(b"\n", 0, problem.start) + 1
        raise Failure(f"{named(name)}, line {line}: not UTF-8 text") from None


def read_text_file(name):
    return text_of(name, read_bytes(name, MOST_TEXT + 1))


# ---- running a program


class Done(NamedTuple):
    """What a program wrote, and what it said on standard error."""

    out: bytes
    said: str


def program_name(program):
    """As the messages have it: below the repository where it lies there."""
    path = pathlib.Path(program)
    return named(path.relative_to(ROOT) if path.is_relative_to(ROOT) else path)


def ended_by(number):
    """The signal that ended a program, in words."""
    try:
        name = signal.Signals(number).name
    except ValueError:
        name = f"signal {number}"
    return name + (" (too little stack? see ulimit -s)" if name in STACK_SIGNALS else "")


def run(command, data=b"", may_speak=False, program=None, **more):
    """Runs a program to its end. may_speak: what it says on standard error is an answer, and no failure; program: what is run by a shell."""
    name = program_name(program or command[0])
    try:
        done = subprocess.run(command, input=data, capture_output=True, **more)
    except FileNotFoundError:
        raise Failure(f"{name} is not built") from None
    except OSError as problem:
        raise Failure(f"{name} cannot be run: {problem.strerror}") from None
    said = done.stderr.decode(errors="replace").strip()
    if done.returncode < 0:
        raise Failure(f"{name} was ended by {ended_by(-done.returncode)}")
    last = f": {named(said.splitlines()[-1])}" if said else ""
    if done.returncode:
        raise Failure(f"{name} ended with status {done.returncode}{last}")
    if said and not may_speak:
        raise Failure(f"{name} failed{last}")
    return Done(done.stdout, said)


# ---- writing


def not_input(name, found, inputs):
    """Refuses an output that is one of the inputs, whatever its name: by device and inode."""
    for given in inputs:
        with contextlib.suppress(OSError):
            other = os.fstat(0) if os.fspath(given) == STANDARD else os.stat(given)
            if (found.st_dev, found.st_ino) == (other.st_dev, other.st_ino):
                raise Failure(f"{name} is {named(given)} itself, which is read: name another file")


def write_all(descriptor, data):
    at = 0
    while at < len(data):
        at += os.write(descriptor, data[at:])


def write_through(target, data):
    """A pipe or a device takes the bytes; it is not replaced."""
    descriptor = os.open(target, os.O_WRONLY | os.O_NOCTTY)
    try:
        write_all(descriptor, data)
    finally:
        os.close(descriptor)


def write_beside(target, data, found):
    """A new file beside the target takes its place once it is whole on the disk; it goes again where anything fails."""
    folder, name = os.path.split(target)
    fresh = os.path.join(folder, f".{name[:200]}.{secrets.token_hex(8)}")
    descriptor = os.open(fresh, os.O_WRONLY | os.O_CREAT | os.O_EXCL, 0o666)
    try:
        try:
            if found:
                with contextlib.suppress(OSError):  # another owner's file stays theirs where that may be
                    os.fchown(descriptor, found.st_uid, found.st_gid)
                os.fchmod(descriptor, stat.S_IMODE(found.st_mode))
            write_all(descriptor, data)
            os.fsync(descriptor)
        finally:
            os.close(descriptor)
        os.replace(fresh, target)
    except BaseException:
        with contextlib.suppress(OSError):
            os.unlink(fresh)
        raise


def write_file(name, data, inputs=()):
    """Writes a file whole or not at all: its mode stays, or is the umask's; a symbolic link is followed. - is standard output."""
    if os.fspath(name) == STANDARD:
        print_bytes(data, inputs)
        return
    try:
        target = os.path.realpath(name)
        found = os.stat(target) if os.path.lexists(target) else None
        if found:
            not_input(named(name), found, inputs)
        if found and stat.S_ISDIR(found.st_mode):
            raise Failure(f"{named(name)} is a folder")
        if found and not stat.S_ISREG(found.st_mode):
            write_through(target, data)
        elif found and not os.access(target, os.W_OK):
            raise Failure(f"{named(name)} cannot be written: it is read-only")
        else:
            write_beside(target, data, found)
    except FileNotFoundError:
        raise Failure(f"{named(name)} cannot be written: there is no folder {named(os.path.dirname(target))}") from None
    except OSError as problem:
        raise cannot(name, "written", problem) from None
