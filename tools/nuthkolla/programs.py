"""The programs that answer a recording: those of the crates, those over the archive, and the oracle where it was built."""

import functools
import os
import pathlib
import re
import subprocess
import sys

from nuthkolla import files

ROOT = files.ROOT
DESK = ROOT / "target/bin/desk"
COMPACT = ROOT / "target/bin/compact"
AGREE = ROOT / "target/bin/agree"
EDITION = ROOT / "target/bin/edition"
PATHS = ROOT / "target/host/paths"
PAGE = ROOT / "target/host/page"
ROUTE = ROOT / "target/host/route"
# The environment may name another build.
ORACLE = pathlib.Path(os.environ.get("ORACLE", ROOT / "target/oracle/oracle"))
# Whether what is missing or old is built: ./desk sets it, a script of the gate does not.
BUILDS = "NUTHKOLLA_BUILDS"
REFUSES = re.compile(r"config refused \d+|(config|\d+) stopped \d+", re.ASCII)


class Missing(files.Failure):
    """A program that is not built, or not from the present sources."""


def built(*files):
    """Ends a check where a program is missing that the gate builds before it."""
    for file in files:
        if not file.is_file():
            sys.exit(f"{file.relative_to(ROOT)} is missing: the gate builds it before this check")


def skip(what, missing):
    """Says what is skipped without the oracle. Where this machine has what it is built of, the gate has built it, and the check ends."""
    has = subprocess.run(["bash", "-c", ". tools/needs.sh && has published-rust rustc"], cwd=ROOT, capture_output=True)
    if has.returncode == 0:
        sys.exit(f"{what}: {missing}")
    print(f"skipped: {what}: {missing}")


def build_name(program):
    """A program's name for tools/stamp and tools/ready: its crate's, or host/NAME."""
    return f"host/{program.name}" if program.parent.name == "host" else program.name


@functools.cache
def need(*programs):
    """Programs that a word runs: built where they are missing or old, if ./desk runs it; else they have to be there."""
    if BUILDS in os.environ:
        ran = subprocess.run([ROOT / "tools/ready", *map(build_name, programs)], stdin=subprocess.DEVNULL, stdout=2)
        if ran.returncode:
            raise SystemExit(2)  # tools/ready has said why
    for program in programs:
        if not program.is_file():
            raise Missing(f"{program.relative_to(ROOT)} is not built (./desk builds what its words need)")


def oracle_command(mode):
    if not ORACLE.is_file():
        raise Missing("target/oracle/oracle is not built")
    return [str(ORACLE), mode]


@functools.cache
def up_to_date(program):
    """The program's name. An old build would answer for sources that are no longer there."""
    name = program.relative_to(ROOT)
    if not program.is_file():
        raise Missing(f"{name} is not built")
    if subprocess.run([ROOT / "tools/stamp", "is", build_name(program)], stdin=subprocess.DEVNULL).returncode:
        raise Missing(f"{name} is not of the present sources")
    return str(program)


def own_desk_command():
    """The desk program."""
    return [up_to_date(DESK)]


def desk_command():
    """The desk program, or the oracle in its place."""
    if BUILDS in os.environ:
        need(DESK)
        return [str(DESK)]
    try:
        return own_desk_command()
    except Missing as missing:
        try:
            return oracle_command("desk")
        except Missing as also:
            raise Missing(f"{missing}, and {also} (./desk builds the desk program)") from None


def path_command(call, steps):
    """What draws the path at a call, and its name: the archive behind tools/host/paths.c, or the oracle in its place."""
    words = ["at", str(call), str(steps)]
    if BUILDS in os.environ:
        need(PATHS)
        return [str(PATHS), *words], "nuthkolla_draw_path"
    try:
        return [up_to_date(PATHS), *words], "nuthkolla_draw_path"
    except Missing as missing:
        if not ORACLE.is_file():
            raise Missing(f"{missing}, and target/oracle/oracle is not built (./desk draw builds the former)") from None
        return [str(ORACLE), "path-at", *words[1:]], f"the oracle: {missing}"


def page_command():
    """What replays a recording for a page: the archive behind tools/host/page.c."""
    need(PAGE)
    return [str(PAGE)]


def route_command():
    """What flies a route: the archive behind tools/host/route.c."""
    need(ROUTE)
    return [str(ROUTE)]


def ask(program, data):
    """What a program writes, and the words of its line on standard error that refuses the input, if it does."""
    done = files.run([program], data, may_speak=True)
    if done.said and not REFUSES.fullmatch(done.said):
        raise files.Failure(f"{files.program_name(program)} failed: {files.named(done.said)}")
    return done.out, done.said.split()


def run(command, data):
    """What a program writes."""
    return files.run(command, data).out
