"""The matrix of tools/checks/nothing_lost: every word of ./desk that writes a file, and every fault.

Each cell runs the word in a folder of its own, within 30 s, and holds beside what is expected: the status; standard error, which is one line,
or none; that every input is byte for byte as it was; that what stood under the output's name still stands there, or what was to be written
stands there whole; and that the folder has no other new file.

What stands for a fault, so that it is one for root too: a program that is killed, ends with a status or says something on standard error
is a script under its name; too little stack is a limit below what the program needs; a full device is a node like /dev/full, of the
cell's folder alone; an endless file is /dev/zero; a file that cannot be read is /proc/self/mem, whose first byte no process may read.
"""

import concurrent.futures
import hashlib
import os
import pathlib
import re
import shutil
import stat
import subprocess
import sys
import threading
from typing import NamedTuple

TOOLS = pathlib.Path(__file__).resolve().parent.parent
ROOT = TOOLS.parent
sys.path[:0] = [str(TOOLS), str(TOOLS / "vectors")]
from replay import LAND, WAYPOINT, call, config  # noqa: E402

GUARD, MEMORY = 30, 2_000_000  # seconds; kB, so that a file without an end that is read on takes no more
BEFORE = b"what stood here before"
PROGRAMS = ("bin/desk", "bin/compact", "bin/agree", "bin/edition", "host/page", "host/paths", "host/route")
LITTLE = {"bin": 300, "host": 8}  # kB of stack, too little for each program

# ---- what the words read: recordings of a few calls, each record put together from document 01

LAND_1 = call(LAND, {2: 1.0})
AIMED = call(WAYPOINT, {2: 0.5, 7: 300.0, 11: 60.0, 12: 17.0, 13: 5.0, 16: 17.0, 20: 17.0})
SLIPPED = call(LAND)  # no time step: refused 2
RECORDING = config() + LAND_1 + AIMED + SLIPPED + AIMED
RECORDS = AIMED + LAND_1
TEXT = b"config\nland dt=1\nland\n"
POINTS = b"point 0 at=900,0 altitude=60 cruise=17\n"
ROUTE = bytes.fromhex("01000000" "00006144" "00000000" "00007042" "00008841")  # bit 0; north, east, altitude, cruise of the line above
LONG = config() + AIMED * 4096
REFUSED, REFUSED_TEXT = config({2: -1.0}), b"config max_pitch_up_rad=-1"
REFUSED_LINES = b"config refused 2\n"


def refused(recording):
    """A recording or its text form, all of whose configuration is left out, with one that fails in a field."""
    is_text = recording.startswith(b"config")
    return recording.replace(b"config", REFUSED_TEXT, 1) if is_text else REFUSED + recording.removeprefix(config())


class Word(NamedTuple):
    """words: as they stand after ./desk, with @in, @out and @other; given: what @in has; suffix: of its name; program: that it runs first.

    recording: the place of the recording whose configuration it reads; lines: of that recording's lines; none where it reads none.
    """

    words: str
    given: bytes
    program: str | None
    suffix: str = ""
    recording: str | None = "in"
    lines: str | None = None


WORDS = {
    "compact": Word("compact @in @out", RECORDING, "bin/compact"),
    "compact, a text": Word("compact @in @out", TEXT, "bin/compact", ".txt"),
    "edition": Word("edition 2 @in @out", RECORDING, "bin/edition"),
    "edition, a text": Word("edition 2 @in @out", TEXT, "bin/edition", ".txt"),
    "edition --calls": Word("edition 2 --calls @in @out", RECORDS, "bin/edition", recording=None),
    "page": Word("page @in -o @out", RECORDING, "host/page"),
    "page, the second": Word("page @other @in -o @out", RECORDING, "host/page"),
    "page --route": Word("page @other --route @in -o @out", POINTS, "host/page", ".txt", recording="other"),
    "draw": Word("draw @in -o @out", RECORDING, "bin/desk"),
    "draw, its lines": Word("draw @land @in -o @out", b"1 plane 00000000 00000000 00000000\n", None, recording="land", lines="in"),
    "draw --ahead": Word("draw @in @lines --ahead 2 -o @out", RECORDING, "host/paths", lines="lines"),
    "route": Word("route @in -o @out --calls 9", POINTS, "host/route", ".txt", recording=None),
    "encode": Word("recording encode @in -o @out", TEXT, None, ".txt"),
    "decode": Word("recording decode @in -o @out", RECORDING, None),
    "encode-route": Word("recording encode-route @in -o @out", POINTS, None, ".txt", recording=None),
    "decode-route": Word("recording decode-route @in -o @out", ROUTE, None, recording=None),
}
# What an endless file is for each word: for a recording the first record of zeros ends it; what is read whole has a bound.
STOPPED = r"call 1 stopped, the map has an unnamed bit, lacks the kind bit, or has half a leg \(6\)"
TOO_LONG = "@in has more than [0-9]+ bytes( of text)?"
ENDLESS = {
    "compact": (1, f"compact: @in: {STOPPED}; @out is not written"),
    "edition": (1, "edition: @in: it has more than 352392 bytes of call records; @out is not written"),
    "edition --calls": (1, "edition: @in: it has more than 352392 bytes of call records; @out is not written"),
    "page": (1, f"page: endless: {STOPPED}"),
    "page, the second": (1, f"page: endless: {STOPPED}"),
    "draw": (1, f"draw: @in: {STOPPED}"),
    "draw --ahead": (2, "draw: there are 4 answers to 0 calls"),
}


class Fault(NamedTuple):
    """status and line of a cell, @in and @out for the names and @program for the program; whole: the output is written all the same."""

    status: int
    line: str
    whole: bool = False


# What a configuration that is refused is for each word that reads one.
FIELD = "configuration refused: field 2, max_pitch_up_rad, has to be from 0 to PI/2; it is -1 rad"
SHORTER = Fault(1, f"compact: @in: {FIELD}; @out is not written")
OTHER_EDITION = Fault(1, f"edition: @in: {FIELD}", whole=True)
SPELLED = Fault(1, f"recording: @in: {FIELD}", whole=True)
CONFIG_REFUSED = {
    "compact": SHORTER,
    "compact, a text": SHORTER,
    "edition": OTHER_EDITION,
    "edition, a text": OTHER_EDITION,
    "page": Fault(1, f"page: given: {FIELD}", whole=True),
    "page, the second": Fault(1, f"page: given: {FIELD}", whole=True),
    "page --route": Fault(1, f"page: other: {FIELD}", whole=True),
    "draw": Fault(1, f"draw: @in: {FIELD}"),
    "draw, its lines": Fault(1, f"draw: land: {FIELD}"),
    "draw --ahead": Fault(1, f"draw: @in: {FIELD}"),
    "encode": SPELLED,
    "decode": SPELLED,
}

SAME = Fault(2, "@word: @out is @in itself, which is read: name another file")
FAULTS = {
    "none": Fault(0, "", True),
    "program killed": Fault(2, "@word: target/@program was ended by SIGKILL"),
    "little stack": Fault(2, r"@word: target/@program was ended by SIGSEGV \(too little stack\? see ulimit -s\)"),
    "status 3": Fault(2, "@word: target/@program ended with status 3"),
    "program speaks": Fault(2, "@word: target/@program failed: a fault"),
    "ulimit -f 0": Fault(2, "@word: @out cannot be written: File too large"),
    "full device": Fault(2, "@word: @out cannot be written: No space left on device"),
    "out is in": SAME,
    "by hard link": SAME,
    "by link": SAME,
    "by other link": SAME,
    "out a pipe": Fault(0, "", True),
    "out a link": Fault(0, "", True),
    "out a folder": Fault(2, "@word: @out is a folder"),
    "no folder": Fault(2, "@word: @out cannot be written: there is no folder .*"),
    "umask, mode": Fault(0, "", True),
    "in endless": Fault(2, f"@word: {TOO_LONG}"),
    "in a folder": Fault(2, "@word: @in is a folder"),
    "in missing": Fault(2, "@word: there is no file @in"),
    "in unreadable": Fault(2, "@word: @in cannot be read: Input/output error"),
    "config refused": Fault(0, "", True),  # of a word that reads no configuration; it does its work
}


def expected(name, word, fault):
    """What a cell has to show. Without a program there is none that is killed or wants for stack: the word does its work."""
    if fault == "config refused" and word.recording:
        return CONFIG_REFUSED[name]
    if word.program is None and fault in SCRIPTS:
        return FAULTS["none"]
    if fault == "in endless" and name in ENDLESS:
        status, line = ENDLESS[name]
        return Fault(status, line, whole=name.startswith("page"))
    return FAULTS[fault]


# ---- trees in which every program has a fault


def real(program):
    return f'"{ROOT}/target/{program}" "$@"'


# What stands in a program's place under each fault, which is given the program.
SCRIPTS = {
    "program killed": lambda program: "kill -KILL $$",
    "little stack": lambda program: f"ulimit -s {LITTLE[program.partition('/')[0]]}; exec {real(program)}",
    "status 3": lambda program: f"{real(program)}; exit 3",
    "program speaks": lambda program: f"{real(program)}; echo a fault >&2",
}


def tree(folder, script):
    """A repository whose programs are scripts; script(program) is what stands in one. Their stamps say that they are of its sources."""
    folder.mkdir()
    for name in ("desk", "crates.txt"):
        shutil.copy(ROOT / name, folder / name)
    for name in ("tools", "include"):
        shutil.copytree(ROOT / name, folder / name, ignore=shutil.ignore_patterns("__pycache__"))
    (folder / "crates").symlink_to(ROOT / "crates")
    for program in PROGRAMS:
        file = folder / "target" / program
        file.parent.mkdir(parents=True, exist_ok=True)
        file.write_text(f"#!/bin/sh\n{script(program)}\n")
        file.chmod(0o755)
        stamp = pathlib.Path("target/stamps") / program.removeprefix("bin/").replace("/", "-")
        (folder / stamp).parent.mkdir(exist_ok=True)
        built = f"built {hashlib.sha256(file.read_bytes()).hexdigest()}"
        (folder / stamp).write_text(re.sub("^built .*", built, (ROOT / stamp).read_text(), flags=re.M))
    return folder


def make_node(path, device):
    """A device like this one, so that no fault of a tool costs the machine's; or a link to it, where none can be made."""
    try:
        os.mknod(path, 0o666 | stat.S_IFCHR, os.stat(device).st_rdev)
        os.close(os.open(path, os.O_WRONLY))
    except PermissionError:
        path.unlink(missing_ok=True)
        path.symlink_to(device)


# ---- a cell


class Cell:
    """A folder with the inputs of a word, and the word run in it under a fault."""

    def __init__(self, folder, trees, name, fault):
        self.folder, self.trees, self.name, self.word, self.fault = folder, trees, name, WORDS[name], fault
        folder.mkdir(parents=True)
        self.places = {"in": f"given{self.word.suffix}", "out": "out", "other": "other", "land": "land", "lines": "lines"}
        self.file("in").write_bytes(self.word.given)
        self.file("other").write_bytes(RECORDING)
        self.file("land").write_bytes(config() + LAND_1)
        answers = ["plane", "track energy", "refused 2", "track energy"]
        zeros = {"plane": " 00000000" * 3, "track energy": " 00000000" * 4, "refused 2": ""}
        self.file("lines").write_text("".join(f"{n} {answer}{zeros[answer]}\n" for n, answer in enumerate(answers, 1)))
        self.root, self.limit, self.piped = trees.get(fault, ROOT), "", None
        if fault in SCRIPTS:
            self.stands()
        else:
            getattr(self, "plant_" + re.sub(r"\W+", "_", fault))()

    def file(self, place):
        return self.folder / self.places[place]

    # Each fault that is none of a program is planted by a function of its name.

    def plant_none(self):
        pass

    def stands(self):
        self.file("out").write_bytes(BEFORE)

    def plant_ulimit_f_0(self):
        self.stands()
        self.limit = "ulimit -f 0; "

    def plant_full_device(self):
        self.places["out"] = "full"
        make_node(self.file("out"), "/dev/full")

    def plant_out_is_in(self):
        self.places["out"] = self.places["in"]

    def plant_by_hard_link(self):
        os.link(self.file("in"), self.file("out"))

    def plant_by_link(self):
        self.file("out").symlink_to(self.file("in"))

    def plant_by_other_link(self):
        """The input's name is the link."""
        self.file("in").rename(self.file("out"))
        self.file("in").symlink_to(self.file("out"))

    def plant_out_a_pipe(self):
        os.mkfifo(self.file("out"))
        self.piped = []
        reader = lambda: self.piped.append(self.file("out").read_bytes())
        self.reader = threading.Thread(target=reader, daemon=True)
        self.reader.start()

    def plant_out_a_link(self):
        (self.folder / "below").mkdir()
        self.file("out").symlink_to("below/file")

    def plant_out_a_folder(self):
        self.file("out").mkdir()

    def plant_no_folder(self):
        self.places["out"] = "nowhere/out"

    def plant_umask_mode(self):
        """Where the file stands its mode stays; where it does not it is the umask's, which the run without a fault has."""
        self.stands()
        self.file("out").chmod(0o604)

    def plant_in_endless(self):
        self.stands()
        self.link_in("endless", "/dev/zero")

    def plant_in_a_folder(self):
        self.stands()
        self.places["in"] = "folder" + self.word.suffix
        self.file("in").mkdir()

    def plant_in_missing(self):
        self.stands()
        self.places["in"] = "missing" + self.word.suffix

    def plant_in_unreadable(self):
        self.stands()
        self.link_in("unreadable", "/proc/self/mem")

    def plant_config_refused(self):
        """The lines are those that the desk program prints."""
        self.stands()
        if self.word.recording:
            file = self.file(self.word.recording)
            file.write_bytes(refused(file.read_bytes()))
        if self.word.lines:
            self.file(self.word.lines).write_bytes(REFUSED_LINES)

    def link_in(self, name, to):
        self.places["in"] = name + self.word.suffix
        self.file("in").symlink_to(to)

    # What is there, the run, and what is held beside what was there.

    def there(self):
        """Every name below the folder: its kind and mode, and what it has where it is a file or a link."""
        found = {}
        for path in sorted(self.folder.rglob("*")):
            what = path.lstat()
            has = os.readlink(path) if path.is_symlink() else path.read_bytes() if stat.S_ISREG(what.st_mode) else None
            found[str(path.relative_to(self.folder))] = (stat.filemode(what.st_mode), has)
        return found

    def run(self):
        words = [self.places[word[1:]] if word[0] == "@" else word for word in self.word.words.split()]
        command = ["/bin/sh", "-c", f'umask 027; ulimit -v {MEMORY}; {self.limit}exec "$0" "$@"', self.root / "desk", *words]
        try:
            # What a tool leaves among temporary files is left in the folder.
            environment = os.environ | {"TMPDIR": str(self.folder)}
            return subprocess.run(command, cwd=self.folder, env=environment, stdin=subprocess.DEVNULL, capture_output=True, timeout=GUARD)
        except subprocess.TimeoutExpired:
            return None

    def pattern(self, line):
        names = {"@word": self.word.words.split()[0], "@program": self.word.program or ""}
        names |= {"@in": re.escape(self.places["in"]), "@out": re.escape(self.places["out"])}
        return re.sub(r"@\w+", lambda found: names[found[0]], line)

    def faults(self, wholes):
        """What is not as it should be; wholes: the output of each word without a fault, by its name."""
        wanted, before = expected(self.name, self.word, self.fault), self.there()
        done = self.run()
        if done is None:
            return f"no end within {GUARD} s"
        said, after = done.stderr.decode(errors="replace"), self.there()
        if done.returncode != wanted.status:
            return f"status {done.returncode}, not {wanted.status}: {said}"
        if not re.fullmatch(self.pattern(wanted.line), said.rstrip("\n")) or "a fault of the tool itself" in said:
            return f"{said!r} is said, not {self.pattern(wanted.line)!r}"
        if not wanted.whole:
            return "" if after == before else f"there is {difference(before, after)}"
        return self.whole_faults(before, after, wholes)

    def whole_faults(self, before, after, wholes):
        """The output is there, whole, with its mode, and nothing else is new or changed."""
        out = self.places["out"]
        if self.fault == "out a pipe":
            self.reader.join(GUARD)
            after[out] = ("-rw-r-----", self.piped[0] if self.piped else b"")
        if self.fault == "out a link":
            before["below/file"], out = after.get("below/file"), "below/file"
        mode, has = after.pop(out, ("nothing", b""))
        kept = before.pop(out, None)
        if before != after:
            return f"there is {difference(before, after)}"
        if mode != (kept[0] if kept and kept[0][0] == "-" else "-rw-r-----"):
            return f"the output's mode is {mode}"
        if self.fault == "none":
            wholes[self.name] = has
            return "" if len(has) > 5 else "the output is empty"
        if self.fault in ("in endless", "config refused") and self.name.startswith("page"):
            return "" if b"The replay stopped early" in has else "the page does not say that the replay stopped"
        wanted = wholes[self.name]
        if self.fault == "config refused" and self.word.recording:
            wanted = refused(wanted)
        return "" if has == wanted else "the output is not what it should be"


def difference(before, after):
    names = [name for name in {**before, **after} if before.get(name) != after.get(name)]
    return ", ".join(f"{name}: {str(before.get(name))[:60]} before, {str(after.get(name))[:60]} after" for name in names)


# ---- the matrix


def run_cell(cell, wholes):
    try:
        return cell().faults(wholes)
    except Exception as problem:
        return f"the check failed: {type(problem).__name__}: {problem}"


def matrix(folder, trees, tried):
    """Every cell of these faults; prints the matrix, and ends the check where a cell fails."""
    wholes, found = {}, {}
    with concurrent.futures.ThreadPoolExecutor(os.cpu_count()) as pool:
        # The runs without a fault are first: their outputs are what others are held beside.
        for faults in (["none"], [fault for fault in tried if fault != "none"]):
            cells = [(name, fault) for name in WORDS for fault in faults]
            of = lambda cell: lambda: Cell(folder / cell[0].replace(" ", "_") / cell[1].replace(" ", "_"), trees, *cell)
            found |= zip(cells, pool.map(lambda cell: run_cell(of(cell), wholes), cells))
    print_matrix(found, ["none"] + [fault for fault in tried if fault != "none"])
    failed = {cell: why for cell, why in found.items() if why}
    for (name, fault), why in failed.items():
        print(f"{name}, {fault}: {why}"[:700])
    if failed:
        sys.exit(f"checks/nothing_lost: {len(failed)} of {len(found)} cells fail")
    return len(found)


def print_matrix(found, tried):
    wide = max(map(len, WORDS))
    for n, fault in enumerate(tried):
        print(f"  {chr(ord('a') + n)}: {fault}")
    print(f"{'':{wide}} {' '.join(chr(ord('a') + n) for n in range(len(tried)))}")
    for name in WORDS:
        print(f"{name:{wide}} {' '.join('X' if found[name, fault] else '.' for fault in tried)}")
