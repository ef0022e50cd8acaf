"""Pages of recordings, for the checks: writing one, and what it holds."""

import base64
import json
import pathlib
import re
import struct
import subprocess
import sys

TOOLS = pathlib.Path(__file__).resolve().parent.parent
ROOT = TOOLS.parent
sys.path.insert(0, str(TOOLS))

from nuthkolla.record import recording_bytes  # noqa: E402
from nuthkolla.text import read_text  # noqa: E402

MOST_BYTES = 10_000_000
EXAMPLE, EXAMPLE_LINES = ROOT / "examples/shoal-search.txt", ROOT / "examples/shoal-search.lines"


def expect(condition, message):
    if not condition:
        sys.exit(f"checks/page: {message}")


def encoded(text, file):
    """A recording's text form as a file of its bytes."""
    configuration, calls = read_text(text)
    file.write_bytes(recording_bytes(configuration, [call for _, call in calls]))
    return file


def write_page(page, *words, status=0):
    """Runs tools/page. status: 1 where a replay stopped early or the stories part, which standard error says, one of the two where none is given."""
    done = subprocess.run([str(TOOLS / "page"), *map(str, words), "-o", str(page)], capture_output=True, text=True)
    expect(done.returncode in ((0, 1) if status is None else (status,)), f"{words[0]}: status {done.returncode}, {done.stderr[-600:]}")
    expect(bool(done.returncode) == done.stderr.startswith("page: "), f"{words[0]}: status {done.returncode}, {done.stderr!r}")
    text = page.read_text("utf-8")
    expect(len(text.encode()) <= MOST_BYTES, f"{words[0]}: the page has {len(text.encode())} bytes")
    expect(not re.search(r"""(src|href)\s*=|url\((?!#)|@import""", text), f"{words[0]}: the page asks for something else")
    return text


class Held:
    """What a page holds for its script, of one recording."""

    def __init__(self, given):
        self.given = given
        self.names = list(given["words"])

    def numbers(self, name, form):
        data = base64.b64decode(self.given[name])
        return [number for (number,) in struct.iter_unpack(f"<{form}", data)]

    def words(self, name):
        column = self.given["words"][name]
        return [column["table"][n] for (n,) in struct.iter_unpack("<H", base64.b64decode(column["at"]))]

    def said(self):
        """What is said of each call, put together of its parts as the page's script does."""
        parts = {name: self.words(name) for name in self.names}
        part = lambda name, n: str(n + 1) if name == "number" else parts[name][n]
        return [re.sub(r"@(\w+)@", lambda found: part(found.group(1), n), told) for n, told in enumerate(parts["said"])]


def held_by(text):
    """The recordings that a page holds; none where it has no calls."""
    found = re.search(r'<script id="data" type="application/json">(.*?)</script>', text, re.S)
    return [Held(given) for given in json.loads(found.group(1))["recordings"]] if found else []


def plain_words(recording, lines):
    """The lines in words, by tools/plain."""
    done = subprocess.run([str(TOOLS / "plain"), str(recording), "-"], input=lines, capture_output=True, text=True)
    return done.stdout.splitlines()[done.returncode :]
