"""What a browser shows of a page, moved through as a person does: by the slider, by keys, by clicks."""

import math
import re
import struct
import time

import browser
from nuthkolla.record import read_recording
from pages import EXAMPLE, EXAMPLE_LINES, ROOT, encoded, expect, held_by, plain_words, write_page

# Places in metres, read off the map: between the outer grid lines on the screen, which the map's labels name. The plane, how many
# metres a pixel is, and every point of the turn to come.
SEEN = """(() => {
  const plane = document.getElementById("plane"), ahead = document.getElementById("ahead");
  const map = document.getElementById("ground"), frame = map.querySelector(".frame").getBoundingClientRect();
  const labels = [...map.querySelectorAll("text.soft")].map((t) => [Number(t.textContent), t.getBoundingClientRect()]);
  const grid = [...map.querySelectorAll("line.grid")].map((l) => l.getBoundingClientRect());
  const axis = (names, lines) => {
    const a = names[0], b = names[names.length - 1], x = lines[0], y = lines[lines.length - 1];
    return [a, x, (b - a) / (y - x)];
  };
  const named = (where) => labels.filter(([, r]) => where(r)).map(([v]) => v);
  const upright = grid.filter((r) => r.height > r.width).map((r) => (r.left + r.right) / 2);
  const level = grid.filter((r) => r.width > r.height).map((r) => (r.top + r.bottom) / 2);
  const east = axis(named((r) => r.top > frame.bottom), upright), north = axis(named((r) => r.right < frame.left), level);
  const metres = (x, y) => [north[0] + (y - north[1]) * north[2], east[0] + (x - east[1]) * east[2]];
  const m = plane.getScreenCTM(), over = ahead.getScreenCTM();
  const points = ahead.getAttribute("d").slice(1).split("L").filter(Boolean).map((pair) => {
    const p = new DOMPoint(...pair.split(",").map(Number)).matrixTransform(over);
    return metres(p.x, p.y);
  });
  return {plane: plane.style.display === "none" ? null : metres(m.e, m.f), pixel: Math.abs(east[2]), points};
})()"""

INSIDE = """((m, r) => r.left < m.e && m.e < r.right && r.top < m.f && m.f < r.bottom)(
  document.getElementById("plane").getScreenCTM(), document.getElementById("ground").getBoundingClientRect())"""
# How many controls have no name; the height of the smallest letters of the drawings, in pixels.
UNNAMED = """[...document.querySelectorAll("button, select, input")]
  .filter((e) => !(e.textContent || e.ariaLabel || (e.labels && e.labels.length))).length"""
SMALLEST = """Math.min(...[...document.querySelectorAll(".standing text")].map((t) =>
  parseFloat(getComputedStyle(t).fontSize) * Math.hypot(t.getScreenCTM().a, t.getScreenCTM().b)))"""


def slide(page, number):
    """The slider as a person moves it."""
    page.value(f"(s => {{ s.value = {number}; s.dispatchEvent(new Event('input', {{bubbles: true}})); }})(document.getElementById('slider'))")
    page.value(browser.FRAME)


def tile(page, name):
    return page.value(f"document.querySelector('#tile-{name} dd').textContent")


def call_shown(page):
    return int(tile(page, "call").split()[0])


class Flight:
    """A recording, its lines, the same in words, and what its page holds."""

    def __init__(self, recording, lines, text):
        self.lines, self.plain = lines.splitlines(), plain_words(recording, lines)
        _, self.calls, _ = read_recording(recording.read_bytes())
        (held,) = held_by(text)
        first, points = held.numbers("from", "I"), held.numbers("points", "f")
        self.turns = [list(zip(points[2 * a : 2 * b : 2], points[2 * a + 1 : 2 * b : 2])) for a, b in zip(first, first[1:])]

    def place(self, number):
        """North and east, as the recording has them, or none."""
        bits = self.calls[number - 1].numbers.get("position")
        return bits and struct.unpack("<2f", struct.pack("<2I", *bits[:2]))


def near(places, others, apart):
    """Whether two lists of places are one, within so many metres."""
    return len(places) == len(others) and all(max(abs(a - b) for a, b in zip(p, q)) < apart for p, q in zip(places, others))


def check_places(page, flight, number):
    """The plane is where the call reports it, and the turn to come goes from there through the points that the page holds."""
    place, seen = flight.place(number), page.value(SEEN)
    if place is None:
        expect(seen["plane"] is None and not seen["points"], f"call {number} has no place, and the page shows {seen}")
        return 0
    expect(seen["plane"] and near([seen["plane"]], [place], seen["pixel"]), f"call {number} is at {place}; the page shows {seen['plane']}")
    turn = [place, *flight.turns[number - 1]] if flight.turns[number - 1] else []
    expect(near(seen["points"], turn, seen["pixel"]), f"call {number}: the turn to come is {turn[-1:]}; the page shows {seen['points'][-1:]}")
    return 1


def check_call(page, flight, number):
    """What is shown at a call is the desk program's line, its words, and the recording's place."""
    slide(page, number)
    line, plain = flight.lines[number - 1], flight.plain[number - 1]
    expect(call_shown(page) == number, f"the slider at {number} shows call {tile(page, 'call')}")
    expect(tile(page, "line") == line, f"call {number} shows the line {tile(page, 'line')!r}")
    words = page.value("document.getElementById('slider').getAttribute('aria-valuetext')")
    expect(words == f"call {plain.replace(' ', ', ', 1)}", f"call {number} is told as {words!r}")
    for name in ("roll", "pitch", "thrust", "off"):
        shown = tile(page, name)
        expect(shown in ("—", "idle: no line") or shown in plain, f"call {number}: {name} {shown!r} is not told")
    expect(("refused" in tile(page, "refusal")) == (" refused " in line), f"call {number}: {tile(page, 'refusal')!r}")
    return check_places(page, flight, number)


# The page's list of keys, line by line: check_steps, check_hundreds, check_steps, check_play, check_marks, check_larger and check_theme
# try what it says.
KEYS = [
    "→ ← a call on, a call back; with Shift ten",
    "Page Up Page Down with the slider in focus a hundred on, a hundred back; else the page is scrolled",
    "Home End the first call, the last",
    "Space play, pause",
    "n p the next, the previous call at which a mark begins: refused, held, fell back, idle",
    "+ - 0 the map larger, round the plane; smaller; whole",
    "t day or night screen",
]


def press(page, *keys):
    """Keys, with the call that each has to show; a name after ⇧ is pressed with Shift."""
    for name, call in keys:
        page.key(name.removeprefix("⇧"), name.startswith("⇧"))
        expect(call_shown(page) == call, f"{name} shows call {call_shown(page)}, not {call}")


def check_steps(page, last):
    """Without a focus, as the page is opened."""
    page.value("document.activeElement.blur()")
    press(page, ("Home", 1), ("ArrowRight", 2), ("⇧ArrowRight", 12), ("ArrowLeft", 11), ("⇧ArrowLeft", 1), ("ArrowLeft", 1))
    press(page, ("End", last), ("ArrowRight", last), ("ArrowLeft", last - 1), ("End", last))


def scrolled(page, name, there):
    """Presses a key that scrolls the page; whether it comes to such a place."""
    page.key(name)
    until = time.monotonic() + 3
    while not there(page.value("window.scrollY")) and time.monotonic() < until:
        time.sleep(0.05)
    return there(page.value("window.scrollY"))


def check_hundreds(page):
    """Page Up and Page Down: with the slider in focus, and without."""
    page.value("document.getElementById('slider').focus()")
    press(page, ("Home", 1), ("PageUp", 101), ("PageUp", 201), ("PageDown", 101), ("ArrowUp", 102), ("ArrowRight", 103))
    page.value("document.activeElement.blur()")
    page.value("window.scrollTo(0, 0)")
    expect(scrolled(page, "PageDown", lambda y: y > 100), "Page Down without the slider's focus does not scroll the page")
    expect(scrolled(page, "PageUp", lambda y: y == 0), "Page Up without the slider's focus does not scroll the page back")
    expect(call_shown(page) == 103, f"scrolling the page shows call {call_shown(page)}")


def check_marks(page, lines):
    """From mark to mark: the calls that have another mark than the call before."""
    marks = [re.findall(r"refused|hold|fallback|idle", line) for line in lines]
    begun = [n for n, mark in enumerate(marks, 1) if mark and (n == 1 or mark != marks[n - 2])]
    page.value("document.activeElement.blur()")
    press(page, ("Home", 1), *(("n", call) for call in begun[:12]), *(("p", call) for call in reversed(begun[:11])))


def check_theme(page):
    before = page.value("document.documentElement.dataset.theme")
    page.key("t")
    expect(page.value("document.documentElement.dataset.theme") != before, "t does not turn the screen's colours")
    page.key("t")
    expect(page.value("document.documentElement.dataset.theme") == before, "t does not turn the screen's colours back")


def check_keys(page, lines):
    """The keyboard alone, as the page's list of keys says."""
    listed = page.value("[...document.querySelectorAll('.keys li')].map((e) => e.textContent)")
    expect(listed == KEYS, f"the page's list of keys is {listed}")
    check_steps(page, len(lines))
    check_hundreds(page)
    check_marks(page, lines)
    check_theme(page)


def check_slider(page, last):
    """A click in the middle of the slider goes to the middle of the flight."""
    x, y = page.value("(r => [(r.left + r.right) / 2, (r.top + r.bottom) / 2])(document.getElementById('slider').getBoundingClientRect())")
    page.click(x, y)
    expect(abs(call_shown(page) - last / 2) < last / 50, f"a click in the slider's middle shows call {call_shown(page)}")


def check_larger(page, flight):
    """A larger map shows the plane at its place too, and on the screen."""
    page.value("document.activeElement.blur()")
    for _ in range(3):
        page.key("+")
    expect(page.value("document.getElementById('zoom').textContent") == "× 8", "+ does not make the map larger")
    for number in (700, 703, 2500):
        check_call(page, flight, number)
        expect(page.value(INSIDE), f"call {number}: the plane is not on the larger map")
    for name, shown in (("-", "× 4"), ("0", "× 1")):
        page.key(name)
        expect(page.value("document.getElementById('zoom').textContent") == shown, f"{name} does not show the map {shown}")


def check_play(page):
    """Space plays and pauses."""
    page.value("document.activeElement.blur()")
    page.key("Home")
    page.key(" ")
    expect(page.value("document.getElementById('play').textContent") == "Pause", "space does not play")
    until = time.monotonic() + 8
    while call_shown(page) < 4 and time.monotonic() < until:
        time.sleep(0.05)
    expect(call_shown(page) >= 4, "playing does not move on")
    page.key(" ")
    stopped = call_shown(page)
    time.sleep(0.3)
    expect(call_shown(page) == stopped, "space does not pause")


def check_focus(page):
    """Each control is reached by Tab and shows that it has the focus."""
    page.value("document.activeElement.blur()")
    wanted = page.value("[...document.querySelectorAll('button, select, input')].map(e => e.id || e.name)")
    seen = []
    for _ in range(len(wanted) + 3):
        page.key("Tab")
        name, outline = page.value("(e => [e.id || e.name, getComputedStyle(e).outline])(document.activeElement)")
        if name:
            expect("solid" in outline and "3px" in outline, f"the focus of {name} cannot be seen: {outline}")
            seen.append(name)
    expect(set(wanted) <= set(seen), f"Tab does not reach {set(wanted) - set(seen)}")
    unnamed = page.value(UNNAMED)
    expect(unnamed == 0, f"{unnamed} controls have no name")
    return len(set(seen))


def check_clicks(page, number):
    """A click on the map, where the plane is, goes back to its call from another."""
    slide(page, number)
    x, y = page.value("(m => [m.e, m.f])(document.getElementById('plane').getScreenCTM())")
    slide(page, 1)
    page.click(x, y)
    shown = page.value(SEEN)["plane"]
    slide(page, number)
    there = page.value(SEEN)["plane"]
    expect(math.dist(shown, there) < 15, f"a click at call {number} goes to {shown}, not {there}")


def check_sizes(page, file):
    """No width makes the page wider than the screen; the screen's colours are the system's."""
    for width, height, scheme in ((1920, 1080, "light"), (1366, 768, "dark"), (390, 844, "dark"), (320, 640, "light")):
        page.size(width, height)
        page.prefer(scheme)
        page.open(file)
        theme = page.value("document.documentElement.dataset.theme")
        expect(theme == {"light": "day", "dark": "night"}[scheme], f"a {scheme} screen shows the colours of {theme}")
        wide = page.value("document.documentElement.scrollWidth")
        expect(wide <= width, f"at {width} the page is {wide} wide")
        small = page.value(SMALLEST)
        expect(small >= 8.5, f"at {width} letters of a drawing are {small:.1f} high")


def check_moving(page):
    """How long a move of the slider takes: set, drawn, laid out."""
    script = """(async () => {
      const s = document.getElementById("slider"), last = Number(s.max), frame = () => new Promise(requestAnimationFrame);
      const taken = [];
      for (let i = 0; i < 60; i++) {
        s.value = 1 + Math.floor((i * last) / 60);
        const start = performance.now();
        s.dispatchEvent(new Event("input", {bubbles: true}));
        await frame(); await frame();
        taken.push(performance.now() - start);
      }
      return taken.sort((a, b) => a - b)[30];
    })()"""
    return page.value(script)


def check_browser(page, recording, file, lines, two):
    """page: a browser; file: the page of the recording with these lines; two: a page of two recordings."""
    flight = Flight(recording, lines, file.read_text("utf-8"))
    sampled = [1, 2, 41, 95, 138, 305, 355, 630, 1000, 1234, 2048, 3333, 4095, 4096]
    page.size(1366, 768)
    page.prefer("light")
    opened = page.open(file)
    placed = sum(check_call(page, flight, number) for number in sampled)
    check_keys(page, flight.lines)
    check_slider(page, len(flight.lines))
    check_larger(page, flight)
    check_play(page)
    controls = check_focus(page)
    check_clicks(page, 2000)
    moved = check_moving(page)
    expect(opened < 15 and moved < 250, f"opened in {opened:.1f} s, a move takes {moved:.0f} ms")
    expect(page.value("performance.getEntriesByType('resource').length") == 0, "the page asks for something else")
    check_example(page, file.parent)
    check_two_shown(page, two)
    check_sizes(page, file.parent / "example.html")
    check_odd(page, file.parent / "odd.html")
    expect(not page.errors, f"the console has {page.errors[:3]}")
    print(f"in a browser: {len(sampled)} calls of 4,096 by the slider, {placed} planes at their places, keys, play, {controls} controls "
          f"by Tab, four sizes, no error; opened in {opened:.2f} s, a move of the slider in {moved:.0f} ms, two frames")


def check_example(page, folder):
    """The example: calls that have no place too."""
    recording = encoded(EXAMPLE.read_text(), folder / "example")
    route = ROOT / "examples/shoal-route.txt"
    text = write_page(folder / "example.html", recording, "--route", route)
    points = len([line for line in route.read_text().splitlines() if line.startswith("point ")])
    expect(all(f">P{n}<" in text or "of the route P" in text for n in range(1, points + 1)), "not every point of the route is on the map")
    flight = Flight(recording, EXAMPLE_LINES.read_text(), text)
    page.open(folder / "example.html")
    for number in (1, 17, 70, 92, 205, len(flight.calls)):
        check_call(page, flight, number)


def check_odd(page, file):
    """Numbers at the ends of their range trouble no script."""
    page.open(file)
    for name in ("End", "+", "Home", "n", "ArrowRight"):
        page.key(name)


def check_two_shown(page, two):
    """The second recording is chosen by its name, and its own calls are shown."""
    page.open(two)
    slide(page, 70)
    first = tile(page, "line")
    page.value("document.querySelector('input[name=shown][value=\"1\"]').click()")
    page.value(browser.FRAME)
    expect(page.value("document.querySelectorAll('.strips:not([hidden])').length") == 1, "not one recording's strips are shown")
    expect(int(page.value("document.getElementById('slider').max")) < 314, "the slider keeps the first recording's calls")
    expect(tile(page, "line") == first, "call 70 of both is one call")
    gone = page.value("(b => b && (b.click(), Number(b.dataset.call)))(document.querySelector('button[data-recording=\"0\"]'))")
    page.value(browser.FRAME)
    expect(gone is None or call_shown(page) == gone, f"the button goes to call {call_shown(page)}, not {gone}")
