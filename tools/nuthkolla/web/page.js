"use strict";
(() => {
  const root = document.documentElement;
  const by = (id) => document.getElementById(id);

  // ---- day and night
  const dark = window.matchMedia("(prefers-color-scheme: dark)");
  let chosen = null;
  const screen = () => chosen || (dark.matches ? "night" : "day");
  function paint() {
    root.dataset.theme = screen();
    by("theme").textContent = screen() === "night" ? "Day screen" : "Night screen";
  }
  function turnTheme() {
    chosen = screen() === "night" ? "day" : "night";
    paint();
  }
  dark.addEventListener("change", paint);
  by("theme").hidden = false;
  by("theme").addEventListener("click", turnTheme);
  paint();
  if (!by("data")) return;

  // ---- what the page has: numbers as their bytes, words as a table and a place in it for each call
  const data = JSON.parse(by("data").textContent);
  function bytes(text) {
    const raw = atob(text);
    const found = new Uint8Array(raw.length);
    for (let i = 0; i < raw.length; i++) found[i] = raw.charCodeAt(i);
    return found.buffer;
  }
  const recordings = data.recordings.map((r) => {
    const words = {};
    for (const [name, column] of Object.entries(r.words)) words[name] = { table: column.table, at: new Uint16Array(bytes(column.at)) };
    return {
      ...r,
      words,
      along: new Float64Array(bytes(r.along)),
      place: new Float32Array(bytes(r.place)),
      way: new Float32Array(bytes(r.way)),
      from: new Uint32Array(bytes(r.from)),
      points: new Float32Array(bytes(r.points)),
      marks: new Uint8Array(bytes(r.marks)),
    };
  });
  const tiles = {};
  for (const tile of document.querySelectorAll(".tile")) tiles[tile.id.slice(5)] = { tile, dd: tile.querySelector("dd") };
  const slider = by("slider"), number = by("number"), playing = by("play"), plane = by("plane");
  let shown = 0, at = 0;

  // ---- drawing: from metres and seconds to the drawing's units
  const scaled = (s, v) => s.start + ((v - s.low) / (s.high - s.low)) * (s.end - s.start);
  const within = (s, v) => s.low <= v && v <= s.high;
  const unit = (v) => Math.max(-1e5, Math.min(1e5, v)).toFixed(2);
  const east = (v) => scaled(data.east, v), north = (v) => scaled(data.north, v);

  function head(fromX, fromY, x, y, size) {
    const length = Math.hypot(x - fromX, y - fromY);
    if (!(length > 0)) return "";
    const dx = ((x - fromX) / length) * size, dy = ((y - fromY) / length) * size;
    return `M${unit(x)},${unit(y)}L${unit(x - dx - dy / 2)},${unit(y - dy + dx / 2)}L${unit(x - dx + dy / 2)},${unit(y - dy - dx / 2)}Z`;
  }

  function drawPlane(r) {
    const n = r.place[2 * at], e = r.place[2 * at + 1];
    const seen = within(data.north, n) && within(data.east, e);
    plane.style.display = seen ? "" : "none";
    if (!seen) return;
    const vn = r.way[2 * at], ve = r.way[2 * at + 1];
    const turn = Number.isFinite(vn) && Number.isFinite(ve) ? (Math.atan2(ve, vn) * 180) / Math.PI : 0;
    plane.setAttribute("transform", `translate(${unit(east(e))} ${unit(north(n))}) scale(${1 / zoom}) rotate(${turn.toFixed(0)})`);
  }

  function drawAhead(r) {
    const points = [];
    if (Number.isFinite(r.place[2 * at])) points.push([east(r.place[2 * at + 1]), north(r.place[2 * at])]);
    for (let i = r.from[at]; i < r.from[at + 1]; i++) points.push([east(r.points[2 * i + 1]), north(r.points[2 * i])]);
    const drawn = points.length > 1;
    by("ahead").setAttribute("d", drawn ? "M" + points.map(([x, y]) => `${unit(x)},${unit(y)}`).join("L") : "");
    by("tip").setAttribute("d", drawn ? head(...points[points.length - 2], ...points[points.length - 1], 12 / zoom) : "");
  }

  // ---- a larger map, round the plane: it moves on where the plane comes near its edge
  const whole = by("above").viewBox.baseVal;
  const size = [whole.width, whole.height];
  let zoom = 1, corner = [0, 0];
  function look(x, y) {
    corner = [x, y].map((v, i) => Math.max(0, Math.min(size[i] * (1 - 1 / zoom), v - size[i] / zoom / 2)));
    const box = [...corner, size[0] / zoom, size[1] / zoom].map((v) => v.toFixed(2)).join(" ");
    for (const id of ["ground", "above"]) by(id).setAttribute("viewBox", box);
    by("where").style.setProperty("--zoom", zoom);
    by("zoom").textContent = `× ${zoom}`;
    drawBar();
  }
  function drawBar() {
    by("bar").style.display = zoom > 1 ? "" : "none";
    const perMetre = Math.abs((data.east.end - data.east.start) / (data.east.high - data.east.low)) * zoom;
    const most = 160 / perMetre, ten = 10 ** Math.floor(Math.log10(most));
    const metres = ten * [5, 2, 1].find((m) => m * ten <= most);
    const long = (metres * perMetre) / zoom, x = corner[0] + 14 / zoom, y = corner[1] + size[1] / zoom - 14 / zoom, up = 6 / zoom;
    by("bar").children[0].setAttribute("d", `M${x},${y - up}V${y}H${x + long}V${y - up}`);
    by("bar").children[1].textContent = `${metres} m`;
    by("bar").children[1].setAttribute("x", x + up);
    by("bar").children[1].setAttribute("y", y - up);
  }
  function planeAt() {
    const r = recordings[shown], x = east(r.place[2 * at + 1]), y = north(r.place[2 * at]);
    return plane.style.display === "none" ? [corner[0] + size[0] / zoom / 2, corner[1] + size[1] / zoom / 2] : [x, y];
  }
  function follow() {
    const [x, y] = planeAt();
    const near = (v, i) => v < corner[i] + (0.2 * size[i]) / zoom || v > corner[i] + (0.8 * size[i]) / zoom;
    if (zoom > 1 && (near(x, 0) || near(y, 1))) look(x, y);
  }
  function enlarge(by) {
    const centre = planeAt();
    zoom = Math.max(1, Math.min(16, zoom * by));
    look(...centre);
    draw();
  }

  // ---- a call
  let spoken = 0;
  function speak() {
    clearTimeout(spoken);
    spoken = setTimeout(() => { by("said").textContent = slider.getAttribute("aria-valuetext"); }, 400);
  }

  function draw() {
    const r = recordings[shown];
    const word = (name) => { const column = r.words[name]; return column ? column.table[column.at[at]] : ""; };
    for (const [name, { tile, dd }] of Object.entries(tiles)) {
      dd.textContent = word(name) || "—";
      tile.classList.toggle("alarm", data.alarms[name] !== undefined && !data.alarms[name].includes(word(name)));
    }
    slider.value = at + 1;
    const parts = (name) => (name === "number" ? at + 1 : word(name));
    slider.setAttribute("aria-valuetext", word("said").replace(/@(\w+)@/g, (_, name) => parts(name)));
    if (document.activeElement !== number) number.value = at + 1;
    drawPlane(r);
    follow();
    drawAhead(r);
    const x = unit(scaled(r.scale, r.along[at]));
    r.cursor.setAttribute("transform", `translate(${x} 0)`);
    if (!timer) speak();
  }

  let asked = false;
  function show(call) {
    at = Math.max(0, Math.min(recordings[shown].along.length - 1, call));
    if (asked) return;
    asked = true;
    requestAnimationFrame(() => { asked = false; draw(); });
  }

  function pick(n) {
    shown = n;
    document.querySelectorAll(".strips").forEach((e, i) => { e.hidden = i !== n; });
    slider.max = number.max = recordings[n].along.length;
    plane.classList.toggle("second", n > 0);
    go(at);
  }

  // ---- playing: as time passes along the strips' axis, so many times as fast
  let timer = 0, clock = 0, last = 0;
  function pause() {
    cancelAnimationFrame(timer);
    timer = 0;
    playing.textContent = "Play";
  }
  function tick(now) {
    const along = recordings[shown].along;
    clock += (Math.min(now - last, 250) / 1000) * Number(by("speed").value);
    last = now;
    let call = at;
    while (call + 1 < along.length && along[call + 1] <= clock) call++;
    if (call !== at) { at = call; draw(); }
    if (at + 1 < along.length) timer = requestAnimationFrame(tick);
    else { pause(); draw(); }
  }
  function play() {
    if (timer) { pause(); draw(); return; }
    const along = recordings[shown].along;
    if (at + 1 >= along.length) at = 0;
    clock = along[at];
    last = performance.now();
    playing.textContent = "Pause";
    draw();
    timer = requestAnimationFrame(tick);
  }
  function go(call) {
    clock = recordings[shown].along[Math.max(0, Math.min(recordings[shown].along.length - 1, call))];
    show(call);
  }

  // ---- marks: a mark begins where a call has another one than the call before
  function mark(way) {
    const marks = recordings[shown].marks;
    for (let i = at + way; i >= 0 && i < marks.length; i += way) if (marks[i] && (i === 0 || marks[i] !== marks[i - 1])) return go(i);
  }

  // ---- controls
  slider.addEventListener("input", () => go(Number(slider.value) - 1));
  number.addEventListener("change", () => go(Math.round(Number(number.value)) - 1 || 0));
  playing.addEventListener("click", play);
  by("back").addEventListener("click", () => go(at - 1));
  by("on").addEventListener("click", () => go(at + 1));
  by("previous").addEventListener("click", () => mark(-1));
  by("next").addEventListener("click", () => mark(1));
  by("larger").addEventListener("click", () => enlarge(2));
  by("smaller").addEventListener("click", () => enlarge(1 / 2));
  by("whole").addEventListener("click", () => enlarge(0));
  document.querySelectorAll("input[name=shown]").forEach((e) => e.addEventListener("change", () => pick(Number(e.value))));
  document.querySelectorAll("button[data-call]").forEach((e) => e.addEventListener("click", () => {
    const n = Number(e.dataset.recording);
    const radio = document.querySelector(`input[name=shown][value="${n}"]`);
    if (radio) radio.checked = true;
    pick(n);
    go(Number(e.dataset.call) - 1);
  }));

  const keys = {
    ArrowRight: (e) => go(at + (e.shiftKey ? 10 : 1)),
    ArrowUp: (e) => go(at + (e.shiftKey ? 10 : 1)),
    ArrowLeft: (e) => go(at - (e.shiftKey ? 10 : 1)),
    ArrowDown: (e) => go(at - (e.shiftKey ? 10 : 1)),
    PageUp: () => go(at + 100),
    PageDown: () => go(at - 100),
    Home: () => go(0),
    End: () => go(recordings[shown].along.length - 1),
    " ": play,
    n: () => mark(1),
    p: () => mark(-1),
    t: turnTheme,
    "+": () => enlarge(2),
    "=": () => enlarge(2),
    "-": () => enlarge(1 / 2),
    0: () => enlarge(0),
  };
  // Keys that scroll the page do so where the slider is not in focus; a field has all of its own keys, a button its space.
  const scrolling = ["ArrowUp", "ArrowDown", "PageUp", "PageDown"];
  document.addEventListener("keydown", (e) => {
    const key = e.key.length === 1 ? e.key.toLowerCase() : e.key;
    const target = e.target, onSlider = target === slider;
    if (e.ctrlKey || e.altKey || e.metaKey || !keys[key]) return;
    if (!onSlider && target.matches("input, select") || target.matches("button") && key === " ") return;
    if (!onSlider && scrolling.includes(key)) return;
    e.preventDefault();
    keys[key](e);
  });

  // ---- clicks: a place of a drawing in its own units
  function placeOf(svg, e) {
    const p = new DOMPoint(e.clientX, e.clientY).matrixTransform(svg.getScreenCTM().inverse());
    return [p.x, p.y];
  }
  function nearest(distance) {
    let found = at, least = Infinity;
    for (let i = 0; i < recordings[shown].along.length; i++) {
      const d = distance(i);
      if (d < least) { least = d; found = i; }
    }
    return found;
  }
  by("ground").addEventListener("click", (e) => {
    const [x, y] = placeOf(by("ground"), e), place = recordings[shown].place;
    go(nearest((i) => Math.hypot(east(place[2 * i + 1]) - x, north(place[2 * i]) - y)));
  });
  recordings.forEach((r, n) => {
    const strips = document.querySelectorAll(".strips")[n];
    r.cursor = strips.querySelector(".cursor-at");
    strips.addEventListener("click", (e) => {
      const [x] = placeOf(strips.querySelector(".standing"), e);
      go(nearest((i) => Math.abs(scaled(r.scale, r.along[i]) - x)));
    });
  });

  pick(0);
})();
