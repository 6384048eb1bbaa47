"use strict";
const COLOURS = ["#ffd54a", "#4be38d", "#5bb8ff", "#ff7ab8"];
const UNPLUGGED = 10000; // ohms
const MODES = ["CV", "CC", "OFF", "TRIP"];
const TITLES = {
  OPER: "OPERation summary", MSS: "a service request is due", ESB: "event status summary", QUES: "QUEStionable summary",
  MAV: "message available, of this page's own session", ERR: "the error queue is not empty", PON: "power-on",
  CME: "command error", EXE: "execution error", DDE: "device error", OPC: "operation complete",
  LIMIT: "an output is in current limit", TRIP: "an output is tripped",
};
const SEGMENTS = { "0": "abcdef", "1": "bc", "2": "abged", "3": "abgcd", "4": "fgbc", "5": "afgcd", "6": "afgedc",
  "7": "abc", "8": "abcdefg", "9": "abcdfg", "-": "g", " ": "" };
const find = id => document.getElementById(id);
let points = [], last = 0;

function made(parent, tag, kind, text) {
  const it = document.createElement(tag);
  if (kind) it.className = kind;
  if (text) it.textContent = text;
  parent.append(it);
  return it;
}

function lamp(parent, name) {
  const it = made(parent, "span", "lamp " + name, name);
  it.title = TITLES[name] || "";
  return it;
}

// Digits of seven segments, 20 by 36, with segments 4.4 thick.
function bar(x, y, dx, dy) {
  const t = 2.2, length = Math.hypot(dx, dy), ux = dx / length * t, uy = dy / length * t;
  const corners = [
    [0, 0], [ux - uy, uy + ux], [dx - ux - uy, dy - uy + ux],
    [dx, dy], [dx - ux + uy, dy - uy - ux], [ux + uy, uy - ux],
  ];
  return corners.map(([a, b]) => (x + a).toFixed(1) + "," + (y + b).toFixed(1)).join(" ");
}
const BARS = { a: bar(3, 2.5, 14, 0), b: bar(17.5, 3, 0, 14.5), c: bar(17.5, 18.5, 0, 14.5), d: bar(3, 33.5, 14, 0),
  e: bar(2.5, 18.5, 0, 14.5), f: bar(2.5, 3, 0, 14.5), g: bar(3, 18, 14, 0) };

function digits(text) {
  let x = 0, shapes = "";
  for (const it of text) {
    if (it === ".") {
      shapes += `<circle class="seg on" cx="${x - .6}" cy="33.6" r="2.4"/>`;
      x += 5.5;
      continue;
    }
    const lit = SEGMENTS[it] || "";
    for (const name in BARS) {
      const kind = lit.includes(name) ? "seg on" : "seg";
      shapes += `<polygon class="${kind}" points="${BARS[name]}" transform="translate(${x})"/>`;
    }
    x += 26;
  }
  return `<svg viewBox="0 0 ${x - 4} 36">${shapes}</svg>`;
}

// A button: what it asks for is done, or the header says why not.
function makeKey(parent, text, title, act) {
  const it = made(parent, "button", "", text);
  it.title = title;
  it.onclick = act;
}

async function send(path) {
  const answer = await fetch(path, { method: "POST", headers: { "X-Psu-Panel": "1" } });
  find("said").textContent = answer.ok ? "" : await answer.text();
}

const setLoad = (output, ohms) => send(`load?output=${output}&milliohms=${Math.round(ohms * 1000)}`);
find("power-cut").onclick = () => send("power-cut");

function makeKeys(card, output) {
  const keys = made(card, "div", "keys"), ohms = made(keys, "input");
  Object.assign(ohms, { type: "number", min: .001, max: UNPLUGGED, step: .001, value: 10, title: "ohms" });
  makeKey(keys, "Set load", "these ohms", () => setLoad(output, ohms.value));
  makeKey(keys, "Unplug", `${UNPLUGGED} ohms, the most`, () => setLoad(output, UNPLUGGED));
}

function makeReading(card, unit) {
  const row = made(card, "div", "reading");
  const shown = made(row, "span");
  shown.style.height = "100%";
  made(row, "b", "", unit);
  return shown;
}

function makeOutput(index) {
  const card = made(find("outputs"), "div", "output glass");
  card.style.setProperty("--colour", COLOURS[index]);
  const top = made(card, "div", "top");
  made(top, "h2", "", "Output " + (index + 1));
  const lamps = made(top, "div", "lamps");
  const modes = MODES.map(name => lamp(lamps, name));
  const volts = makeReading(card, "V"), amperes = makeReading(card, "A");
  const list = made(card, "dl"), rows = {};
  for (const name of ["Set", "Limit", "Protection", "Load", "Power"]) {
    made(list, "dt", "", name);
    rows[name] = made(list, "dd");
  }
  makeKeys(card, index + 1);
  return { card, modes, volts, amperes, rows };
}

function makeRegister([title, key, bits]) {
  const place = /questionable|operation/.test(key) ? "questionable" : "status";
  const row = made(find(place), "div", "register" + (key.endsWith("enable") ? " enable" : ""));
  made(row, "span", "quiet", title);
  const value = made(row, "span", "value"), lamps = made(row, "span", "lamps");
  return { key, value, bits: bits.map(([bit, name]) => [bit, lamp(lamps, name)]) };
}

for (const legend of document.querySelectorAll(".legend"))
  COLOURS.forEach((colour, index) => { made(legend, "i", "", "\u2501 " + (index + 1)).style.color = colour; });
const cards = [0, 1, 2, 3].map(makeOutput), registers = REGISTERS.map(makeRegister);

function put(element, text) {
  if (element.dataset.text !== text) {
    element.dataset.text = text;
    element.innerHTML = digits(text);
  }
}

function showOutput(card, it) {
  card.modes.forEach((lamp, index) => lamp.classList.toggle("on", MODES[index] === it.mode));
  card.card.classList.toggle("dim", it.mode === "OFF" || it.mode === "TRIP");
  put(card.volts, it.volts.toFixed(3).padStart(6));
  put(card.amperes, it.amperes.toFixed(3));
  card.rows.Set.textContent = it.set_volts.toFixed(3) + " V";
  card.rows.Limit.textContent = it.set_amperes.toFixed(3) + " A";
  const level = it.level.toFixed(3) + " V";
  card.rows.Protection.textContent = it.is_protected ? "above " + level : `off (${level})`;
  card.rows.Protection.className = it.is_protected ? "" : "off";
  card.rows.Load.textContent = it.load.toFixed(3) + " \u03a9";
  card.rows.Power.textContent = (it.volts * it.amperes).toFixed(3) + " W";
}

function showRegister(register, values) {
  const value = values[register.key];
  register.value.textContent = value;
  for (const [bit, lamp] of register.bits) lamp.classList.toggle("on", (value >> bit & 1) === 1);
}

function showState(report) {
  const age = report.age < 90 ? Math.round(report.age) + " s" : Math.round(report.age / 60) + " min";
  const old = report.values ? ` \u00b7 values of ${age} ago` : "";
  const texts = { live: "LIVE", locked: "LOCKED: " + report.note + old, lost: "NO CONNECTION: " + report.note + old };
  find("state").className = report.state;
  find("state").textContent = texts[report.state];
  find("panel").classList.toggle("stale", report.state !== "live");
}

function show(report) {
  showState(report);
  find("power-cut").hidden = !report.can_cut_power;
  find("where").textContent = `127.0.0.1:${report.port} \u00b7 HiSLIP`;
  const values = report.values;
  if (!values) return;
  const [maker, model, serial, version] = values.name.split(",");
  find("name").textContent = `${maker} ${model}`;
  find("name").title = `serial number ${serial}, version ${version}`;
  cards.forEach((card, index) => showOutput(card, values.outputs[index]));
  registers.forEach(register => showRegister(register, values));
  find("errors").textContent = values.errors;
  find("errors").classList.toggle("some", values.errors > 0);
}

// The plot: points are [time in seconds, four voltages, four currents].
function keep(report, now) {
  for (const [age, ...rest] of report.points) points.push([now - age, ...rest]);
  points = points.filter(it => it[0] >= now - report.seconds);
  last = report.last;
}

// The distance of two grid lines, of which at most six are needed.
function stepOf(top) {
  const power = 10 ** Math.floor(Math.log10(top / 5));
  return power * [1, 2, 5, 10].find(it => it * power >= top / 5.5 - 1e-9);
}

function draw(id, first, least, report, now) {
  const canvas = find(id), scale = window.devicePixelRatio || 1;
  const width = canvas.clientWidth, height = canvas.clientHeight;
  canvas.width = width * scale;
  canvas.height = height * scale;
  const pen = canvas.getContext("2d");
  pen.scale(scale, scale);
  const box = { x: 34, y: 6, w: width - 42, h: height - 26 };
  const most = Math.max(least, ...points.map(it => Math.max(...it.slice(first, first + 4)))) * 1.04;
  const step = stepOf(most), count = Math.ceil(most / step - 1e-9), top = step * count;
  grid(pen, box, step, count, report.seconds);
  for (let output = 3; output >= 0; output--) line(pen, box, top, report, now, first + output, COLOURS[output]);
}

function grid(pen, box, step, count, seconds) {
  pen.font = "11px Liberation Sans, Arial, sans-serif";
  pen.fillStyle = "#7f8b9b";
  pen.strokeStyle = "#1c232b";
  pen.lineWidth = 1;
  pen.textAlign = "right";
  pen.textBaseline = "middle";
  for (let it = 0; it <= count; it++) {
    const y = Math.round(box.y + box.h - box.h * it / count) + .5;
    stroke(pen, box.x, y, box.x + box.w, y);
    pen.fillText(String(+(step * it).toFixed(3)), box.x - 7, y);
  }
  pen.textAlign = "center";
  pen.textBaseline = "top";
  const apart = seconds <= 180 ? 30 : Math.max(60, Math.round(seconds / 300) * 60);
  for (let age = 0; age <= seconds; age += apart) {
    const x = Math.round(box.x + box.w - box.w * age / seconds) + .5;
    const text = age ? `\u2212${Math.floor(age / 60)}:${String(age % 60).padStart(2, "0")}` : "now";
    stroke(pen, x, box.y, x, box.y + box.h);
    pen.fillText(text, Math.min(x, box.x + box.w - 8), box.y + box.h + 6);
  }
}

function stroke(pen, x0, y0, x1, y1) {
  pen.beginPath();
  pen.moveTo(x0, y0);
  pen.lineTo(x1, y1);
  pen.stroke();
}

// A line is broken where no values were read, as under another session's lock. Between two readings it is a step.
function line(pen, box, top, report, now, column, colour) {
  pen.strokeStyle = colour;
  pen.lineWidth = 1.8;
  pen.lineJoin = "round";
  pen.beginPath();
  let before = null;
  for (const it of points) {
    const x = box.x + box.w * (1 - (now - it[0]) / report.seconds), y = box.y + box.h * (1 - it[column] / top);
    if (before && it[0] - before[0] < Math.max(3 * report.interval, 3)) {
      pen.lineTo(x, before[1]);
      pen.lineTo(x, y);
    } else pen.moveTo(x, y);
    before = [it[0], y];
  }
  pen.stroke();
}

async function step() {
  const now = performance.now() / 1000;
  let report;
  try {
    report = await (await fetch("values?last=" + last, { cache: "no-store" })).json();
  } catch (fault) {
    find("state").className = "lost";
    find("state").textContent = "NO CONNECTION: psu-panel has ended";
    find("panel").classList.add("stale");
    setTimeout(step, 1000);
    return;
  }
  if (report.last < last) {
    // psu-panel was started again: take all of its points.
    points = [];
    last = 0;
    return step();
  }
  keep(report, now);
  show(report);
  draw("volts", 1, 1, report, now);
  draw("amperes", 5, .1, report, now);
  setTimeout(step, Math.max(200, report.interval * 1000));
}
step();
