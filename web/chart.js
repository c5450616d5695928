// The charts of the page, as SVG: the ages of a queue, and the parts of a sum.

import { AGES, STATES } from "./groups.js";
import { element, shape } from "./parts.js";
import { count, text } from "./texts.js";

const HEIGHT = 110;
const COLUMN = 60;
const BAR = 40;
const ROOF = 18;

// A column's name: "up to 4 h", "over 4 d".
export function ageName(at) {
  const hours = AGES[at];
  if (hours === Infinity) return text("agesOver", { count: AGES[at - 1] / 24 });
  return hours <= 24 ? text("hours", { count: hours }) : text("days", { count: hours / 24 });
}

function column(counts, at, most) {
  const x = at * COLUMN + (COLUMN - BAR) / 2;
  const all = STATES.reduce((sum, it) => sum + counts[it], 0);
  const made = shape("g");
  let y = HEIGHT + ROOF;
  for (const state of STATES) {
    // (a few among many are seen nevertheless)
    const height = counts[state] ? Math.max(3, (HEIGHT * counts[state]) / most) : 0;
    y -= height;
    if (height) made.append(shape("rect", { class: `part ${state}`, x, y, width: BAR, height }));
  }
  const middle = at * COLUMN + COLUMN / 2;
  if (all) made.append(shape("text", { class: "figure", x: middle, y: y - 5 }, count(all)));
  made.append(shape("text", { x: middle, y: HEIGHT + ROOF + 17 }, ageName(at)));
  return made;
}

// How old messages are, by state.
export function agesChart(columns) {
  const sums = columns.map((it) => STATES.reduce((sum, state) => sum + it[state], 0));
  const most = Math.max(1, ...sums);
  const said = sums.map((sum, at) => `${ageName(at)}: ${count(sum)}`).join(", ");
  const box = `0 0 ${COLUMN * AGES.length} ${HEIGHT + ROOF + 24}`;
  const label = text("agesLabel", { said });
  const made = shape("svg", { viewBox: box, role: "img", "aria-label": label });
  const [y, end] = [HEIGHT + ROOF + 0.5, COLUMN * AGES.length];
  made.append(...columns.map((it, at) => column(it, at, most)));
  made.append(shape("line", { x1: 0, x2: end, y1: y, y2: y }));
  return made;
}

// The parts of a sum beside each other, in one bar that ends where they do.
export function sumBar(parts, of, label) {
  const box = { viewBox: "0 0 1000 40", preserveAspectRatio: "none" };
  const made = shape("svg", { ...box, role: "img", "aria-label": label });
  let x = 0;
  for (const [name, number] of parts) {
    const width = of ? (1000 * number) / of : 0;
    made.append(shape("rect", { class: `part ${name}`, x, y: 0, width, height: 40 }));
    x += width;
  }
  return made;
}

// from this part of a limit on a bar warns, and from the next it is as good as full
const [HIGH, FULL] = [0.75, 0.95];

// How much there is of what may be kept, as a text and as a bar.
export function fullness(name, there, most, shown = count) {
  const part = most ? there / most : 0;
  const level = part >= FULL ? "full" : part >= HIGH ? "high" : "low";
  const words = text("of", { there: shown(there), most: shown(most) });
  const facts = { "aria-valuemin": 0, "aria-valuemax": most, "aria-valuenow": there };
  const bar = element("div");
  bar.style.width = `${Math.min(100, 100 * part)}%`;
  const names = { class: "meter", role: "meter", "aria-label": name, "aria-valuetext": words };
  const meter = element("div", { ...names, ...facts }, bar);
  const amount = element("span", { class: "amount" }, words);
  return element("div", { class: `fullness ${level}` }, element("dt", {}, name),
    element("dd", {}, amount, meter));
}
