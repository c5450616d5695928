// The usage: amounts beside their limits, and the recipients as one bar that adds up.

import { sumBar } from "./chart.js";
import { desk, when } from "./desk.js";
import { drawFullness } from "./overview.js";
import { by, element, row } from "./parts.js";
import { count, span, text } from "./texts.js";

const PARTS = ["pending", "delivered", "failed", "deleted", "expired"];

function drawCounts(told) {
  const labels = ["recipients", "number", "means"].map((it) => text(it));
  const sum = PARTS.reduce((all, part) => all + told[part], 0);
  const rows = PARTS.map((part) => {
    const spot = element("span", { class: `spot ${part}`, "aria-hidden": "true" });
    const name = element("span", {}, spot, text(part));
    return row(labels, [name, count(told[part]), text(`${part}Means`)]);
  });
  const adds = sum === told.accepted ? text("acceptedMeans") : text("acceptedNot", { count: sum });
  rows.push(row(labels, [text("accepted"), count(told.accepted), adds]));
  by("counts").tBodies[0].replaceChildren(...rows);
}

// What else the directory of the relay says of this customer.
function drawKept({ history, notices, delay }) {
  const facts = [
    [text("historyKept"), text("recipientsAll", { count: history })],
    [text("noticesKept"), text("noticesAll", { count: notices })],
    [text("delayKept"), delay ? text("delayAfter", { age: span(delay) }) : text("delayNone")],
  ];
  by("kept").replaceChildren(
    ...facts.flatMap(([name, it]) => [element("dt", {}, name), element("dd", {}, it)]),
  );
}

export function draw() {
  if (!desk.at) return;
  const { usage } = desk;
  drawFullness(by("usage-amounts"));
  const parts = PARTS.map((it) => [it, usage[it]]);
  const said = parts.map(([it, number]) => `${text(it)}: ${count(number)}`).join(", ");
  const label = text("sumLabel", { count: usage.accepted, said });
  by("bar").replaceChildren(sumBar(parts, usage.accepted, label));
  drawCounts(usage);
  drawKept(desk.limits);
}

export const open = draw;

when("changed", draw);
