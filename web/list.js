// The rows of the queue: some hundred at once, more as one comes to their end. A row stays the same
// element as long as its message is shown, so that focus and marks survive a refresh.

import { leaving } from "./acts.js";
import { causeOfMessage } from "./causes.js";
import { now } from "./desk.js";
import { answerOf, reasonOf } from "./report.js";
import { shortened } from "./groups.js";
import { by, chip, focused, foreign } from "./parts.js";
import { moment, size, span, text } from "./texts.js";

// (a screen has some fifteen rows: the first few are drawn within the first frame)
const STEP = 60;
const body = by("messages").tBodies[0];
const template = by("message-row").content.firstElementChild;
// (white space between cells would be ten nodes more in each row)
template.replaceChildren(...template.children);

const rows = new Map();
export const marks = new Set();
let shown = [];
let drawn = 0;
let active = null;

const end = new IntersectionObserver((changes) => {
  if (changes.some((it) => it.isIntersecting)) more();
}, { rootMargin: "600px" });
end.observe(by("list-end"));

function newRow(id) {
  const row = template.cloneNode(true);
  row.dataset.id = id;
  row.querySelector("input").setAttribute("aria-label", text("markOne", { id }));
  return row;
}

function recipients(/** @type {Message} */ { pending }) {
  const [first] = pending;
  if (!first) return [];
  const rest = pending.length - 1;
  return [foreign(first.address), rest ? ` ${text("andMore", { count: rest })}` : ""];
}

// The answer that a message waits for, whole and as a row has room for.
function why(/** @type {Message} */ message) {
  if (message.state === "hold") return [reasonOf(message), reasonOf(message)];
  const last = message.pending.find((it) => it.status);
  if (!last) return [text("notTried"), text("notTried")];
  return [answerOf(message), `${last.status} ${shortened(last.text)}`];
}

// (a row whose message is as it was costs nothing)
function fill(row, /** @type {Message} */ message) {
  const { id, state, reason } = message;
  const is = `${state} ${reason} ${answerOf(message)} ${message.pending.length}`;
  row.classList.toggle("leaving", leaving.has(id));
  row.querySelector("input").checked = marks.has(id);
  row.setAttribute("aria-selected", marks.has(id));
  const age = row.querySelector("time");
  age.textContent = span(Math.max(0, now() - message.arrival));
  if (row.dataset.is === is) return;
  row.dataset.is = is;
  const [, people, said, states, arrived, bytes] = row.cells;
  const from = message.sender ? foreign(message.sender) : text("nullSender");
  people.children[0].replaceChildren(from);
  people.children[1].replaceChildren(...recipients(message));
  const [whole, short] = why(message);
  said.firstElementChild.textContent = said.firstElementChild.title = causeOfMessage(message);
  said.lastElementChild.replaceChildren(foreign(short));
  said.lastElementChild.title = whole;
  states.replaceChildren(chip(state));
  moment(message.arrival, age);
  arrived.title = age.textContent;
  age.textContent = span(Math.max(0, now() - message.arrival));
  bytes.textContent = size(message.size);
}

function rowOf(/** @type {Message} */ message) {
  const row = rows.get(message.id) ?? newRow(message.id);
  rows.set(message.id, row);
  fill(row, message);
  return row;
}

// Puts more rows below those that are there.
function more() {
  const next = shown.slice(drawn, drawn + STEP);
  if (!next.length) return;
  body.append(...next.map(rowOf));
  drawn += next.length;
  numbered();
}

// (on paper nobody comes to the end of a list)
addEventListener("beforeprint", () => {
  while (drawn < shown.length) more();
});

function numbered() {
  by("messages").setAttribute("aria-rowcount", shown.length + 1);
  [...body.rows].forEach((it, at) => it.setAttribute("aria-rowindex", at + 2));
}

// One row alone is a stop of Tab: arrows go from row to row.
function activate(row) {
  if (active && active !== row) active.tabIndex = -1;
  active = row;
  if (row) row.tabIndex = 0;
}

// Has the table these rows in this order, and moves none that stands right: one that is moved loses
// the focus, and the page its place.
function place(wanted) {
  const keep = new Set(wanted);
  for (const it of [...body.rows]) if (!keep.has(it)) it.remove();
  let next = body.firstElementChild;
  for (const it of wanted) {
    if (it === next) next = it.nextElementSibling;
    else body.insertBefore(it, next);
  }
}

// Shows these messages, in this order.
export function list(/** @type {Message[]} */ messages) {
  const had = body.contains(focused()) ? focused().closest("tr") : null;
  const hadPlace = had ? had.sectionRowIndex : 0;
  const next = active?.isConnected ? active.sectionRowIndex : 0;
  const keep = shown.length && messages[0]?.id === shown[0]?.id ? drawn : STEP;
  shown = messages;
  const ids = new Set(messages.slice(0, Math.max(keep, STEP)).map((it) => it.id));
  for (const id of rows.keys()) if (!ids.has(id)) rows.delete(id);
  const wanted = messages.slice(0, ids.size).map(rowOf);
  place(wanted);
  drawn = wanted.length;
  numbered();
  if (!active?.isConnected) activate(body.rows[Math.min(next, body.rows.length - 1)] ?? null);
  if (had && document.activeElement !== had && !by("question").open) {
    focusOn(body.contains(had) ? had : body.rows[Math.min(hadPlace, body.rows.length - 1)]);
  }
}

export function focusOn(row) {
  if (!row) return by("search").focus();
  activate(row);
  return row.focus();
}

export const activeRow = () => active;
export const rowFor = (id) => rows.get(id);
export const messagesShown = () => shown;

// ---- marks

export function mark(id, on) {
  if (on) marks.add(id);
  else marks.delete(id);
  const row = rows.get(id);
  if (!row) return;
  row.querySelector("input").checked = on;
  row.setAttribute("aria-selected", on);
}

export function markAll(on) {
  for (const { id } of shown) mark(id, on);
}

// ---- the keyboard

const PAGE = 10;

function targetOf(row, key) {
  const at = row.sectionRowIndex;
  const steps = { ArrowDown: 1, ArrowUp: -1, PageDown: PAGE, PageUp: -PAGE };
  if (key === "Home") return body.rows[0];
  if (key === "End") return body.rows[body.rows.length - 1];
  if (!(key in steps)) return null;
  while (at + steps[key] >= drawn && drawn < shown.length) more();
  return body.rows[Math.max(0, Math.min(drawn - 1, at + steps[key]))];
}

// What the keys of a row do: arrows move, Space marks, Enter opens.
export function whenKeysOf({ opens, marked }) {
  body.addEventListener("keydown", (event) => {
    const row = event.target.closest("tr");
    if (!row || event.altKey) return;
    if ((event.ctrlKey || event.metaKey) && event.key === "a") {
      markAll(true);
      marked();
    } else if (event.key === " " && event.target === row) {
      mark(row.dataset.id, !marks.has(row.dataset.id));
      marked();
    } else if (event.key === "Enter") {
      opens(row.dataset.id);
    } else {
      const target = targetOf(row, event.key);
      if (!target) return;
      focusOn(target);
    }
    event.preventDefault();
  });
  body.addEventListener("click", ({ target }) => {
    const row = target.closest("tr");
    if (!row) return;
    activate(row);
    if (target.closest("td").cellIndex > 0) return opens(row.dataset.id);
    if (target.matches("input")) mark(row.dataset.id, target.checked);
    return marked();
  });
}

