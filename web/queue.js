// The queue: search, filters and order, what is marked and what is done to it, and the list with
// the detail beside it. All of it is known from the report, so that nothing waits for the desk.

import { act, actAll, actGroup, drawnBy, leaving } from "./acts.js";
import { call, found } from "./api.js";
import { csvOf } from "./csv.js";
import { desk, now, refresh, when } from "./desk.js";
import { ageName } from "./chart.js";
import { close, isOpen, openDetail, redraw } from "./detail.js";
import { AGES, byDomain, columnOf, isIn, STATES } from "./groups.js";
import {
  activeRow, focusOn, list, mark, markAll, marks, messagesShown, rowFor, whenKeysOf,
} from "./list.js";
import { answerOf } from "./report.js";
import { all, by, download, element, foreign, sayNothing, trying } from "./parts.js";
import { goTo, viewOfAddress, wordsOfAddress } from "./place.js";
import { stopSender } from "./stop.js";
import { text } from "./texts.js";

// Of the domains that are offered, and how long after a key the desk is asked, in milliseconds.
const DOMAINS = 50;
const BEHIND_KEYS = 400;
// What may be a pattern of the desk: an address, a domain, a name with its @.
const PATTERN = /^(?:[^\s@]+@|(?:[^\s@]+@)?\.?[a-z0-9_-]+(?:\.[a-z0-9_-]+)+)$/;
// Of a file of the queue.
const COLUMNS = [
  "arrival", "id", "recipient", "sender", "size", "state", "reason", "status", "text",
];
// From so many marked messages on, patterns are worth a question.
const MANY = 100;

const byText = (of) => (a, b) => of(a).localeCompare(of(b)) || b.arrival - a.arrival;
const newest = (a, b) => b.arrival - a.arrival || (a.id < b.id ? 1 : -1);
const ORDERS = {
  newest,
  oldest: (a, b) => newest(b, a),
  largest: (a, b) => b.size - a.size || newest(a, b),
  sender: byText((it) => it.sender),
  recipient: byText((it) => it.pending[0]?.address ?? ""),
  answer: byText(answerOf),
};

// the group that is shown alone, and what the desk is asked for
let group = null;
let searching = 0;
let timer = 0;
let frame = 0;

// ---- what is shown

function isShown() {
  const [state, age, domain] = ["state", "age", "domain"].map((it) => by(`only-${it}`).value);
  const words = by("search").value.trim().toLowerCase();
  const moment = now();
  return (it) =>
    (!state || it.state === state)
    && (!domain || it.domains.includes(domain))
    && (!age || columnOf(Math.max(0, moment - it.arrival)) === Number(age))
    && (!group || isIn(it, group))
    && (!words || it.all.includes(words));
}

const isFiltered = () =>
  Boolean(group || ["search", "only-state", "only-age", "only-domain"].some((it) => by(it).value));

function tellCount(number) {
  const all = desk.messages.length;
  const words = isFiltered()
    ? text("found", { count: all, number })
    : all ? text("messagesAll", { count: all }) : text("emptyQueue");
  by("shown").textContent = searching ? text("searching", { words }) : words;
  by("filter-none").hidden = !isFiltered();
  by("empty").hidden = number > 0;
  by("empty").textContent = text(isFiltered() ? "nothingFound" : "emptyQueue");
  by("messages").hidden = by("queue-csv").hidden = number === 0;
}

export function draw() {
  if (!desk.at) return;
  for (const it of marks) if (!desk.byId.has(it)) marks.delete(it);
  const shown = desk.messages.filter(isShown()).sort(ORDERS[by("order").value]);
  // what is not seen is never done anything to
  const ids = new Set(shown.map((it) => it.id));
  for (const it of marks) if (!ids.has(it)) marks.delete(it);
  // (what a button of the detail does is seen in the list)
  if (isOpen() && desk.byId.has(isOpen()) && !ids.has(isOpen())) shut();
  by("only-group").hidden = !group;
  by("only-group-name").replaceChildren(group ? foreign(group.words) : "");
  list(shown);
  tellCount(shown.length);
  tellMarks();
  redraw();
  tellAddress();
}

// ---- the address

const FILTERS = ["state", "age", "domain"];

// (a group is of one look at the queue, and has no address)
function tellAddress(isStep = false) {
  if (by("queue").hidden || viewOfAddress() !== "queue") return;
  const order = by("order").value;
  const filters = FILTERS.map((it) => [it, by(`only-${it}`).value]);
  const words = { words: by("search").value.trim(), order: order === "newest" ? "" : order };
  goTo("queue", { ...words, ...Object.fromEntries(filters), message: isOpen() }, isStep);
}

// Shows what the address says: behind a reload, Back, or a link that somebody kept.
export function takeAddress() {
  const words = wordsOfAddress();
  by("search").value = words.get("words") ?? "";
  const [order, state, age] = ["order", "state", "age"].map((it) => words.get(it) ?? "");
  by("order").value = order in ORDERS ? order : "newest";
  by("only-state").value = STATES.includes(state) ? state : "";
  by("only-age").value = Number(age) in AGES ? age : "";
  chooseDomain(words.get("domain") ?? "");
  const id = words.get("message") ?? "";
  if (isOpen() && isOpen() !== id) shut();
  draw();
  if (desk.byId.has(id) && isOpen() !== id) openRow(id, false);
}

// (several keys within one frame are one drawing)
function drawSoon() {
  cancelAnimationFrame(frame);
  frame = requestAnimationFrame(draw);
}

export function open() {
  offerDomains();
  draw();
}

function option(value, words) {
  return element("option", { value }, words);
}

function offerDomains() {
  const field = by("only-domain");
  const chosen = field.value;
  const domains = byDomain(desk.messages).slice(0, DOMAINS).map((it) => it.name);
  if (chosen && !domains.includes(chosen)) domains.push(chosen);
  field.replaceChildren(option("", text("anyDomain")), ...domains.map((it) => option(it, it)));
  field.value = chosen;
}

// (a domain of which nothing waits may be asked for, too)
function chooseDomain(domain) {
  offerDomains();
  if (domain && ![...by("only-domain").options].some((it) => it.value === domain)) {
    by("only-domain").append(option(domain, domain));
  }
  by("only-domain").value = domain;
}

// Shows these messages alone: those of a state, a domain, a group, or some words.
/** @param {{ state?: string, domain?: string, words?: string, group?: Group | null }} only */
export function show({ state = "", domain = "", words = "", group: one = null }) {
  by("search").value = words;
  by("only-state").value = state;
  by("only-age").value = "";
  chooseDomain(domain);
  group = one;
  document.dispatchEvent(new CustomEvent("turn", { detail: "queue" }));
  draw();
}

function showAll() {
  show({});
  by("search").focus();
}

// ---- the search: here at once, and at the desk for what came in since

async function askDesk(words) {
  const mine = ++searching;
  const last = desk.messages.at(-1)?.id ?? null;
  tellCount(messagesShown().length);
  let isNew = false;
  await trying(async () => {
    for (const side of ["sender", "recipient"]) {
      const pages = found({ class: side, pattern: words }, last);
      isNew ||= (await pages.next()).value.length > 0;
      if (mine !== searching) return;
    }
  });
  if (isNew) await refresh();
  if (mine !== searching) return;
  searching = 0;
  drawSoon();
}

function search() {
  const words = by("search").value.trim().toLowerCase();
  clearTimeout(timer);
  searching = 0;
  drawSoon();
  if (PATTERN.test(words)) timer = setTimeout(() => askDesk(words), BEHIND_KEYS);
}

// ---- marks and what is done

function tellMarks() {
  const number = marks.size;
  const all = messagesShown().length;
  by("marked-tools").hidden = number === 0;
  by("marked").textContent = text("marked", { count: number });
  by("mark-all").checked = number > 0 && number === all;
  by("mark-all").indeterminate = number > 0 && number < all;
}

function doMarked(name) {
  const messages = desk.messages.filter((it) => marks.has(it.id));
  const ids = messages.map((it) => it.id);
  if (ids.length > MANY && ["hold", "release"].includes(name)) {
    return actGroup(name, messages, text("marked", { count: ids.length }));
  }
  return act(name, ids);
}

function openRow(id, isStep = true) {
  const does = (name, { sender }) => (name === "stop" ? stopSender(sender) : act(name, [id]));
  openDetail(id, { does, quiet: !isStep });
  tellAddress(isStep);
  for (const it of document.querySelectorAll("tr.opened")) it.classList.remove("opened");
  rowFor(id)?.classList.add("opened");
}

// Opens a message from elsewhere: by its ID, from a notice or the history.
export function showMessage(id) {
  show({});
  if (rowFor(id)) rowFor(id).scrollIntoView({ block: "nearest" });
  openRow(id);
}

function shut() {
  close();
  for (const it of document.querySelectorAll("tr.opened")) it.classList.remove("opened");
}

export function closeDetail() {
  const id = isOpen();
  shut();
  tellAddress();
  focusOn(rowFor(id) ?? null);
}

// Saves what is shown, all rows of it: one for each recipient that waits.
function save() {
  const rows = messagesShown().flatMap(({ pending, ...it }) => pending.map((one) => {
    const { address: recipient, status, text: said } = one;
    const named = { ...it, recipient, status, text: said };
    return COLUMNS.map((name) => named[name]);
  }));
  download("queue.csv", csvOf([COLUMNS, ...rows]));
}

async function showReport() {
  by("report-text").textContent = (await call("GET", "/v1/report")).report;
  by("report").showModal();
}

// ---- what is pressed

by("only-state").append(option("", text("anyState")), ...STATES.map((it) => option(it, text(it))));
by("only-age").append(
  option("", text("anyAge")),
  ...AGES.map((_, at) => option(at, text("upTo", { age: ageName(at) }))),
);
by("only-age").lastChild.textContent = ageName(AGES.length - 1);
by("order").append(...Object.keys(ORDERS).map((it) => option(it, text(`order_${it}`))));
for (const id of ["only-state", "only-age", "only-domain", "order"]) {
  by(id).addEventListener("change", draw);
}
by("search").addEventListener("input", search);
by("filter").addEventListener("click", () => {
  const isShut = !by("filters").classList.toggle("open");
  by("filter").setAttribute("aria-expanded", !isShut);
});
by("filter-none").addEventListener("click", showAll);
by("queue-csv").addEventListener("click", save);
by("only-group-close").addEventListener("click", showAll);
by("mark-all").addEventListener("change", () => {
  markAll(by("mark-all").checked);
  tellMarks();
});
by("mark-none").addEventListener("click", () => {
  markAll(false);
  tellMarks();
  by("search").focus();
});
whenKeysOf({ opens: openRow, marked: tellMarks });
for (const it of all("[data-marked]")) {
  it.addEventListener("click", () => doMarked(it.dataset.marked));
}
for (const it of all("[data-all]")) {
  it.addEventListener("click", () => {
    it.closest("details").open = false;
    it.closest("details").firstElementChild.focus();
    if (it.dataset.all === "report") trying(showReport);
    else actAll(it.dataset.all);
  });
}
by("report-close").addEventListener("click", () => by("report").close());
by("detail-close").addEventListener("click", closeDetail);
by("queue").addEventListener("keydown", (event) => {
  if (event.key === "Escape" && isOpen() && !event.target.closest("details[open]")) closeDetail();
});
drawnBy(() => {
  draw();
  if (leaving.size === 0) return;
  for (const id of marks) if (leaving.has(id)) mark(id, false);
  tellMarks();
}, () => {
  if (by("queue").hidden) by("well").focus();
  else if (isOpen()) by("detail-title").focus();
  else focusOn(activeRow());
});
// (a message that is tried anew has another ID)
document.addEventListener("renamed", ({ detail: { from, to } }) => {
  if (isOpen() === from) openRow(to, false);
});
when("stranger", sayNothing);
