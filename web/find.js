// One search for all mail: the queue first, and then the history, page by page, the newest first.
// It goes on until enough is found, the history ends, or somebody stops it.

import { history } from "./api.js";
import { causeOfMessage } from "./causes.js";
import { desk, refresh } from "./desk.js";
import { STATES } from "./groups.js";
import { by, element, filling, trying } from "./parts.js";
import { goTo, viewOfAddress, wordsOfAddress } from "./place.js";
import { showMessage } from "./queue.js";
import { endRow, mailRow, RESULTS, resultsOf, saidOf } from "./records.js";
import { answerOf, reasonOf } from "./report.js";
import { moment, text } from "./texts.js";

// How many are looked for at once.
const ENOUGH = 100;
const FIELDS = ["words", "state", "from", "to"];

const body = by("found").tBodies[0];
// what is looked for, and how far that is; null before the first search
/** @type {any} */
let search = null;

// ---- what is looked for

// The first second of a day on this device, or of one behind it; null where no day is given.
function startOf(day, later = 0) {
  if (!/^\d{4}-\d\d-\d\d$/.test(day)) return null;
  const [year, month, date] = day.split("-").map(Number);
  return Math.floor(new Date(year, month - 1, date + later).getTime() / 1000);
}

// The day of a moment, as a field has it.
export function dayOf(seconds) {
  const date = new Date(seconds * 1000);
  const parts = [date.getFullYear(), date.getMonth() + 1, date.getDate()];
  return parts.map((it) => String(it).padStart(2, "0")).join("-");
}

function begun(given) {
  const words = given.words.toLowerCase().split(/\s+/).filter(Boolean);
  const [from, to] = [startOf(given.from) ?? 0, startOf(given.to, 1) ?? Infinity];
  const fits = (at, all) => at >= from && at < to && words.every((it) => all.includes(it));
  const { state } = given;
  return {
    given, from, fits,
    queued: [], inQueue: !state || STATES.includes(state),
    inHistory: !STATES.includes(state) && desk.limits.history > 0,
    results: state ? resultsOf(state) : RESULTS,
    // how many are shown, before which number the history goes on, and how old what was seen is
    count: 0, next: null, back: null, isOver: false, isAsking: false, stops: false,
  };
}

const isQueued = ({ given: { state }, fits }) => (/** @type {Message} */ it) =>
  (!state || it.state === state) && fits(it.arrival, it.all);

const isEnd = ({ results, fits }) => (/** @type {End} */ it) => results.includes(it.result)
  && fits(it.at, [it.id, it.recipient, it.sender, saidOf(it)].join(" ").toLowerCase());

// ---- what is shown

function messageRow(/** @type {Message} */ message) {
  const { id, arrival: at, sender: from, state, pending } = message;
  const said = state === "hold" ? reasonOf(message) : answerOf(message);
  const cause = causeOfMessage(message);
  const to = pending[0]?.address ?? "";
  const opens = () => showMessage(id);
  return mailRow({ id, at, to, from, state, said, cause, opens, more: pending.length - 1 });
}

const rowOfEnd = (/** @type {End} */ end) =>
  endRow(end, () => (desk.byId.has(end.id) ? showMessage(end.id) : show({ words: end.id })));

function add(mine, rows) {
  mine.count += rows.length;
  body.append(...rows);
}

function tell(mine) {
  const { count, back, isOver, isAsking, inHistory, queued } = mine;
  const rest = !isOver || queued.length > 0;
  const at = back === null ? "" : moment(back).textContent;
  const far = at ? (isAsking ? "findLooking" : rest ? "findSome" : "findAll") : "findQueue";
  by("find-shown").textContent = text(isAsking && !at ? "findBegun" : far, { count, at });
  if (!inHistory && isOver) by("find-shown").textContent = text("findQueue", { count });
  by("find-more").hidden = !rest && !isAsking;
  by("find-more").textContent = text(isAsking ? "stop" : "findFurther");
  by("found").hidden = count === 0;
  by("find-none").hidden = count > 0 || isAsking;
}

// ---- how it is looked for

// Takes a page of the history. One that ends before the first day is the last that matters.
function take(mine, { ends, next }) {
  add(mine, ends.filter(isEnd(mine)).map(rowOfEnd));
  mine.next = next;
  const last = ends.at(-1)?.at ?? mine.back;
  mine.back = last === null ? null : Math.max(last, mine.from);
  mine.isOver = next === null || last < mine.from;
}

async function lookOn(mine) {
  const most = mine.count + ENOUGH;
  [mine.isAsking, mine.stops] = [true, false];
  try {
    add(mine, mine.queued.splice(0, ENOUGH).map(messageRow));
    tell(mine);
    while (!mine.isOver && mine.count < most && !mine.stops) {
      const page = await history(null, mine.next);
      if (mine !== search) return;
      take(mine, page);
      tell(mine);
    }
  } finally {
    mine.isAsking = false;
    if (mine === search) tell(mine);
  }
}

async function look(mine) {
  await refresh();
  if (mine !== search) return;
  mine.isOver = !mine.inHistory;
  if (mine.inQueue) mine.queued = desk.messages.filter(isQueued(mine)).reverse();
  await lookOn(mine);
}

const given = () => Object.fromEntries(FIELDS.map((it) => [it, by(`find-${it}`).value.trim()]));

function start(isStep) {
  const mine = begun(given());
  search = mine;
  body.replaceChildren();
  by("found").hidden = by("find-none").hidden = by("find-more").hidden = true;
  by("find-shown").textContent = text("findBegun", { count: 0 });
  if (viewOfAddress() === "find") goTo("find", mine.given, isStep);
  return filling("found", () => look(mine));
}

// ---- what leads here

function write(words) {
  for (const it of FIELDS) by(`find-${it}`).value = words[it] ?? "";
}

// Looks for what somebody pressed elsewhere: the message of a notice, or what failed of a day.
export function show(words) {
  write(words);
  document.dispatchEvent(new CustomEvent("turn", { detail: "find" }));
  by("find-words").focus();
  return start(true);
}

// Looks for what the address says, behind a reload, Back, or a link that somebody kept.
export function takeAddress() {
  const words = Object.fromEntries(wordsOfAddress());
  const isSame = FIELDS.every((it) => (words[it] ?? "") === (search?.given[it] ?? ""));
  if (isSame) return;
  write(words);
  if (FIELDS.some((it) => words[it])) start(false);
  else forget();
}

// Shows no search any more: Back led to where none was begun.
function forget() {
  search = null;
  body.replaceChildren();
  by("found").hidden = by("find-none").hidden = by("find-more").hidden = true;
  by("find-shown").textContent = text("findHelp");
}

export function open() {
  if (search) goTo("find", search.given, false);
  else by("find-shown").textContent = text("findHelp");
}

by("find-state").append(
  element("option", { value: "" }, text("anyState")),
  ...[...STATES, ...RESULTS, "undelivered"].map((it) =>
    element("option", { value: it }, text(it))),
);
by("find-form").addEventListener("submit", (event) => {
  event.preventDefault();
  start(true);
});
by("find-more").addEventListener("click", () => {
  if (search.isAsking) search.stops = true;
  else trying(() => lookOn(search));
});
