// A message whole, beside the list: each recipient with its last answer, when it is tried next and
// when it expires, and what became of the recipients that have left.

import { call, history } from "./api.js";
import { wholeCause } from "./causes.js";
import { desk, now } from "./desk.js";
import { address, button, by, chip, element, foreign, sender, trying } from "./parts.js";
import { reasonOf } from "./report.js";
import { moment, size, span, text } from "./texts.js";

// After five days the relay gives a message up that is not on hold.
const EXPIRY_SECONDS = 432_000;
// Of these the relay tells the sender.
const FAILED = ["failed", "expired"];

// the message that is open, what its buttons do, and what was asked about it
/** @type {any} */
let opened = null;

export const isOpen = () => opened?.id ?? null;

export function close() {
  opened = null;
  by("detail").hidden = true;
  by("queue").classList.remove("has-detail");
}

// ---- what is told

function nextTry(whole) {
  if (whole.state === "hold") return text("notWhileHeld");
  return whole.next_try <= now() ? text("dueNow") : moment(whole.next_try);
}

function expiry(whole) {
  if (whole.state === "hold") return text("notWhileHeld");
  const at = whole.arrival + EXPIRY_SECONDS;
  if (at <= now()) return text("expiresNow");
  return element("span", {}, moment(at), ` (${text("expiresIn", { age: span(at - now()) })})`);
}

function facts({ message, whole }) {
  const state = [chip(message.state), " "];
  if (message.reason) state.push(foreign(reasonOf(message)));
  const arrived = element("span", {}, moment(message.arrival),
    ` (${text("ago", { age: span(Math.max(0, now() - message.arrival)) })})`);
  const pairs = [["state", element("span", {}, ...state)], ["arrived", arrived]];
  if (whole) {
    pairs.push(["nextTry", nextTry(whole)], ["expires", expiry(whole)]);
    pairs.push(["attempts", text("attemptsMade", { count: whole.attempts })]);
    if (whole.warned) pairs.push(["warned", text("warnedText")]);
  }
  pairs.push(["size", size(message.size)], ["queueId", element("code", {}, message.id)]);
  if (whole) pairs.push(["spool", foreign(whole.spool)]);
  return pairs.flatMap(([name, it]) => [element("dt", {}, text(name)), element("dd", {}, it)]);
}

function recipient({ address: to, status, text: said }) {
  const answer = status ? foreign(`${status} ${said}`) : text("notTried");
  return element("li", {}, element("strong", {}, address(to)), wholeCause(status, said, false),
    element("p", {}, answer));
}

function end({ at, recipient: to, result, status, text: said }) {
  const answer = status ? [": ", foreign(`${status} ${said}`)] : [];
  return element("li", {}, chip(result), " ", address(to), wholeCause(status, said, true),
    element("p", {}, moment(at), ...answer));
}

function drawButtons({ message }) {
  const names = [message.state === "hold" ? "release" : "hold", "requeue", "delete"];
  if (message.sender) names.push("stop");
  const is = names.join(" ");
  const at = by("detail-tools");
  if (at.dataset.is === is && !opened.gone) return;
  const had = [...at.children].indexOf(document.activeElement);
  at.dataset.is = is;
  at.replaceChildren(...names.map((name) => {
    const kind = ["delete", "stop"].includes(name) ? { class: "danger" } : {};
    const does = () => opened.does(name, opened.message);
    return button(text(`do_${name}`), does, { "data-does": name, ...kind });
  }));
  if (had >= 0) at.children[had]?.focus();
}

function drawAll() {
  const { message, ends, gone } = opened;
  by("detail-title").replaceChildren(sender(message.sender));
  by("detail-gone").hidden = !gone;
  by("detail-tools").hidden = Boolean(gone);
  by("detail-facts").hidden = Boolean(gone);
  drawButtons(opened);
  by("detail-facts").replaceChildren(...facts(opened));
  by("detail-recipients").replaceChildren(...message.pending.map(recipient));
  by("detail-pending").hidden = Boolean(gone) || !message.pending.length;
  by("detail-ends").replaceChildren(...(ends ?? []).map(end));
  by("detail-history").hidden = !ends?.length;
  const told = opened.whole?.warned || ends?.some((it) => FAILED.includes(it.result));
  by("detail-notices").hidden = !told || !message.sender;
}

// ---- what is asked

async function askWhole(mine) {
  try {
    mine.whole = await call("GET", `/v1/message/${mine.id}`);
    const { state, reason, pending, arrival, size: bytes, sender: from } = mine.whole;
    // (as the list has it: the desk calls what was released deferred, with an answer or without)
    const tried = pending.some((it) => it.status) ? "deferred" : "waiting";
    const known = state === "hold" ? state : tried;
    const told = { state: known, reason, pending, arrival, size: bytes, sender: from };
    mine.message = { ...mine.message, ...told };
  } catch (fault) {
    if (fault.number !== 10) throw fault;
    mine.gone = true;
  }
}

// The ends of a message stand among those of its sender.
async function askEnds(mine) {
  if (!desk.limits.history) return;
  const pattern = mine.message.sender.toLowerCase() || "<>";
  const { ends } = await history({ class: "sender", pattern }, null);
  mine.ends = ends.filter((it) => it.id === mine.id);
}

async function askAll(mine) {
  await trying(() => askWhole(mine));
  if (mine === opened) drawAll();
  await trying(() => askEnds(mine));
  if (mine === opened) drawAll();
}

const UNKNOWN = { state: "waiting", arrival: 0, size: 0, sender: "", reason: "", pending: [] };

export function openDetail(id, { does, quiet = false }) {
  const message = desk.byId.get(id) ?? { ...UNKNOWN, id };
  opened = { id, does, message, whole: null, ends: null, gone: false };
  opened.was = message;
  by("detail").hidden = false;
  by("queue").classList.add("has-detail");
  by("detail-tools").dataset.is = "";
  drawAll();
  by("detail").scrollTop = 0;
  if (!quiet) by("detail-title").focus();
  return askAll(opened);
}

by("detail-notices").addEventListener("click", () => document.dispatchEvent(
  new CustomEvent("notices", { detail: opened.id }),
));

// Shows what changed of the open message since.
export function redraw() {
  if (!opened) return;
  const message = desk.byId.get(opened.id);
  if (message && message !== opened.was) {
    opened.was = message;
    opened.message = message;
    askAll(opened);
  } else if (message && (message.state !== opened.message.state)) {
    opened.message = { ...opened.message, state: message.state, reason: message.reason };
    if (opened.whole) opened.whole = { ...opened.whole, state: message.state };
    drawAll();
  } else if (!message && !opened.gone && opened.whole) {
    opened.gone = true;
    askAll(opened);
  }
}
