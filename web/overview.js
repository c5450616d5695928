// The overview: whether all is well, how full it is, why mail waits, and how old it is.

import { actGroup, holdMatching } from "./acts.js";
import { whatHappened } from "./causes.js";
import { agesChart, fullness } from "./chart.js";
import { desk, now } from "./desk.js";
import { dayOf, show as find } from "./find.js";
import { byAge, byDomain, byReason, bySender, byState, STATES } from "./groups.js";
import { by, button, chip, element, focused, foreign, menu } from "./parts.js";
import { show } from "./queue.js";
import { UNDELIVERED } from "./records.js";
import { reasonOf } from "./report.js";
import { stopSender } from "./stop.js";
import { count, size, span, text } from "./texts.js";

// Of each list of groups, until more are asked for.
const FEW = 6;
// From this age on what is not on hold is late, in seconds; a mail server that asks for patience
// has taken the mail within the hour.
const LONG = 4 * 3600;
const NEARLY_FULL = 0.9;
// Of those that left within a day: so many failures are told where they are more than this part,
// and above the second part it is bad.
const [DAY, FEWEST_FAILED, MANY_FAILED, MOST_FAILED] = [24 * 3600, 5, 0.1, 0.5];
// The lists of groups: their titles, and what their groups are of.
/** @type {Record<string, [string, (messages: Message[]) => Group[]]>} */
const LISTS = {
  reasons: ["whyWaits", byReason], domains: ["toWhom", byDomain], senders: ["whoSends", bySender],
};
// the lists that are shown whole
const every = new Set();

// ---- all is well, or not

// (no list of 10,000 arguments: some browsers have not so many)
const oldest = (/** @type {Message[]} */ messages) =>
  messages.reduce((least, it) => Math.min(least, it.arrival), Infinity);

// Whether many of the newest that left within a day failed; null where few did.
function failures() {
  const ends = desk.ends.filter((it) => it.result !== "deleted" && now() - it.at < DAY);
  const number = ends.filter((it) => UNDELIVERED.includes(it.result)).length;
  const part = number / ends.length;
  if (number < FEWEST_FAILED || part <= MANY_FAILED) return null;
  const words = element("span", {}, text("wellFailed", { count: number, all: ends.length }), " ");
  const shows = () => find({ state: "undelivered", from: dayOf(now() - DAY) });
  words.append(button(text("showFailed"), shows, { class: "link", id: "show-failed" }));
  return [part > MOST_FAILED ? "bad" : "warn", words];
}

function trouble() {
  const states = byState(desk.messages);
  const { usage, limits } = desk;
  const full = Math.max(usage.messages / limits.messages, usage.bytes / limits.bytes);
  if (full >= NEARLY_FULL) return ["bad", text("wellFull", { count: Math.floor(full * 100) })];
  const failed = failures();
  if (failed) return failed;
  if (!desk.messages.length) return ["good", text("wellEmpty")];
  const late = desk.messages.filter((it) => it.state !== "hold" && now() - it.arrival >= LONG);
  if (late.length) {
    const age = span(now() - oldest(late));
    return ["warn", text("wellLate", { count: late.length, age })];
  }
  if (states.hold) return ["warn", text("wellHeld", { count: states.hold })];
  return ["good", text("wellGood", { count: desk.messages.length })];
}

function tile(state, number, words) {
  const figure = element("span", { class: "number" }, count(number));
  const attributes = { class: `tile ${state}`, "data-state": state };
  const made = button("", () => show({ state }), attributes);
  made.append(chip(state), figure, element("span", { class: "quiet" }, words));
  return made;
}

function drawTiles() {
  const states = byState(desk.messages);
  const old = (state) => {
    const some = desk.messages.filter((it) => it.state === state);
    return some.length ? text("oldest", { age: span(now() - oldest(some)) }) : text("none");
  };
  by("tiles").replaceChildren(...STATES.map((it) => tile(it, states[it], old(it))));
}

// ---- groups

// What a group is called.
export function nameOf(/** @type {Group} */ { kind, name }) {
  if (kind === "waiting") return text("notTried");
  if (kind === "hold" && !name) return text("hold");
  if (kind === "hold") return text("heldFor", { reason: reasonOf({ reason: name }) });
  if (kind === "sender") return name || text("nullSender");
  return name;
}

// Which actions make sense for a group: a hold where something is not on hold, and so on.
function choicesOf(/** @type {Group} */ group) {
  const { kind, name, messages } = group;
  const held = messages.filter((it) => it.state === "hold").length;
  const names = ["delete"];
  if (held) names.unshift("release");
  if (held < messages.length) names.unshift("hold");
  if (kind === "sender" && name) names.push("stop");
  return names.map((it) => [text(`do_${it}`), () => doGroup(it, group),
    { "data-group": it, ...(["delete", "stop"].includes(it) ? { class: "danger" } : {}) }]);
}

// (an answer is no pattern of the desk, and the null sender is left to those that were seen)
function doGroup(does, /** @type {Group} */ group) {
  const { kind, name, messages } = group;
  if (does === "stop") return stopSender(name);
  const side = kind === "domain" ? "recipient" : kind === "sender" && name ? "sender" : "";
  const words = nameOf(group);
  if (does !== "hold" || !side) return actGroup(does, messages, words);
  return holdMatching({ class: side, pattern: name }, words, messages.length);
}

function drawGroup(/** @type {Group} */ group, most) {
  const name = nameOf(group);
  const { length } = group.messages;
  const bar = element("progress", { max: most, "aria-hidden": "true" });
  bar.value = length;
  const choose = group.kind === "domain"
    ? { domain: group.name } : { group: { ...group, words: name } };
  const shows = button("", () => show(choose), {
    class: "group-name", title: name, "aria-label": text("showGroup", { count: length, name }),
  });
  shows.append(foreign(name));
  const [status, ...said] = group.name.split(" ");
  const cause = group.kind === "deferred" ? whatHappened(status, said.join(" ")) : "";
  const words = element("div", {}, element("span", { class: "cause" }, cause), shows);
  const label = text("actionsOf", { name });
  return element("li", { class: `group ${group.kind}` },
    element("span", { class: "number" }, count(length)), words,
    menu(text("actions"), label, choicesOf(group)), bar);
}

function drawGroups(id, /** @type {Group[]} */ groups) {
  const shown = every.has(id) ? groups : groups.slice(0, FEW);
  const most = groups[0]?.messages.length ?? 1;
  const rows = shown.map((it) => drawGroup(it, most));
  by(id).replaceChildren(...rows);
  const rest = groups.length - shown.length;
  by(`${id}-more`).hidden = !rest;
  by(`${id}-more`).textContent = text("showRest", { count: rest });
  by(`${id}-none`).hidden = groups.length > 0;
}

// ---- all of it

export function drawFullness(at) {
  const { usage, limits } = desk;
  at.replaceChildren(
    fullness(text("messages"), usage.messages, limits.messages),
    fullness(text("sizeTogether"), usage.bytes, limits.bytes, size),
    fullness(text("rules"), usage.lines, limits.lines),
  );
}

export function draw() {
  if (!desk.at) return;
  const [level, words] = trouble();
  by("well").className = level;
  // (a button in it keeps the focus)
  const said = element("span", {}, words);
  if (by("well").textContent !== said.textContent) by("well").replaceChildren(said);
  drawTiles();
  drawFullness(by("amounts"));
  by("ages").replaceChildren(agesChart(byAge(desk.messages, now())));
  // (a menu that somebody has open is not to vanish under the hand)
  if (by("overview").querySelector("details[open]")) return;
  const had = focused()?.closest?.(".group") ? focused() : null;
  const label = had?.getAttribute("aria-label");
  for (const [id, [, groupsOf]] of Object.entries(LISTS)) drawGroups(id, groupsOf(desk.messages));
  if (had) {
    const same = [...by("overview").querySelectorAll(".group [aria-label]")]
      .find((it) => it.getAttribute("aria-label") === label);
    (same ?? by("well")).focus();
  }
}

export const open = draw;

// A list of groups under its title.
function listOf(id, title) {
  const more = button("", () => {
    every.add(id);
    draw();
    by(id).children[FEW]?.querySelector("button").focus();
  }, { id: `${id}-more`, class: "link", hidden: "" });
  const names = { "aria-labelledby": `${id}-title` };
  return element("section", { class: `card of-${id}`, ...names },
    element("h2", { id: `${id}-title` }, text(title)),
    element("ul", { id, class: "groups", ...names }),
    element("p", { id: `${id}-none`, class: "quiet", hidden: "" }, text("emptyQueue")), more);
}

by("groups").append(...Object.entries(LISTS).map(([id, [title]]) => listOf(id, title)));
