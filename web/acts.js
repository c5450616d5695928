// What is done to messages: one, those that are marked, a group, those of a pattern, or all. One
// thing at a time; what was done is told as a sum; a deletion waits some seconds for "Undo".
//
// What cannot be taken back (a release, a new try, a deletion) is of the messages that were seen,
// by their IDs. A hold can be, so it goes by patterns too, which are for what comes in meanwhile.

import { call, changing } from "./api.js";
import { desk, drop, now, refresh } from "./desk.js";
import { isFor } from "./patterns.js";
import { answerOf, HELD } from "./report.js";
import { address, ask, bad, button, by, element, focused, say, sender } from "./parts.js";
import { size, text } from "./texts.js";
import { told } from "./words.js";

const LANES = 4;
// How long something may take until it is said that it is under way, in milliseconds.
const UNSAID = 1000;
export const UNDO_SECONDS = 8;
// Of more than so many it is shown how far it is.
const MANY = 20;

// What can be done to one message: the call, whether that changed it, and what is known of it then.
const DOES = {
  hold: {
    call: (id) => call("POST", `/v1/hold/${id}`),
    changed: (reply) => reply.changed > 0,
    after: (it) => Object.assign(it, { state: "hold", reason: HELD }),
  },
  release: {
    call: (id) => call("POST", `/v1/release/${id}`),
    changed: (reply) => reply.changed > 0,
    after: (it) => Object.assign(it, { state: answerOf(it) ? "deferred" : "waiting", reason: "" }),
  },
  requeue: {
    call: (id) => call("POST", `/v1/requeue/${id}`),
    changed: () => true,
    after: (it, reply) => {
      drop([it.id]);
      const pending = it.pending.map((one) => ({ ...one, status: "", text: "" }));
      const made = { ...it, id: reply.id, state: "waiting", reason: "", arrival: now(), pending };
      desk.messages.push(made);
      desk.byId.set(made.id, made);
      document.dispatchEvent(new CustomEvent("renamed", { detail: { from: it.id, to: made.id } }));
    },
  },
  delete: {
    call: (id) => call("DELETE", `/v1/message/${id}`),
    changed: () => true,
    after: (it) => drop([it.id]),
  },
};

// what is drawn anew when messages have changed, and the IDs of those whose deletion waits
let draw = () => {};
let findFocus = () => {};
export const leaving = new Set();
let stops = false;

export function drawnBy(does, finds) {
  draw = does;
  findFocus = finds;
}

// ---- one after the other, and their sum

async function one(id, name, sum) {
  try {
    const reply = await DOES[name].call(id);
    const message = desk.byId.get(id);
    if (!DOES[name].changed(reply)) sum.already += 1;
    else {
      sum.done += 1;
      sum.ids.push(id);
      if (name === "requeue") sum.made = reply.id;
      if (message) DOES[name].after(message, reply);
    }
  } catch (fault) {
    if (!("number" in fault)) throw fault;
    if (fault.number === 10) {
      sum.gone += 1;
      drop([id]);
    } else {
      sum.faults.set(told(fault), (sum.faults.get(told(fault)) ?? 0) + 1);
      // (behind these no other would be done: nobody has this key, or it may only read)
      if (fault.isAway || [2, 3].includes(fault.number)) sum.stopped = true;
    }
  }
}

// The sum in words: what was done, what needed nothing, and what went wrong.
function linesOf(sum, name, ids) {
  const only = ids.length === 1 && !sum.before ? ids[0] : "";
  const parts = [];
  const count = sum.done + sum.before;
  if (count) {
    parts.push(text(only ? `${name}One` : `${name}Sum`, { count, id: only, made: sum.made }));
  }
  if (sum.already) parts.push(text(`${name}Already`, { count: sum.already }));
  if (sum.gone) parts.push(text("goneSum", { count: sum.gone }));
  const lines = parts.length ? [`${parts.join(", ")}.`] : [];
  for (const [words, times] of sum.faults) {
    lines.push(bad(only ? words : text("faultSum", { count: times, words })));
  }
  const asked = sum.done + sum.already + sum.gone;
  const rest = ids.length - asked - [...sum.faults.values()].reduce((all, it) => all + it, 0);
  if (rest) lines.push(bad(text("notAsked", { count: rest })));
  return lines;
}

function progress(name, all) {
  const bar = element("progress", { max: all, "aria-label": text(`${name}Doing`, { count: all }) });
  const stop = button(text("stop"), () => { stops = true; }, { id: "stop" });
  say(element("div", { class: "doing" }, text(`${name}Doing`, { count: all }), bar, stop));
  return (done) => { bar.value = done; };
}

// Says after a second that something is under way, until it has ended.
export async function saidWhile(does) {
  const words = element("p", { id: "working" }, text("working"));
  const timer = setTimeout(() => by("told").append(words), UNSAID);
  try {
    return await does();
  } finally {
    clearTimeout(timer);
    words.remove();
  }
}

// A hold can be taken back, of those that it has put on hold and that are so still.
function offerUndo(/** @type {string[]} */ ids) {
  const isHeld = (id) => {
    const message = desk.byId.get(id);
    return message?.state === "hold" && message.reason === HELD;
  };
  if (!ids.length) return;
  const does = () => act("release", ids.filter(isHeld));
  by("told").append(button(text("undo"), does, { id: "undo-hold" }));
}

const notHeld = (/** @type {Message[]} */ messages) =>
  messages.filter((it) => it.state !== "hold").map((it) => it.id);

// `before` is how many were done by calls that went before, `held` which of them can be undone, and
// `first` are lines of what else was done.
export async function each(ids, name, { before = 0, held = [], first = [] } = {}) {
  const sum = {
    before, done: 0, already: 0, gone: 0, faults: new Map(), stopped: false, made: "",
    ids: [...held],
  };
  const tells = ids.length > MANY ? progress(name, ids.length) : () => {};
  const waiting = [...ids];
  let asked = 0;
  stops = false;
  const lane = async () => {
    while (waiting.length && !sum.stopped && !stops) {
      await one(waiting.shift(), name, sum);
      tells(++asked);
    }
  };
  const lanes = () => Promise.all(Array.from({ length: Math.min(LANES, ids.length) }, lane));
  await (ids.length > MANY ? lanes() : saidWhile(lanes));
  say(...first, ...linesOf(sum, name, ids));
  if (name === "hold") offerUndo(sum.ids);
}

// ---- one thing at a time

// Does what may take long, and nothing else of that kind meanwhile.
export async function alone(does) {
  if (changing.count) return say(text("wait"));
  const had = focused();
  changing.count += 1;
  changing.turns += 1;
  by("views").ariaBusy = "true";
  try {
    await does();
  } catch (fault) {
    say(fault);
  } finally {
    changing.count -= 1;
    changing.turns += 1;
    by("views").ariaBusy = "false";
  }
  draw();
  await refresh();
  // (what had the focus may be gone with what was done to it)
  if (document.activeElement !== document.body) return undefined;
  return had.checkVisibility() ? had.focus() : findFocus();
}

// Holds a deletion back for some seconds. Nothing is asked of the desk before, so a page that is
// closed meanwhile has deleted nothing. Answers whether it is to be done.
export function heldBack(ids, count) {
  const undo = button(text("undo"), () => {}, { id: "undo" });
  const soon = button(text("deleteNow"), () => {}, { id: "delete-now", class: "link" });
  const left = element("span", { "aria-hidden": "true" });
  const words = text("willDelete", { count });
  const held = element("div", { class: "doing", id: "held-back" }, words, left, undo, soon);
  say(held);
  for (const it of ids) leaving.add(it);
  draw();
  undo.focus();
  return new Promise((answer) => {
    let seconds = UNDO_SECONDS;
    const tick = () => { left.textContent = text("inSeconds", { count: seconds }); };
    const end = (yes) => {
      clearInterval(timer);
      leaving.clear();
      held.remove();
      draw();
      say(text(yes ? "deleteBegun" : "undone", { count }));
      answer(yes);
    };
    const timer = setInterval(() => (--seconds ? tick() : end(true)), 1000);
    undo.onclick = () => end(false);
    soon.onclick = () => end(true);
    tick();
  });
}

// ---- what may be asked for

// What a question shows of one message.
const factsOf = (/** @type {Message} */ it) => [
  [text("from"), sender(it.sender)],
  [text("to"), element("span", {}, ...someOf(it))],
  [text("size"), size(it.size)],
  [text("queueId"), it.id],
];

function someOf(/** @type {Message} */ { pending }) {
  const shown = pending.slice(0, 3).flatMap((it) => [address(it.address), element("br")]);
  const rest = pending.length - 3;
  return rest > 0 ? [...shown, text("andMore", { count: rest })] : shown.slice(0, -1);
}

async function mayDelete(ids) {
  /** @type {any[]} */
  const messages = ids.map((id) => desk.byId.get(id)).filter(Boolean);
  const count = ids.length;
  const facts = messages.length === 1 && count === 1 ? factsOf(messages[0]) : [];
  const [title, words] = [text("deleteTitle", { count }), text("deleteText", { count })];
  return ask(title, words, text("deleteYes", { count }), { isDanger: true, facts });
}

// A new try sends what is on hold, so that is asked for; the others are tried anyhow.
async function mayTry(ids) {
  const count = ids.filter((id) => desk.byId.get(id)?.state === "hold").length;
  return !count || ask(text("tryTitle", { count }), text("tryText"), text("requeueYes"));
}

// Whether somebody wants this done to these messages, and still does behind the seconds for "Undo".
async function isWanted(name, ids) {
  if (name === "requeue") return mayTry(ids);
  return name !== "delete" || (await mayDelete(ids) && heldBack(ids, ids.length));
}

// Does it to messages by their IDs.
export function act(name, /** @type {string[]} */ ids) {
  if (!ids.length) return undefined;
  return alone(async () => {
    if (await isWanted(name, ids)) await each(ids, name);
  });
}

// Holds all that a pattern is for, by one call: also what comes in until then.
export function holdMatching(/** @type {Pattern} */ pattern, words, count) {
  return alone(async () => {
    const title = text("holdGroupTitle", { count, words });
    if (!(await ask(title, text("groupText"), text("holdYes", { count })))) return;
    const held = notHeld(desk.messages.filter(isFor(pattern)));
    const { changed } = await saidWhile(() => call("POST", "/v1/hold-matching", pattern));
    say(`${text("holdSum", { count: changed })}.`);
    offerUndo(held);
  });
}

// Holds a group by as few calls as there are: the patterns whose messages are all of the group,
// then those that are left, one by one. Releases those that were seen, and deletes them.
export function actGroup(name, /** @type {Message[]} */ messages, words) {
  const ids = new Set(messages.map((it) => it.id));
  if (name === "delete" || ids.size < 2 * LANES) return act(name, [...ids]);
  return alone(async () => {
    const count = ids.size;
    const title = text(`${name}GroupTitle`, { count, words });
    const said = text(name === "hold" ? "groupText" : "seenText");
    if (!(await ask(title, said, text(`${name}Yes`, { count })))) return;
    const done = name === "hold" ? await saidWhile(() => holdDomains(ids)) : {};
    await each([...ids], name, done);
  });
}

// Holds the domains that are wholly among these, and takes them away from these. How many it held,
// and which of those that were seen.
async function holdDomains(ids) {
  /** @type {{ before: number, held: string[] }} */
  const done = { before: 0, held: [] };
  for (const domain of wholeDomains(ids)) {
    const pattern = { class: "recipient", pattern: domain };
    const some = desk.messages.filter((it) => it.domains.includes(domain) && ids.has(it.id));
    done.before += (await call("POST", "/v1/hold-matching", pattern)).changed;
    done.held.push(...notHeld(some));
    for (const it of some) ids.delete(it.id);
  }
  return done;
}

// The domains all of whose messages are among these, where that saves calls.
function wholeDomains(ids) {
  const counts = new Map();
  for (const { id, domains } of desk.messages) {
    for (const it of domains) {
      const found = counts.get(it) ?? { inside: 0, all: 0 };
      found.all += 1;
      found.inside += ids.has(id);
      counts.set(it, found);
    }
  }
  const whole = [...counts].filter(([, it]) => it.inside === it.all && it.all > LANES);
  return whole.sort((a, b) => b[1].all - a[1].all).slice(0, 10).map(([domain]) => domain);
}

// Does it to all of the queue, by one call, which is for what came in meanwhile too. That is asked
// for once more where it cannot be taken back.
export function actAll(name) {
  return alone(async () => {
    const { messages: count } = await call("GET", "/v1/usage");
    if (!count) return say(text("emptyQueue"));
    const title = text(`${name}AllTitle`, { count });
    const how = { isDanger: name === "delete" };
    if (!(await ask(title, text("allText"), text(`${name}Yes`, { count }), how))) return;
    const [again, yes] = [text(`${name}AlsoTitle`), text(`${name}AlsoYes`)];
    if (name !== "hold" && !(await ask(again, text("alsoText"), yes, how))) return;
    const ids = desk.messages.map((it) => it.id);
    if (name === "delete" && !(await heldBack(ids, count))) return;
    const held = name === "hold" ? notHeld(desk.messages) : [];
    const { changed } = await saidWhile(() => call("POST", `/v1/${name}-all`));
    say(`${text(`${name}Sum`, { count: changed })}.`);
    offerUndo(held);
  });
}
