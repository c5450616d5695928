// What the page knows of its desk: the queue, how much may be kept, and how old that is. It is
// asked for again by itself while somebody looks at it, and kept while the desk is away.

import { asker, call, changing, history, key } from "./api.js";
import { messagesOf } from "./report.js";

const KEPT = "desk-kept";
// Seconds between two looks at a desk that answers; and behind a fault, longer each time.
const EVERY = 30;
const BEHIND_FAULTS = [3, 5, 10, 20, 30];
// A key that is refused is asked for once more this often: a proxy that reads its maps anew knows
// nobody for a moment.
const DOUBTS = 3;
const DOUBT_SECONDS = 2;
// Of what the browser keeps for a tab.
const MOST_KEPT = 2_000_000;

export const now = () => Math.floor(Date.now() / 1000);

export const desk = {
  /** @type {Message[]} */
  messages: [],
  /** @type {Map<string, Message>} */
  byId: new Map(),
  // (both are empty until the desk was asked)
  /** @type {Usage} */
  usage: Object(null),
  /** @type {Limits} */
  limits: Object(null),
  // the newest that left the queue, a hundred at most
  /** @type {End[]} */
  ends: [],
  // when it was asked, and whether that was before a reload
  at: 0,
  /** @type {import("./api.js").Fault | null} */
  fault: null,
  report: "",
};

const told = new EventTarget();
export const when = (name, does) => told.addEventListener(name, does);
const tell = (name, detail) => told.dispatchEvent(new CustomEvent(name, { detail }));

/** @type {Promise<void> | null} */
let asking = null;
let timer = 0;
let faults = 0;
let doubts = 0;

function take({ report, usage, limits, ends = [], at }) {
  Object.assign(desk, { report, usage, limits, ends, at });
  desk.messages = messagesOf(report);
  desk.byId = new Map(desk.messages.map((it) => [it.id, it]));
}

async function ask() {
  // (who has no key is to be refused once, and not three times)
  const usage = await call("GET", "/v1/usage");
  const [limits, { report }, { ends }] = await Promise.all([
    call("GET", "/v1/limits"), call("GET", "/v1/report"), history(null, null),
  ]);
  return { report, usage, limits, ends, at: now() };
}

function again(seconds) {
  clearTimeout(timer);
  timer = setTimeout(() => (document.hidden ? null : refresh()), seconds * 1000);
}

function failed(fault) {
  desk.fault = fault;
  if (fault.number === 2 || fault.number === 3) {
    const known = key.get() || desk.at;
    doubts += 1;
    if (known && fault.number === 2 && doubts <= DOUBTS) again(DOUBT_SECONDS);
    else return tell("stranger", fault);
  } else {
    again(BEHIND_FAULTS[Math.min(faults, BEHIND_FAULTS.length - 1)]);
    faults += 1;
  }
  return tell("changed");
}

// Asks for all of it. Who asks meanwhile waits for the same.
export function refresh() {
  asking ??= (async () => {
    tell("asking");
    try {
      let turns = -1;
      /** @type {any} */
      let made = null;
      // (what was read before a change was done would bring back what it did away with)
      while (!made || (changing.count === 0 && changing.turns !== turns)) {
        turns = changing.turns;
        made = await ask();
      }
      if (changing.count === 0) take(made);
      [desk.fault, faults, doubts] = [null, 0, 0];
      again(EVERY);
      tell("changed");
    } catch (fault) {
      if (!("number" in fault)) throw fault;
      failed(fault);
    } finally {
      asking = null;
    }
  })();
  return asking;
}

// Forgets messages that are gone, before the desk is asked again.
export function drop(ids) {
  const gone = new Set(ids);
  desk.messages = desk.messages.filter((it) => !gone.has(it.id));
  for (const id of gone) desk.byId.delete(id);
}

// ---- over a reload: in the tab alone, beside the key, so that it goes with it

export function forget() {
  sessionStorage.removeItem(KEPT);
}

function keep() {
  forget();
  if (!key.get() || !desk.at || desk.report.length > MOST_KEPT) return;
  const { report, usage, limits, at } = desk;
  try {
    sessionStorage.setItem(KEPT, JSON.stringify({ report, usage, limits, at, name: asker.name }));
  } catch {
    // (there is no room: then nothing is kept)
  }
}

// What was kept is shown until the desk answers.
export function restore() {
  const kept = key.get() && sessionStorage.getItem(KEPT);
  if (!kept) return false;
  const { name, ...made } = JSON.parse(kept);
  asker.name = name;
  take(made);
  tell("changed");
  return true;
}

addEventListener("pagehide", keep);
document.addEventListener("visibilitychange", () => {
  if (document.hidden || !desk.at) return;
  if (desk.fault || now() - desk.at >= EVERY) refresh();
});
