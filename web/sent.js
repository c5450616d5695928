// What became of recipients that left the queue, the newest first.

import { history } from "./api.js";
import { csvOf } from "./csv.js";
import { desk } from "./desk.js";
import { button, by, download, element, filling, say, trying } from "./parts.js";
import { showMessage } from "./queue.js";
import { endRow, RESULTS, resultsOf } from "./records.js";
import { moment, text } from "./texts.js";

const COLUMNS = ["at", "id", "number", "recipient", "result", "sender", "status", "text"];
// How many are looked for at once, page by page.
const ENOUGH = 100;

const body = by("ends").tBodies[0];
let shown = [];
// the pattern that is searched for, the one message that is shown, where more goes on, and the
// moment of the last one that was looked at
let wanted = null;
let only = null;
let next = null;
let back = null;
let loading = 0;
// whether the list begins anew with the next page
let isFresh = true;
// whether pages are asked for now, and are to end with the one that comes
let isAsking = false;
let stops = false;

const drawn = (/** @type {End} */ end) =>
  endRow(end, () => (desk.byId.has(end.id) ? showMessage(end.id) : onlyThat(end)));

// The ends of the message of one of them.
function onlyThat(/** @type {End} */ end) {
  showOnly({ id: end.id, sender: end.sender });
  return open();
}

// Whether an end is of those that are looked for.
function isMeant(/** @type {End} */ end) {
  const result = by("ends-result").value;
  return (!only || end.id === only.id) && (!result || resultsOf(result).includes(end.result));
}

function tell() {
  const { length: number } = shown;
  const at = back === null ? "" : moment(back).textContent;
  const some = isAsking ? "endsSearching" : at ? "endsSome" : "endsMore";
  const words = next !== null ? some : only ? "endsOf" : "endsAll";
  by("ends-shown").textContent = text(words, { count: number, id: only?.id, at });
  by("ends-more").hidden = next === null;
  by("ends-more").textContent = text(isAsking ? "stop" : "older");
  by("ends-all").hidden = !wanted && !by("ends-result").value;
  by("ends-csv").disabled = number === 0;
  by("ends").hidden = number === 0;
  by("ends-none").hidden = number > 0 || isAsking;
}

function show({ ends, next: further }) {
  // (what is shown stays until a reply comes)
  if (isFresh) {
    [back, shown, isFresh] = [null, [], false];
    body.replaceChildren();
  }
  const some = ends.filter(isMeant);
  shown.push(...some);
  body.append(...some.map(drawn));
  next = further;
  back = ends.at(-1)?.at ?? back;
}

// Asks for pages, until there are enough of those that are looked for, or none is left.
async function more() {
  const mine = loading;
  const most = ENOUGH + (isFresh ? 0 : shown.length);
  [isAsking, stops] = [true, false];
  try {
    do {
      const told = await history(wanted, next);
      if (mine !== loading) return;
      show(told);
      tell();
    } while (next !== null && shown.length < most && !stops);
  } finally {
    if (mine === loading) {
      isAsking = false;
      tell();
    }
  }
}

async function load() {
  loading += 1;
  [next, isFresh] = [null, true];
  const most = desk.limits.history;
  by("ends-kept").textContent = most ? text("endsKept", { count: most }) : text("endsNone");
  by("ends-shown").textContent = text("loading");
  try {
    await more();
  } finally {
    if (by("ends-shown").textContent === text("loading")) by("ends-shown").textContent = "";
  }
}

export const open = () => filling("ends", load);

// Has the view show one message: its recipients stand among those of its sender.
function showOnly(message) {
  only = message;
  wanted = { class: "sender", pattern: message.sender.toLowerCase() || "<>" };
  by("ends-class").value = "sender";
  by("ends-pattern").value = wanted.pattern;
}

async function find(event) {
  event.preventDefault();
  only = null;
  wanted = { class: by("ends-class").value, pattern: by("ends-pattern").value.trim() };
  await open();
}

async function showAll() {
  only = wanted = null;
  by("ends-pattern").value = "";
  by("ends-result").value = "";
  await open();
}

// Saves all that are looked for, also those that are not shown yet.
async function save() {
  let [some, before, isStopped] = [[], null, false];
  const stop = button(text("stop"), () => { isStopped = true; }, { id: "stop" });
  const said = element("span", {});
  do {
    const told = await history(wanted, before);
    some = some.concat(told.ends.filter(isMeant));
    before = told.next;
    said.textContent = text("gathered", { count: some.length });
    if (!stop.isConnected) say(element("div", { class: "doing" }, said, stop));
  } while (before !== null && !isStopped);
  say(text(isStopped ? "gatheredSome" : "gatheredAll", { count: some.length }));
  download("history.csv", csvOf([COLUMNS, ...some.map((it) => COLUMNS.map((name) => it[name]))]));
}

by("ends-result").append(
  element("option", { value: "" }, text("anyResult")),
  ...[...RESULTS, "undelivered"].map((it) => element("option", { value: it }, text(it))),
);
by("ends-result").addEventListener("change", open);
by("ends-form").addEventListener("submit", find);
by("ends-all").addEventListener("click", showAll);
by("ends-more").addEventListener("click", () => {
  if (isAsking) stops = true;
  else trying(more);
});
by("ends-csv").addEventListener("click", () => trying(save));
by("reload-ends").addEventListener("click", async () => {
  if (await open()) say(text("loadedAgain"));
});
