// The rules: the lines of both classes, found, set, changed and dropped; and the check of an
// address.

import { holdMatching } from "./acts.js";
import { call, found, history, lines } from "./api.js";
import { csvOf } from "./csv.js";
import { desk } from "./desk.js";
import {
  ask, bad, by, button, download, element, filling, foreign, menu, say, sayAndLoad, trying,
} from "./parts.js";
import { fits, meant } from "./patterns.js";
import { show } from "./queue.js";
import { openImport } from "./rules_file.js";
import { count, text } from "./texts.js";
import { ACTIONS, told } from "./words.js";

// Of those that a rule would be for; and of a page of the desk.
const SHOWN = 5;
const PAGE = 100;
// So many rules are drawn at once, and more as one comes to their end.
const STEP = 100;

/** @type {Rule[]} */
let rules = [];
// those that the search leaves
let shown = rules;
// the rule that is being changed, null where a new one is made
/** @type {Rule | null} */
let edited = null;

const spoken = (/** @type {Rule} */ line) => text(`mail_${line.class}`, { pattern: line.pattern });

// ---- the list

function drawn(/** @type {Rule} */ line) {
  const [verb, ...rest] = line.action.split(" ");
  const words = element("span", { class: "clamp", title: line.action }, foreign(rest.join(" ")));
  const label = text("actionsOf", { name: spoken(line) });
  const choices = [
    [text("edit"), () => edit(line), { "data-rule": "edit" }],
    [text("drop"), () => trying(() => drop(line)), { "data-rule": "drop", class: "danger" }],
  ];
  const cell = (it, name) => element("td", { role: "cell", class: name }, it);
  const row = element("tr", { role: "row", class: "rule" });
  const pattern = element("span", { class: "clamp", title: line.pattern }, foreign(line.pattern));
  const action = element("span", { class: `verb ${verb.toLowerCase()}` }, foreign(verb));
  const actions = menu(text("actions"), label, choices);
  row.append(cell(text(line.class), "side"), cell(pattern, "pattern"),
    cell(action, "action"), cell(words, "words"), cell(actions, "do"));
  return row;
}

// Draws more of the rules that are looked for, below those that are there.
function more() {
  const body = by("lines").tBodies[0];
  body.append(...shown.slice(body.rows.length, body.rows.length + STEP).map(drawn));
}

function filter() {
  const words = by("rules-search").value.trim().toLowerCase();
  const hasWords = (it) => `${it.class} ${it.pattern} ${it.action}`.toLowerCase().includes(words);
  shown = words ? rules.filter(hasWords) : rules;
  by("lines").tBodies[0].replaceChildren();
  more();
  const said = words ? "rulesFound" : "rulesAll";
  const number = shown.length;
  by("lines-shown").textContent = text(said, { count: rules.length, number });
  by("lines").hidden = number === 0;
  by("rules-none").hidden = number > 0;
  by("rules-none").textContent = text(rules.length ? "nothingFound" : "noRules");
  by("rules-csv").disabled = rules.length === 0;
}

async function load() {
  const made = [];
  if (!rules.length) by("lines-shown").textContent = text("loading");
  try {
    for await (const page of lines()) made.push(...page);
  } catch (fault) {
    if (!rules.length) by("lines-shown").textContent = "";
    throw fault;
  }
  const had = by("lines").tBodies[0].rows.length;
  rules = made;
  filter();
  // (who is far down in the list stays there)
  while (by("lines").tBodies[0].rows.length < Math.min(had, shown.length)) more();
}

export const open = () => filling("lines", load);

// The action that a pattern has now; null where it has no rule.
const actionOf = (/** @type {Pattern} */ line) =>
  rules.find((it) => isSame(it, line))?.action ?? null;

// Brings rules back as they were, unless somebody has changed one of them since.
async function undo(before, after) {
  await load();
  if (after.some((it) => actionOf(it) !== it.action)) return say(bad(text("ruleChanged")));
  for (const { class: side, pattern, action } of before) {
    const line = { class: side, pattern };
    await (action === null
      ? call("POST", "/v1/line-drop", line) : call("POST", "/v1/line-put", { ...line, action }));
  }
  return sayAndLoad(text("ruleUndone"), load);
}

// Offers to undo a change, beside what is told of it. Both have the patterns that it touched. (What
// is loaded behind the change may have one of somebody else's already.)
function offerUndo(before, after) {
  const does = () => trying(() => undo(before, after));
  by("told").append(button(text("undo"), does, { id: "undo-rule" }));
}

async function drop(line) {
  const facts = [[text("mail"), spoken(line)], [text("action"), foreign(line.action)]];
  if (!(await ask(text("dropTitle"), "", text("dropYes"), { isDanger: true, facts }))) return;
  try {
    await call("POST", "/v1/line-drop", { class: line.class, pattern: line.pattern });
    await sayAndLoad(text("dropped", { rule: spoken(line) }), load);
    offerUndo([line], [{ ...line, action: null }]);
  } catch (fault) {
    await sayAndLoad(fault, load);
  }
  by("rules-new").focus();
}

// ---- a rule is written

function edit(line) {
  edited = line;
  const [verb, ...rest] = line ? line.action.split(" ") : ["REJECT"];
  by("put-title").textContent = text(line ? "editRule" : "newRule");
  by("put-class").value = line?.class ?? "sender";
  by("put-pattern").value = line?.pattern ?? "";
  by("put-action").value = verb;
  by("put-text").value = rest.join(" ");
  by("put-stops").replaceChildren();
  warn();
  by("put-dialog").showModal();
  by("put-pattern").focus();
}

const written = () => ({ class: by("put-class").value, pattern: by("put-pattern").value.trim() });

function warn() {
  const { pattern } = written();
  const better = meant(pattern);
  const at = by("put-warning");
  by("put-pattern").setAttribute("aria-invalid", Boolean(better) || /[*?%]/.test(pattern));
  if (!better) return at.replaceChildren(/[*?%]/.test(pattern) ? text("noStars") : "");
  const take = button(text("takeIt", { pattern: better }), () => {
    by("put-pattern").value = better;
    warn();
    by("put-pattern").focus();
  });
  return at.replaceChildren(text("matchesNobody"), " ", take);
}

// (the desk keeps patterns in lower case)
const isSame = (known, /** @type {Pattern} */ line) =>
  known?.class === line.class && known.pattern === line.pattern.toLowerCase();

// Asks before a rule is written over that is not the one that is changed here.
function mayReplace(line) {
  const known = rules.find((it) => isSame(it, line));
  if (!known || known.action === line.action || isSame(edited, line)) return true;
  const facts = [["replaceNow", known], ["replaceNew", line]]
    .map(([name, it]) => [text(name), foreign(it.action)]);
  const title = text("replaceTitle", { rule: spoken(line) });
  return ask(title, "", text("replaceYes"), { facts });
}

// Drops the rule that another one stands in for; what went wrong, if that did.
async function dropOld(/** @type {Rule} */ old, /** @type {Rule} */ line) {
  try {
    await call("POST", "/v1/line-drop", { class: old.class, pattern: old.pattern });
    return null;
  } catch (fault) {
    const words = { rule: spoken(line), old: spoken(old), words: told(fault) };
    return bad(text("stillThere", words));
  }
}

// What a new rule is for and does not stop: the messages that are queued, with what can be done.
async function queuedOf(line) {
  const { value: some } = await found({ class: line.class, pattern: line.pattern }).next();
  if (!some.length) return null;
  const { length: number } = some;
  const isMore = number === PAGE;
  const pattern = { class: line.class, pattern: line.pattern };
  const holds = () => holdMatching(pattern, spoken(line), number);
  const shows = () => show({ words: line.pattern });
  return element("p", { class: "doing" },
    element("span", {}, text(isMore ? "queuedMore" : "queuedOf", { count: number })),
    button(text("do_hold"), holds, { id: "hold-queued" }),
    button(text("showQueued"), shows, { id: "show-queued" }));
}

async function put() {
  const line = { ...written(), action: `${by("put-action").value} ${by("put-text").value}`.trim() };
  if (!(await mayReplace(line))) return;
  /** @type {{ class: string, pattern: string, action: string | null }[]} */
  const before = [{ ...line, action: actionOf(line) }];
  const reply = await call("POST", "/v1/line-put", line);
  if (edited && !isSame(edited, line)) before.push(edited);
  const fault = edited && before.length > 1 ? await dropOld(edited, line) : null;
  by("put-dialog").close();
  await sayAndLoad(fault ?? text(`put_${reply.put}`, { rule: spoken(line) }), load);
  // (where somebody else has set it meanwhile, nobody here knows how it was)
  const wasKnown = (reply.put === "added") === (before[0].action === null);
  const left = before.slice(1).map((it) => ({ ...it, action: fault ? it.action : null }));
  if (wasKnown && reply.put !== "same") offerUndo(before, [line, ...left]);
  const queued = line.action.startsWith("REJECT") && line.pattern !== "<>" && await queuedOf(line);
  if (queued) by("told").append(queued);
}

// Those of some messages and ends that a pattern is for.
function peopleOf(pattern, queued, ends) {
  const isSender = pattern.class === "sender";
  const waiting = isSender
    ? queued.map((it) => it.sender)
    : queued.flatMap((it) => desk.byId.get(it.id)?.pending.map((one) => one.address) ?? []);
  const left = ends.map((it) => (isSender ? it.sender : it.recipient));
  const some = waiting.filter((it) => fits(pattern.pattern, it));
  return [...new Set([...some, ...left])].filter(Boolean).slice(0, SHOWN);
}

// An address that a rule would be for, and the rule that decides about it now.
async function person(side, address) {
  const { action, pattern } = await call("POST", "/v1/check", { class: side, address });
  const rule = action === null ? text("noRuleNow") : text("ruleNow", { action, pattern });
  return element("li", {}, foreign(address), " ", element("span", { class: "quiet" }, rule));
}

// Whom a pattern is for: of the queue, and of the newest that left it.
async function stops() {
  const pattern = written();
  by("put-stops").replaceChildren(text("searchingNow"));
  const pages = found(pattern);
  const { value: queued } = await pages.next();
  const isMore = queued.length > 0 && !(await pages.next()).done;
  const { ends } = await history(pattern, null);
  const number = `${count(queued.length)}${isMore ? "+" : ""}`;
  const people = peopleOf(pattern, queued, ends);
  const some = [];
  for (const it of people) some.push(await person(pattern.class, it));
  by("put-stops").replaceChildren(
    element("p", {}, text("stopsNow", { number, ends: ends.length })),
    element("ul", {}, ...some),
  );
}

// A fault of the dialog stands in it: what is told below is behind it.
async function inDialog(event, does) {
  event.preventDefault();
  by("put-fault").textContent = "";
  try {
    await does();
  } catch (fault) {
    by("put-stops").replaceChildren();
    by("put-fault").textContent = told(fault);
  }
}

// ---- the check

function keyItem(key, decides) {
  const item = element("li", {}, foreign(key));
  if (decides) item.append(" ", element("mark", {}, text("decides")));
  return item;
}

async function check(event) {
  event.preventDefault();
  const asked = { class: by("check-class").value, address: by("check-address").value.trim() };
  by("checked").replaceChildren();
  const reply = await call("POST", "/v1/check", asked);
  const keys = reply.keys.map((it) => keyItem(it, it === reply.pattern));
  const verb = reply.action?.split(" ")[0];
  const does = ACTIONS.includes(verb) ? text(`action_${verb}`) : text("askProvider");
  const decision = reply.action === null
    ? [text("noRuleDecides")]
    : [element("strong", {}, foreign(reply.action)), `: ${does}`];
  by("checked").replaceChildren(
    element("p", { id: "decision" }, ...decision),
    element("p", { class: "quiet" }, text("lookedFor")),
    element("ol", { "aria-label": text("keys") }, ...keys),
  );
  by("checked").focus();
}

// ---- what is pressed

by("put-action").append(
  ...ACTIONS.map((it) => element("option", { value: it }, `${it}: ${text(`action_${it}`)}`)),
);
new IntersectionObserver((changes) => {
  if (changes.some((it) => it.isIntersecting)) more();
}, { rootMargin: "600px" }).observe(by("lines-end"));
// (on paper nobody comes to the end of a list)
addEventListener("beforeprint", () => {
  while (by("lines").tBodies[0].rows.length < shown.length) more();
});
by("rules-new").addEventListener("click", () => edit(null));
by("rules-search").addEventListener("input", filter);
by("rules-import").addEventListener("click", () => openImport(open, () => rules));
by("rules-csv").addEventListener("click", () => {
  const columns = ["class", "pattern", "action"];
  const rows = rules.map((it) => columns.map((name) => it[name]));
  download("rules.csv", csvOf([columns, ...rows], false));
});
by("put-pattern").addEventListener("input", warn);
by("put-class").addEventListener("change", warn);
by("put-check").addEventListener("click", (event) => inDialog(event, stops));
by("put-no").addEventListener("click", () => by("put-dialog").close());
by("put-form").addEventListener("submit", (event) => inDialog(event, put));
by("check-form").addEventListener("submit", (event) => trying(() => check(event)));
