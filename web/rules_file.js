// Many rules at once, from a CSV file: all that is wrong with the file is said before it is sent,
// as far as this page sees it, and else by the row that the desk names. What it adds and changes is
// shown before, too.

import { call } from "./api.js";
import { rowsOf } from "./csv.js";
import { ask, bad, by, element, foreign } from "./parts.js";
import { meant } from "./patterns.js";
import { checked, HEADER } from "./rules_check.js";
import { count, text } from "./texts.js";
import { told } from "./words.js";

const MOST_ROWS = 1000;
// Of faults, and of rules that are changed, as a dialog has room for.
const SHOWN = 20;
const FEW = 5;

let loads = async () => {};
/** @type {() => Rule[]} */
let rulesNow = () => [];
let offered = "";

// Offers a label of its own for each file that is sent: under one that was used the desk would
// answer as it did then. A label that somebody wrote stays.
function offerLabel() {
  const field = by("import-label");
  if (field.value !== offered) return;
  offered = new Date().toISOString().replace(/[-:]/g, "").replace(/\.(\d+)Z/, "$1");
  field.value = offered;
}

// `load` brings the rules anew, and `known` tells them.
export function openImport(load, known) {
  [loads, rulesNow] = [load, known];
  by("imported").replaceChildren();
  offerLabel();
  by("import-dialog").showModal();
}

function faultItem({ row, line, column, why, whole }) {
  const where = text("fileFault", { row, line, column: column && `${column}: `, why });
  return element("li", {}, where, element("pre", {}, foreign(whole)));
}

// What a file has that the desk would refuse: all of it, with the reasons that the desk tells none.
function faultsShown({ isFile, faults, rules }) {
  if (!isFile) return [bad(text("badHeader", { header: HEADER.join() }))];
  const { length: count } = rules;
  if (count > MOST_ROWS) return [bad(text("tooManyRows", { count, most: MOST_ROWS }))];
  if (!faults.length) return [];
  const rest = faults.length - SHOWN;
  const more = rest > 0 ? [element("p", {}, text("andMore", { count: rest }))] : [];
  return [bad(text("fileFaults", { count: faults.length })),
    element("ol", { id: "file-faults" }, ...faults.slice(0, SHOWN).map(faultItem)), ...more];
}

// Asks with what a file adds and changes, and what it has of patterns that match nobody.
function mayImport(rules) {
  const known = new Map(rulesNow().map((it) => [`${it.class} ${it.pattern}`, it.action]));
  const now = (it) => known.get(`${it.class} ${it.pattern}`);
  const changed = rules.filter((it) => ![undefined, it.action].includes(now(it)));
  const same = rules.filter((it) => now(it) === it.action).length;
  const words = { added: rules.length - changed.length - same, changed: changed.length, same };
  const facts = [
    ...changed.slice(0, FEW).map((it) => [it.pattern, foreign(`${now(it)} → ${it.action}`)]),
    ...rules.filter((it) => meant(it.pattern)).slice(0, FEW).map((it) =>
      [it.pattern, text("nobodyTake", { pattern: meant(it.pattern) })]),
  ];
  const title = text("importAsk", { count: rules.length });
  return ask(title, text("importSum", words), text("import"), { facts });
}

function faultOf(fault, csv) {
  const at = rowsOf(csv)[fault.row];
  const shown = [bad(told(fault))];
  if (fault.row === 0) {
    shown.push(element("p", {}, text("badHeader", { header: HEADER.join() })));
  }
  if (at) {
    const where = text("badRow", { row: fault.row, line: at.line });
    shown.push(element("p", {}, where), element("pre", { id: "bad-row" }, foreign(at.text)));
  }
  shown.push(element("p", {}, text("noRowSet")));
  return shown;
}

async function send(file) {
  const found = checked(file);
  const faults = faultsShown(found);
  if (faults.length) return [...faults, element("p", {}, text("noRowSet"))];
  const { csv } = found;
  if (!(await mayImport(found.rules))) return [];
  try {
    const label = by("import-label").value.trim();
    const { added, changed, same } = await call("POST", "/v1/import", { label, csv });
    const words = { added: count(added), changed: count(changed), same: count(same) };
    offerLabel();
    return [element("p", {}, text("imported", words))];
  } catch (fault) {
    if (!("number" in fault)) throw fault;
    // (where no reply came, the next try is to be the same file under the same label)
    if (!fault.isAway) offerLabel();
    return fault.row === undefined ? [bad(told(fault))] : faultOf(fault, csv);
  }
}

by("import-form").addEventListener("submit", async (event) => {
  event.preventDefault();
  const csv = await by("import-file").files[0].text();
  by("imported").replaceChildren();
  by("imported").replaceChildren(...(await send(csv)));
  by("imported").focus();
  await loads();
});
by("import-no").addEventListener("click", () => by("import-dialog").close());
