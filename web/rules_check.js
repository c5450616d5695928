// What is wrong with a file of rules, row by row and all at once, and the same file as the desk
// reads it. The forms are those of docs/API.md, "Forms and limits".

import { cellsOf, csvOf, rowsOf } from "./csv.js";
import { text } from "./texts.js";
import { ACTIONS } from "./words.js";

export const HEADER = ["class", "pattern", "action"];
const SEPARATORS = [",", ";", "\t"];
// What people write for a class, beside the names of the desk: the words of the page.
const CLASSES = {
  sender: "sender", from: "sender", von: "sender",
  recipient: "recipient", to: "recipient", an: "recipient",
};
const LOCAL = "[!#-'*+\\-./0-9:=?A-Z\\[\\]^_`a-z{|}~]+";
const DOMAIN = "[\\w-]+(?:\\.[\\w-]+)*";
const ADDRESS = new RegExp(`^${LOCAL}@${DOMAIN}$`);
const PATTERN = new RegExp(`^(?:(?:${LOCAL}@)?${DOMAIN}|\\.${DOMAIN}|${LOCAL}@)$`);
const [LONGEST_PATTERN, LONGEST_TEXT] = [254, 1000];

const nameOf = (cell) => cell.replace(/^\ufeff/, "").trim().toLowerCase();

// What parts the fields of a file, by its header; null where that is none.
function separatorOf(head) {
  const isIt = (it) => cellsOf(head, it).map(nameOf).join() === HEADER.join();
  return SEPARATORS.find(isIt) ?? null;
}

// ---- one row: the column that is wrong, and why; null where nothing is

function classFault(side) {
  return side in CLASSES ? null : text("whyClass");
}

function patternFault(side, pattern) {
  const isNull = pattern === "<>" && CLASSES[side] === "sender";
  const isOne = PATTERN.test(pattern) && pattern.length <= LONGEST_PATTERN;
  return isNull || isOne ? null : text("whyPattern");
}

function actionFault(action) {
  const [verb] = action.split(" ");
  const words = action.slice(verb.length).trim();
  const [odd] = words.match(/[^ -~]/u) ?? [];
  if (!ACTIONS.includes(verb.toUpperCase())) return text("whyVerb", { verbs: ACTIONS.join(", ") });
  if (verb.toUpperCase() === "REDIRECT") return ADDRESS.test(words) ? null : text("whyAddress");
  if (odd) return text("whyLetter", { letter: odd.trim() || text("whyLine") });
  return words.length > LONGEST_TEXT ? text("whyTooLong", { most: LONGEST_TEXT }) : null;
}

function faultsOf([side, pattern, action]) {
  const found = [classFault(side), patternFault(side, pattern), actionFault(action)];
  return found.map((why, at) => ({ column: HEADER[at], why })).filter((it) => it.why);
}

// ---- the whole file

// The faults of the rows, and of those that have the pattern of an earlier one.
function* faultsOfRows(rows, separator) {
  const known = new Map();
  for (const [at, { line, text: whole }] of rows.entries()) {
    const row = at + 1;
    const cells = cellsOf(whole, separator).map((it) => it.trim());
    if (cells.length !== HEADER.length) {
      const why = text("whyFields", { count: cells.length });
      yield { row, line, whole, column: "", why };
      continue;
    }
    const [side, pattern] = [nameOf(cells[0]), cells[1]];
    for (const it of faultsOf([side, pattern, cells[2]])) yield { row, line, whole, ...it };
    const key = `${CLASSES[side]} ${pattern.toLowerCase()}`;
    const other = known.get(key);
    if (other) {
      yield { row, line, whole, column: "pattern", why: text("whyDouble", { other }) };
    } else known.set(key, row);
  }
}

// An action as the desk keeps it.
function keptAction(action) {
  const [verb, ...words] = action.trim().split(" ");
  return `${verb.toUpperCase()} ${words.join(" ").trim()}`.trim();
}

// All faults of a file, else its rules, and the file as it is sent. A file without a header that
// anybody understands has no rows to look at.
export function checked(/** @type {string} */ csv) {
  const head = rowsOf(csv)[0]?.text ?? "";
  const separator = separatorOf(head);
  if (!separator) return { isFile: false, faults: [], rules: [], csv };
  const rows = rowsOf(csv, separator).slice(1);
  const faults = [...faultsOfRows(rows, separator)];
  if (faults.length) return { isFile: true, faults, rules: [], csv };
  const raw = rows.map((it) => cellsOf(it.text, separator));
  const cells = raw.map((row) => row.map((one) => one.trim()));
  const rules = cells.map(([side, pattern, action]) => (
    { class: CLASSES[nameOf(side)], pattern: pattern.toLowerCase(), action: keptAction(action) }));
  // (a file that the desk understands goes as it is, so that it counts once under its label)
  const isPlain = cellsOf(head.replace(/^\ufeff/, ""), ",").join() === HEADER.join()
    && raw.every(([side, pattern]) => side === CLASSES[side] && pattern === pattern.trim());
  const made = cells.map(([side, ...rest]) => [CLASSES[nameOf(side)], ...rest]);
  return { isFile: true, faults, rules, csv: isPlain ? csv : csvOf([HEADER, ...made], false) };
}
