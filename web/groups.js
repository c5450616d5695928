// Why mail waits: the messages of a queue by what the other side said, by domain, sender and age.

const HOUR = 3600;
// The columns of the chart of ages end at these hours; the last one has no end.
export const AGES = [1, 4, 12, 24, 48, 72, 96, Infinity];
export const STATES = ["waiting", "deferred", "hold"];

// What differs from message to message in one and the same answer.
const VARIES = new RegExp(
  [
    "<[^>]*@[^>]*>",
    "[^\\s<>()\"',;:=]+@[^\\s<>()\"',;]+",
    "\\[?\\b\\d{1,3}(\\.\\d{1,3}){3}\\b\\]?",
    "https?://\\S+",
    "\\b(?=\\w*\\d)[0-9A-Za-z_-]{8,}\\b",
    "\\b\\d{3,}\\b",
  ].join("|"),
  "g",
);
// What says the same once more: the codes of SMTP, who said it, and in reply to what.
const CODES = /\b[245]\d\d[ -](?:#?\d\.\d{1,3}\.\d{1,3} ?)?/g;
const SAID = /^host ([^\s[]+)(?:\[[^\]]*\])? said: /;
// (one of several hosts of a domain says what all of them say)
const POOL = /\d+(?=[a-z-]*\.[a-z][\w-]*\.[a-z])/gi;
const REPLY = / ?\(in reply to [^)]*\)?$/;
const kinds = new Map();

function stripped(text) {
  const short = text.replace(REPLY, "").replace(SAID, "$1: ").replace(CODES, "");
  const same = short.replace(VARIES, "…").replace(POOL, "…");
  return same.replace(/(?:…[\s:,]*)+…/g, "…").replace(/: …: /g, ": ");
}

// An answer as a row has room for: what was said, without who said it.
export const shortened = (text) =>
  text.replace(REPLY, "").replace(SAID, "").replace(CODES, "").replace(/^<[^>]*>: /, "");

// An answer without what varies in it.
export function kindOf(status, text) {
  const whole = `${status} ${text}`;
  const known = kinds.get(whole);
  if (known !== undefined) return known;
  const kind = `${status} ${stripped(text)}`.trim();
  // (a desk of many months is not to fill the memory of its page)
  if (kinds.size > 20_000) kinds.clear();
  kinds.set(whole, kind);
  return kind;
}

// The groups that a message is in, as its kind of reason and the text of that.
function reasonsOf(/** @type {Message} */ message) {
  if (message.state === "hold") return [["hold", message.reason]];
  const said = message.pending.filter((it) => it.status);
  if (!said.length) return [["waiting", ""]];
  return [...new Set(said.map((it) => kindOf(it.status, it.text)))].map((it) => ["deferred", it]);
}

// Whether a message is in a group.
export function isIn(/** @type {Message} */ message, /** @type {Group} */ { of, kind, name }) {
  if (kind === "domain") return message.domains.includes(name);
  if (kind === "sender") return message.sender.toLowerCase() === name;
  return reasonsOf(message).some(([one, reason]) => `${one} ${reason}` === of);
}

/** @returns {Group[]} */
function grouped(/** @type {Message[]} */ messages, namesOf) {
  /** @type {Map<string, Group>} */
  const groups = new Map();
  for (const message of messages) {
    for (const [kind, name] of namesOf(message)) {
      const of = `${kind} ${name}`;
      if (!groups.has(of)) groups.set(of, { of, kind, name, messages: [] });
      groups.get(of)?.messages.push(message);
    }
  }
  return [...groups.values()].sort(
    (a, b) => b.messages.length - a.messages.length || (a.of < b.of ? -1 : 1),
  );
}

export const byReason = (messages) => grouped(messages, reasonsOf);
export const byDomain = (messages) =>
  grouped(messages, (it) => it.domains.map((domain) => ["domain", domain]));
export const bySender = (messages) =>
  grouped(messages, (it) => [["sender", it.sender.toLowerCase()]]);

// Which column of the chart an age belongs to.
export const columnOf = (seconds) => AGES.findIndex((hours) => seconds < hours * HOUR);

// How many messages of each state are in each column.
export function byAge(/** @type {Message[]} */ messages, now) {
  const columns = AGES.map(() => ({ waiting: 0, deferred: 0, hold: 0 }));
  for (const it of messages) columns[columnOf(Math.max(0, now - it.arrival))][it.state] += 1;
  return columns;
}

export function byState(/** @type {Message[]} */ messages) {
  const counts = { waiting: 0, deferred: 0, hold: 0 };
  for (const it of messages) counts[it.state] += 1;
  return counts;
}
