// Why mail waits or failed, in plain words: what happened, who has to act, and what to do, by the
// enhanced status of an answer and by its words.
//
// Sources: RFC 3463 for the classes, subjects and details of a status, and the registry of IANA,
// "Simple Mail Transfer Protocol (SMTP) Enhanced Status Codes", for those that were added since:
// RFC 7372 (X.7.20 to X.7.26), RFC 7505 (X.1.10, X.7.27), RFC 7293 (X.7.17 to X.7.19), RFC 4954
// (X.7.8, X.7.9), RFC 6531 (X.6.7 to X.6.10), and X.7.28, mail flood detected. Words are those that
// mail servers say beside a status that is too general: Postfix, Exim, Exchange and large services.

import { element } from "./parts.js";
import { has, text } from "./texts.js";

// Each row: the name of its texts, who has to act, statuses, and words. A row is for an answer of
// one of its statuses, or with its words; the first that is for it counts, so that what a status
// alone says stands behind what the words say. A status begins with X for both classes.
/** @type {[string, string, string, RegExp | null][]} */
const ROWS = [
  ["greylisted", "nobody", "", /gr[ae]y-?list/],
  ["blockList", "provider", "", /\b(?:block|black|deny)-?list|spamhaus|spamcop|barracuda|\brbl\b/],
  ["tooMuch", "you", "X.7.28", /rate.?limit|too many (?!hops)|unusual rate|throttl|mail flood/],
  ["spf", "you", "X.7.23 X.7.24", /\bspf\b/],
  ["dkim", "you", "X.7.20 X.7.21 X.7.22", /\bdkim\b/],
  ["dmarc", "you", "X.7.26", /\bdmarc\b/],
  ["reverseName", "provider", "X.7.25", /reverse (?:dns|name|lookup)|\bptr\b|\brdns\b/],
  ["spam", "you", "", /\bspam\b|unsolicited|\bjunk\b|phish|virus|malware/],
  ["mailboxFull", "recipient", "X.2.2", /(?:mailbox|quota|inbox).*(?:full|exceed)|over ?quota/],
  ["disabled", "recipient", "X.2.1 X.7.13",
    /(?:mailbox|account|user).*(?:disabled|inactive|suspend)/],
  ["noMailbox", "you", "X.1.1",
    /(?:no such|unknown) (?:user|mailbox|recipient)|(?:user|mailbox|recipient) unknown/],
  ["moved", "you", "X.1.6 X.7.17 X.7.18 X.7.19", null],
  ["noMail", "you", "X.1.10", /\bnull ?mx\b|does not accept mail/],
  ["badSender", "you", "X.1.7 X.1.8 X.7.27", /sender (?:address )?rejected/],
  ["domainLookup", "nobody", "4.4.3", null],
  ["noDomain", "you", "X.1.2 5.4.4 5.4.3",
    /domain (?:name )?(?:does not exist|not found)|\bnxdomain\b/],
  ["badAddress", "you", "X.1.3 X.1.4", null],
  ["tooLarge", "you", "X.2.3 X.3.4", /(?:message|size|mail).*(?:too (?:big|large)|exceeds)/],
  ["listClosed", "recipient", "X.2.4 X.7.2", null],
  ["loop", "other", "X.4.6", /\bloops?\b|too many hops/],
  ["encryption", "provider", "X.7.4 X.7.5 X.7.10 X.7.30", /\btls\b|certificate/],
  ["login", "provider", "X.7.8 X.7.9", /authentication (?:is )?(?:required|failed)/],
  ["noAnswer", "other", "X.4.1 X.4.2",
    /connection (?:timed out|refused|reset)|lost connection|no route to host/],
  ["busy", "nobody", "X.2.0 X.3.0 X.3.1 X.3.2 X.4.5", null],
  ["misconfigured", "other", "X.3.3 X.3.5 X.4.0 X.4.3 X.4.4", null],
  ["givenUp", "you", "X.4.7", null],
  ["form", "you", "X.6.0 X.6.1 X.6.2 X.6.3 X.6.4 X.6.5 X.6.6 X.6.7 X.6.8 X.6.9 X.6.10", null],
  ["protocol", "provider", "X.5.0 X.5.1 X.5.2 X.5.3 X.5.4 X.5.5 X.5.6", null],
  ["policy", "you", "X.7.0 X.7.1", /access denied|relay(?:ing)? (?:access )?denied/],
  ["later", "nobody", "4.", null],
  ["never", "you", "5.", null],
];

/** @type {Map<string, any>} */
const known = new Map();

function isOf([, , statuses, words], status, said) {
  if (words?.test(said)) return true;
  const detail = `X${status.slice(1)}`;
  return statuses.split(" ").some((it) =>
    it && (it === status || it === detail || (it.endsWith(".") && status.startsWith(it))));
}

// The cause of an answer; null where it tells of none: before one, and where the mail was taken.
function causeOf(status, said) {
  if (!/^[45]\./.test(status)) return null;
  const key = `${status} ${said}`;
  if (!known.has(key)) {
    // (a desk of many months is not to fill the memory of its page)
    if (known.size > 20_000) known.clear();
    known.set(key, ROWS.find((it) => isOf(it, status, said.toLowerCase())));
  }
  const [name, who] = known.get(key);
  return { name, who };
}

// What happened, in a few words; "" where nothing is told of it.
export function whatHappened(status, said) {
  const cause = causeOf(status, said);
  return cause ? text(`cause_${cause.name}`) : "";
}

// What happened to a message: of its last answer, as a row has room for.
export function causeOfMessage(/** @type {Message} */ { state, pending }) {
  const last = pending.find((it) => it.status);
  return state === "hold" || !last ? "" : whatHappened(last.status, last.text);
}

// The cause whole: what happened, who has to act, and what to do. `isOver` is of a recipient that
// is not tried again.
export function wholeCause(status, said, isOver) {
  const cause = causeOf(status, said);
  if (!cause) return "";
  const { name, who } = cause;
  const failed = `todo_${name}_failed`;
  const todo = text(isOver && has(failed) ? failed : `todo_${name}`);
  const acts = element("span", { class: "who" }, `${text(`who_${who}`)}:`);
  return element("div", { class: "cause" },
    element("strong", {}, text(`cause_${name}`)), element("p", {}, acts, ` ${todo}`));
}

// The recipients of a delivery status (RFC 3464), each with its status and what was said.
export function recipientsOf(words) {
  const fields = words.replace(/\r?\n[ \t]+/g, " ").split(/\r?\n\r?\n/).map((block) =>
    Object.fromEntries(block.split(/\r?\n/).map((line) => {
      const [name, ...rest] = line.split(":");
      return [name.toLowerCase(), rest.join(":").trim()];
    })));
  const behind = (field) => field?.slice(field.indexOf(";") + 1).trim() ?? "";
  return fields.filter((it) => it["final-recipient"]).map((it) => ({
    address: behind(it["final-recipient"]), status: it.status ?? "",
    text: behind(it["diagnostic-code"]),
  }));
}
