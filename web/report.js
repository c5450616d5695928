// The report of the desk, read: the one call that tells a whole queue, with each recipient and
// what was said about it. 10,000 messages come by it at once, where lists come a hundred each.

import { text } from "./texts.js";

const MESSAGE = /^([0-9A-F]{10})([! ]) +(\d+) (.{31}) (.*)$/;
const HOLD = "    (hold: ";
const ANSWER = /^ {4}\((\d\.\d{1,3}\.\d{1,3})(?: (.*))?\)$/;
const RECIPIENT = "    ";
// Why a message is on hold that a customer has put there, as the desk says it.
export const HELD = "held by customer";

// What a recipient's name ends in; "" where it has none.
export const domainOf = (address) => address.slice(address.lastIndexOf("@") + 1).toLowerCase();

/** @returns {Message} */
function begun(/** @type {string[]} */ [, id, mark, bytes, date, sender]) {
  return {
    id,
    state: mark === "!" ? "hold" : "waiting",
    size: Number(bytes),
    arrival: Date.parse(date) / 1000,
    sender: sender === "<>" ? "" : sender,
    reason: "",
    pending: [],
    all: "",
    domains: [],
  };
}

// Where a line is no more than its text, a search finds it as it was written.
function ended(/** @type {Message} */ message) {
  if (message.state === "waiting" && message.pending.some((it) => it.status)) {
    message.state = "deferred";
  }
  const said = message.pending.map((it) => `${it.address} ${it.status} ${it.text}`);
  const { id, sender, reason } = message;
  message.all = [id, sender, reason, reasonOf(message), ...said].join(" ").toLowerCase();
  message.domains = [...new Set(message.pending.map((it) => domainOf(it.address)))];
  return message;
}

// Why a message is on hold, in the language of the page where the desk has said it, and not a rule.
export const reasonOf = (/** @type {{ reason: string }} */ { reason }) =>
  (reason === HELD ? text("heldByCustomer") : reason);

// The messages of a report, oldest first. Lines that are none of a report are passed over.
export function messagesOf(/** @type {string} */ report) {
  /** @type {Message[]} */
  const messages = [];
  let answer = null;
  for (const line of report.split("\n")) {
    const message = messages.at(-1);
    const head = line.startsWith(" ") ? null : MESSAGE.exec(line);
    if (head) {
      messages.push(begun(head));
      answer = null;
    } else if (!message || !line.startsWith(RECIPIENT)) {
      continue;
    } else if (line.startsWith(HOLD)) {
      message.reason = line.slice(HOLD.length, -1);
    } else if (line.startsWith("    (")) {
      answer = ANSWER.exec(line);
    } else {
      const address = line.slice(RECIPIENT.length);
      message.pending.push({ address, status: answer?.[1] ?? "", text: answer?.[2] ?? "" });
      answer = null;
    }
  }
  return messages.map(ended);
}

// The last answer that a message has; "" before one.
export function answerOf(/** @type {Message} */ message) {
  const last = message.pending.find((it) => it.status);
  return last ? `${last.status} ${last.text}`.trim() : "";
}
