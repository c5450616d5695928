// Stops a sender: a rule refuses what it sends from now on, what is queued of it is put on hold,
// and then, once it is counted, deleted: what somebody has seen of it, and what came in meanwhile
// if that is wanted too.

import { alone, each, heldBack, saidWhile } from "./acts.js";
import { call } from "./api.js";
import { desk } from "./desk.js";
import { address, ask, bad, element, foreign, say } from "./parts.js";
import { messagesOf } from "./report.js";
import { text } from "./texts.js";
import { told } from "./words.js";

const ACTION = "REJECT";

const isOf = (sender) => (/** @type {Message} */ it) => it.sender.toLowerCase() === sender;

// The rule of a sender that this one takes the place of; null where there is none, or the same.
async function ruleOf(sender) {
  const { action, pattern } = await call("POST", "/v1/check", { class: "sender", address: sender });
  return pattern === sender && !action.startsWith(ACTION) ? action : null;
}

async function mayStop(sender, count) {
  const rule = await ruleOf(sender);
  const facts = rule === null ? [] : [[text("replaceNow"), foreign(rule)],
    [text("replaceNew"), ACTION]];
  const title = text("stopTitle", { sender });
  return ask(title, text("stopText", { count }), text("stopYes"), { isDanger: true, facts });
}

// Sets the rule, and then holds what is queued. What went wrong behind the rule, if something did.
async function refuseAndHold(sender) {
  const pattern = { class: "sender", pattern: sender };
  await call("POST", "/v1/line-put", { ...pattern, action: ACTION });
  try {
    await call("POST", "/v1/hold-matching", pattern);
    return null;
  } catch (fault) {
    return fault;
  }
}

// To whom the first of some messages are, in a question.
const someOf = (messages) => element("span", {}, ...messages.slice(0, 3).flatMap((it) =>
  [address(it.pending[0]?.address ?? it.id), element("br")]));

async function queuedOf(sender) {
  const { report } = await call("GET", "/v1/report");
  return messagesOf(report).filter(isOf(sender));
}

// The IDs that are to be deleted: of what was seen, and of what came in since where that is wanted.
async function chosen(sender, seen, there) {
  const known = there.filter((it) => seen.has(it.id));
  const late = there.filter((it) => !seen.has(it.id));
  const deletes = (title, some, words) => {
    const count = some.length;
    const facts = [[text("to"), someOf(some)]];
    const how = { isDanger: true, facts };
    return ask(text(title, { count, sender }), words, text("deleteYes", { count }), how);
  };
  const some = [];
  if (known.length) {
    if (!(await deletes("stopDeleteTitle", known, text("stopDeleteText")))) return some;
    some.push(...known);
  }
  if (late.length && await deletes("stopLateTitle", late, text("stopLateText"))) some.push(...late);
  return some.map((it) => it.id);
}

export function stopSender(from) {
  const sender = from.toLowerCase();
  const seen = new Set(desk.messages.filter(isOf(sender)).map((it) => it.id));
  return alone(async () => {
    if (!(await mayStop(sender, seen.size))) return;
    const fault = await saidWhile(() => refuseAndHold(sender));
    const done = text("stopped", { sender });
    if (fault) return say(done, bad(text("stopNotHeld", { words: told(fault) })));
    say(done);
    const there = await queuedOf(sender);
    if (!there.length) return;
    const ids = await chosen(sender, seen, there);
    if (ids.length && await heldBack(ids, ids.length)) await each(ids, "delete", { first: [done] });
    else say(done, text("stopHeld"));
  });
}
