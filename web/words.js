// Every refusal and fault in plain words, and the actions of rules.

import { key } from "./api.js";
import { has, text } from "./texts.js";

// What a fault means, as one line: what it is, what to do, and last its number for the provider.
export function told(fault) {
  if (!("number" in fault)) return text("pageFault", { words: fault.message });
  const { status, number, named, reads } = fault;
  const again = text(reads ? "tryAgain" : "nobodyKnows");
  if (number) {
    const words = `fault${number}${kindOf(fault)}`;
    const later = text(status === 503 ? "notDone" : "refused");
    return `${has(words) ? text(words) : later} (${number} ${named})`;
  }
  if (status === 413 || status === 429) return text(`proxy${status}`);
  if (status === 503) return text("notDone");
  if (!status) return `${text("noReply")} ${again}`;
  const words = has(`proxy${status}`) ? text(`proxy${status}`) : text("noDesk", { status });
  return `${words} ${again}`;
}

// Two numbers mean one thing or another: nobody is logged in any more, and a key may only read.
function kindOf({ number, reads }) {
  if (number === 2 && !key.get()) return "Session";
  return number === 3 && !reads ? "Act" : "";
}

// The actions of rules; texts has what each does.
export const ACTIONS = ["OK", "REJECT", "DEFER", "HOLD", "DISCARD", "REDIRECT", "DUNNO"];
