// The rows that Sent and Find share: when, to whom and from whom, what became of it, and what was
// said. A row is of a recipient that left the queue, or of a message that is still there.

import { whatHappened } from "./causes.js";
import { address, button, chip, element, foreign, sender } from "./parts.js";
import { moment, text } from "./texts.js";

// What may become of a recipient, and of whom that mail did not come.
export const RESULTS = ["delivered", "failed", "deleted", "expired"];
export const UNDELIVERED = ["failed", "expired"];

// The results that a choice is for.
export const resultsOf = (name) => (name === "undelivered" ? UNDELIVERED : [name]);

// The answer of an end, or of a recipient that waits; "" before one.
export const saidOf = ({ status, text: words }) => (status ? `${status} ${words}`.trim() : "");

// `opens` is what a press on the queue ID does, and `more` how many recipients are not named.
export function mailRow({ id, at, to, from, state, said, cause, opens, more = 0 }) {
  const rest = more ? ` ${text("andMore", { count: more })}` : "";
  const people = element("td", { role: "cell" },
    element("span", { class: "line strong" }, address(to), rest),
    element("span", { class: "line quiet" }, text("from"), " ", sender(from)));
  const answer = element("td", { role: "cell" }, element("span", { class: "line cause" }, cause),
    element("span", { class: "clamp", title: said }, foreign(said)));
  const label = text("openOne", { id, to });
  const opener = button(id, opens, { class: "link", "aria-label": label });
  const cell = (it) => element("td", { role: "cell" }, it);
  const row = element("tr", { role: "row", class: "end", "data-result": state, "data-id": id });
  row.append(cell(moment(at)), people, cell(chip(state)), answer, cell(opener));
  return row;
}

// The row of a recipient that left the queue.
export function endRow(/** @type {End} */ end, opens) {
  const { id, at, recipient: to, sender: from, result: state } = end;
  const cause = whatHappened(end.status, end.text);
  const row = mailRow({ id, at, to, from, state, said: saidOf(end), cause, opens });
  row.querySelector(".chip").title = text(`${state}Means`);
  return row;
}
