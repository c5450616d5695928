// The notices, the newest first, and the two texts of one, with the way to its message.

import { call, notices } from "./api.js";
import { recipientsOf, wholeCause } from "./causes.js";
import { desk } from "./desk.js";
import { show as find } from "./find.js";
import { address, button, by, chip, element, filling, say, trying } from "./parts.js";
import { moment, text } from "./texts.js";
import { showMessage } from "./queue.js";

let opened = null;

function drawn(notice) {
  const opens = () => trying(() => show(notice));
  const words = text(`notice_${notice.kind}`);
  // (a name begins with what is seen: WCAG 2.5.3)
  const name = `${words}: ${text("openNotice", { number: notice.number })}`;
  const subject = button(words, opens, { class: "link", "aria-label": name });
  const to = element("span", { class: "line" }, address(notice.to));
  const cell = (it) => element("td", { role: "cell" }, it);
  const row = element("tr", { role: "row", class: "notice", "data-id": notice.id });
  row.dataset.number = notice.number;
  row.dataset.kind = notice.kind;
  row.dataset.all = `${notice.to} ${notice.id}`.toLowerCase();
  row.append(cell(moment(notice.at)), cell(chip(notice.kind, text(`kind_${notice.kind}`))),
    cell(subject), cell(to), cell(element("code", {}, notice.id)));
  return row;
}

// Where more is told of the message of a notice: the queue while it is there, and the search.
function ways({ id }) {
  const finds = button(text("findMessage", { id }), () => find({ words: id }));
  if (!desk.byId.has(id)) return [finds];
  return [button(text("openMessage", { id }), () => showMessage(id)), finds];
}

// Why, for each recipient that the notice tells of.
function causes(status, isOver) {
  return recipientsOf(status).map((it) => element("li", {}, address(it.address),
    wholeCause(it.status, it.text, isOver)));
}

async function show(notice) {
  by("notice").hidden = true;
  const told = await call("GET", `/v1/notice/${notice.number}`);
  opened = notice.number;
  by("notice-subject").textContent = told.subject;
  by("notice-to").replaceChildren(address(told.to));
  by("notice-causes").replaceChildren(...causes(told.status, notice.kind === "failure"));
  by("notice-human").textContent = told.human;
  by("notice-status").textContent = told.status;
  by("notice-ways").replaceChildren(...ways(notice), button(text("close"), close));
  by("notice").hidden = false;
  by("notice").focus();
}

function close() {
  by("notice").hidden = true;
  by("notice-list").querySelector(`[data-number='${opened}'] button`)?.focus();
}

// Shows the notices of a kind, and those with the words that are looked for.
function filter() {
  const [words, kind] = ["search", "kind"].map((it) => by(`notices-${it}`).value.trim());
  const rows = [...by("notice-list").tBodies[0].rows];
  const isMeant = ({ dataset }) =>
    (!kind || dataset.kind === kind) && dataset.all.includes(words.toLowerCase());
  for (const it of rows) it.hidden = !isMeant(it);
  const number = rows.filter((it) => !it.hidden).length;
  const said = words || kind ? "noticesFound" : "noticesAll";
  by("notices-shown").textContent = text(said, { count: rows.length, number });
  by("notice-list").hidden = !number;
  by("notices-none").hidden = number > 0;
  by("notices-none").textContent = text(rows.length ? "nothingFound" : "noNotices");
}

async function load() {
  const rows = [];
  if (!by("notice-list").tBodies[0].rows.length) by("notices-shown").textContent = text("loading");
  try {
    for await (const page of notices()) rows.push(...page.map(drawn));
  } catch (fault) {
    by("notices-shown").textContent = "";
    throw fault;
  }
  // (notices never change: where the numbers are the same, so are the rows, and the focus stays)
  const numbers = (some) => [...some].map((it) => it.dataset.number).join(" ");
  rows.reverse();
  const body = by("notice-list").tBodies[0];
  if (numbers(rows) !== numbers(body.rows)) body.replaceChildren(...rows);
  filter();
}

export const open = () => filling("notice-list", load);

// Opens the newest notice of a message.
export async function openOf(id) {
  by("notices-search").value = by("notices-kind").value = "";
  await open();
  const rows = [...by("notice-list").tBodies[0].rows];
  const row = rows.find((it) => it.dataset.id === id);
  if (row) row.querySelector("button").click();
  else say(text("fault12"));
}

by("notice").addEventListener("keydown", ({ key }) => {
  if (key === "Escape") close();
});
by("notices-kind").append(
  element("option", { value: "" }, text("anyKind")),
  ...["failure", "delay"].map((it) => element("option", { value: it }, text(`kind_${it}`))),
);
by("notices-kind").addEventListener("change", filter);
by("notices-search").addEventListener("input", filter);
by("reload-notices").addEventListener("click", async () => {
  if (await open()) say(text("loadedAgain"));
});
