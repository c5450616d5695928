// Small parts that all views use.

import { text } from "./texts.js";
import { told } from "./words.js";

/**
 * The element of an ID. (The page has many kinds of them, so its type is left open.)
 * @returns {any}
 */
export const by = (id) => document.getElementById(id);

/**
 * The elements of a selector.
 * @returns {any[]}
 */
export const all = (selector) => [...document.querySelectorAll(selector)];

/**
 * What has the focus.
 * @returns {any}
 */
export const focused = () => document.activeElement;

// An element with text or children. Text of the desk comes in here alone, and never as markup.
export function element(name, attributes = {}, ...children) {
  const made = document.createElement(name);
  for (const [word, value] of Object.entries(attributes)) made.setAttribute(word, value);
  made.append(...children);
  return made;
}

// A text of somebody else, kept apart from the direction of the text around it.
export const foreign = (words) => element("bdi", {}, words);

// An address, which may break behind its @ and its dots, and not inside a word.
export function address(words) {
  const made = foreign("");
  for (const part of words.split(/(?<=[@.])/)) made.append(part, element("wbr"));
  return made;
}

export const sender = (words) => (words ? address(words) : text("nullSender"));

export function button(words, does, attributes = {}) {
  const made = element("button", { type: "button", ...attributes }, words);
  made.addEventListener("click", does);
  return made;
}

// A row of a table, its cells named for narrow screens.
export function row(labels, cells) {
  const made = element("tr", { role: "row" });
  const cell = (it, at) => element("td", { role: "cell", "data-label": labels[at] }, it);
  made.append(...cells.map(cell));
  return made;
}

// A state as a word on its colour.
export const chip = (state, words = text(state)) =>
  element("span", { class: `chip ${state}` }, words);

// A shape of SVG.
export function shape(name, attributes = {}, ...children) {
  const made = document.createElementNS("http://www.w3.org/2000/svg", name);
  for (const [word, value] of Object.entries(attributes)) made.setAttribute(word, value);
  made.append(...children);
  return made;
}

// A line of what went wrong.
export const bad = (words) => element("p", { class: "bad" }, words);

// Says what happened, in lines that a screen reader reads. A fault comes in its plain words.
export function say(...lines) {
  const line = (it) => (it instanceof Element ? it : element("p", {}, it));
  const made = lines.map((it) => (it instanceof Error ? bad(told(it)) : line(it)));
  sayNothing();
  by("told-close").hidden = false;
  by("told").append(...made);
}

// (a deletion that can be undone stays until that is over)
export function sayNothing() {
  by("told-close").hidden = true;
  for (const it of [...by("told").children]) if (it.id !== "held-back") it.remove();
}

// Says what was done, and loads what it changed. A fault of the loading comes behind it.
export async function sayAndLoad(line, load) {
  say(line);
  try {
    await load();
  } catch (fault) {
    say(line, fault);
  }
}

// Does something that may be refused, and says the fault if it is. Answers whether it was done.
export async function trying(does) {
  try {
    await does();
    return true;
  } catch (fault) {
    say(fault);
    return false;
  }
}

// Loads what a table shows, which is busy meanwhile, and says the fault if there is one.
export function filling(table, load) {
  return trying(async () => {
    by(table).ariaBusy = "true";
    try {
      await load();
    } finally {
      by(table).ariaBusy = "false";
    }
  });
}

// Puts a question; answers whether it was answered by the button `yes`. `facts` are what it is
// about, as pairs of a name and what stands for it.
export function ask(title, words, yes, { isDanger = false, facts = [] } = {}) {
  const dialog = by("question");
  by("question-title").textContent = title;
  by("question-facts").replaceChildren(
    ...facts.flatMap(([name, it]) => [element("dt", {}, name), element("dd", {}, it)]),
  );
  by("question-text").textContent = words;
  by("question-yes").textContent = yes;
  by("question-yes").classList.toggle("danger", isDanger);
  // (at Escape some browsers leave the answer to the last question)
  dialog.returnValue = "no";
  dialog.showModal();
  return new Promise((answer) => {
    by("question-yes").onclick = () => dialog.close("yes");
    by("question-no").onclick = () => dialog.close("no");
    dialog.onclose = () => answer(dialog.returnValue === "yes");
  });
}

// Has a file saved by the browser.
export function download(name, words) {
  const file = URL.createObjectURL(new Blob([words], { type: "text/csv" }));
  element("a", { href: file, download: name }).click();
  URL.revokeObjectURL(file);
}

// A menu of actions: a summary, and a button for each.
export function menu(words, label, choices) {
  const summary = element("summary", { "aria-label": label }, words);
  const list = element("div", { class: "menu-list" });
  const made = element("details", { class: "menu", "aria-label": label }, summary, list);
  for (const [name, does, attributes] of choices) {
    list.append(button(name, () => {
      made.open = false;
      summary.focus();
      does();
    }, attributes));
  }
  return made;
}

// A menu that is left is closed, by the mouse as by Tab and Escape.
export function closeMenus(/** @type {any} */ { type, key, target }) {
  if (type === "keydown" && key !== "Escape") return;
  for (const it of all("details.menu[open]")) {
    if (type !== "keydown" && it.contains(target)) continue;
    const inside = it.contains(document.activeElement);
    it.open = false;
    if (inside && type === "keydown") it.querySelector("summary").focus();
  }
}
