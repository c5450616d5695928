// The language of the page: its texts, numbers and dates. A language is one file of texts/ and one
// line here.

import german from "./texts/de.js";
import english from "./texts/en.js";

const LANGUAGES = { en: english, de: german };
// what the formats of numbers and dates are named by
const LOCALES = { en: "en-GB", de: "de-DE" };
const KEPT = "desk-language";
const SECONDS = { minutes: 60, hours: 3600, days: 86_400 };

export const languages = Object.entries(LANGUAGES).map(([name, it]) => [name, it.language]);

// The one that was chosen here, else the first of the browser's that there is.
function wanted() {
  const asked = [localStorage.getItem(KEPT), ...navigator.languages];
  return asked.map((it) => it?.slice(0, 2)).find((it) => it && it in LANGUAGES) ?? "en";
}

export const language = wanted();
const texts = LANGUAGES[language];
const plural = new Intl.PluralRules(LOCALES[language]);
const numbers = new Intl.NumberFormat(LOCALES[language]);
const decimals = new Intl.NumberFormat(LOCALES[language], {
  minimumFractionDigits: 1, maximumFractionDigits: 1,
});
const dates = new Intl.DateTimeFormat(LOCALES[language], {
  dateStyle: "medium", timeStyle: "short",
});
const clock = new Intl.DateTimeFormat(LOCALES[language], { timeStyle: "medium" });

export function choose(name) {
  localStorage.setItem(KEPT, name);
  location.reload();
}

export const has = (name) => name in texts || name in english;
export const count = (number) => numbers.format(number);

// A text by its name. `{count}` and its like stand for values; a number of them chooses the form.
export function text(name, values = {}) {
  const found = texts[name] ?? english[name] ?? name;
  const form = typeof found === "string"
    ? found
    : found[plural.select(values.count)] ?? found.other;
  return form.replace(/\{(\w+)\}/g, (_, it) => {
    const value = values[it];
    return typeof value === "number" ? count(value) : String(value ?? "");
  });
}

// The head and the body of a table whose markup names its columns.
function addColumns(table) {
  const head = table.createTHead();
  const row = head.insertRow();
  const cells = table.dataset.columns.split(" ").map((name) => {
    const cell = document.createElement("th");
    cell.setAttribute("role", "columnheader");
    cell.textContent = text(name);
    return cell;
  });
  row.append(...cells);
  row.setAttribute("role", "row");
  for (const it of [head, table.createTBody()]) it.setAttribute("role", "rowgroup");
}

// Puts the texts of the page where its markup names them.
export function fill(root) {
  document.documentElement.lang = language;
  for (const it of root.querySelectorAll("[data-text]")) {
    it.textContent = text(it.dataset.text);
  }
  for (const it of root.querySelectorAll("[data-label-text]")) {
    it.setAttribute("aria-label", text(it.dataset.labelText));
  }
  for (const it of root.querySelectorAll("[data-hint]")) {
    it.setAttribute("placeholder", text(it.dataset.hint));
  }
  for (const it of root.querySelectorAll("[data-columns]")) addColumns(it);
}

// A moment in the time of this device.
export function moment(seconds, made = document.createElement("time")) {
  const date = new Date(seconds * 1000);
  made.dateTime = date.toISOString();
  made.textContent = dates.format(date);
  return made;
}

export const timeOfDay = (seconds) => clock.format(new Date(seconds * 1000));

// How long something takes or has taken: "4 min", "3 h", "2 d".
export function span(seconds) {
  if (seconds < SECONDS.minutes) return text("moments");
  const [unit, of] = Object.entries(SECONDS).reverse().find(([, it]) => seconds >= it) ?? ["", 1];
  return text(unit, { count: Math.floor(seconds / of) });
}

export function size(bytes) {
  if (bytes < 1000) return text("bytes", { count: bytes });
  const power = Math.min(3, Math.floor(Math.log10(bytes) / 3));
  return `${decimals.format(bytes / 1000 ** power)} ${["", "kB", "MB", "GB"][power]}`;
}

// The time zone of this device, with how far it is from that of the logs.
export function zone() {
  const { timeZone } = Intl.DateTimeFormat().resolvedOptions();
  const minutes = -new Date().getTimezoneOffset();
  const [hours, rest] = [Math.floor(Math.abs(minutes) / 60), Math.abs(minutes) % 60];
  if (!minutes) return timeZone === "UTC" ? timeZone : `${timeZone} (UTC)`;
  const off = `UTC${minutes < 0 ? "−" : "+"}${hours}${rest ? `:${rest}` : ""}`;
  return `${timeZone} (${off})`;
}
