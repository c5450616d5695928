// How the page looks by firm.js, and what stands at its head: whose desk it is, how old it is.

import { asker, key } from "./api.js";
import { desk, now, when } from "./desk.js";
import { firm } from "./firm.js";
import { by, element } from "./parts.js";
import { choose, language, languages, span, text, timeOfDay, zone } from "./texts.js";
import { told } from "./words.js";

// The grounds of style.css, on which a colour of the firm has to be read.
const GROUNDS = { light: "#ffffff", dark: "#15181c" };
const LEAST_CONTRAST = 4.5;

function brightness(colour) {
  const parts = /^#(..)(..)(..)$/.exec(colour)?.slice(1).map((it) => parseInt(it, 16) / 255) ?? [];
  const [r, g, b] = parts.map((it) => (it <= 0.04045 ? it / 12.92 : ((it + 0.055) / 1.055) ** 2.4));
  return 0.2126 * r + 0.7152 * g + 0.0722 * b;
}

function canBeRead(colour, ground) {
  const [high, low] = [brightness(colour), brightness(ground)].sort((a, b) => b - a);
  return (high + 0.05) / (low + 0.05) >= LEAST_CONTRAST;
}

const title = () => (firm.name ? `${text("title")} – ${firm.name}` : text("title"));

// The title names the view, so that tabs and the history of the browser differ.
export function tellView(view) {
  document.title = `${text(view)} – ${title()}`;
}

export function wearColours() {
  for (const [scheme, ground] of Object.entries(GROUNDS)) {
    const colour = firm.colours[scheme];
    if (!canBeRead(colour, ground)) continue;
    document.documentElement.style.setProperty(`--firm-${scheme}`, colour);
  }
  by("firm").textContent = firm.name;
  by("firm").hidden = !firm.name;
  by("logo").src = firm.logo;
  document.title = title();
  for (const [id, address] of [["help", firm.help], ["login", firm.login]]) {
    by(id).hidden = !address;
    if (address) by(id).href = address;
  }
  by("zone").textContent = text("zone", { zone: zone() });
}

// ---- whose desk it is

export function tellWho() {
  const known = key.get();
  const who = asker.name || (known ? text("keyEnding", { end: known.slice(-4) }) : "");
  const isKnown = Boolean(desk.at);
  by("who").textContent = by("who-name").textContent = who;
  // (a login of the firm is left where it began)
  by("account").hidden = !known || !isKnown;
  by("who-name").hidden = Boolean(known) || !who || !isKnown;
}

// ---- how old it is

function tellAge() {
  const age = now() - desk.at;
  by("age").textContent = desk.at ? text("updated", { at: timeOfDay(desk.at) }) : "";
  by("away-age").textContent = desk.at ? text("shownIsOld", { age: span(age) }) : "";
}

let said = "";

function tellFault() {
  const { fault } = desk;
  const words = fault ? (fault.isAway ? text("away") : told(fault)) : "";
  by("away").hidden = !fault;
  if (words !== said) by("away-words").textContent = words;
  said = words;
  document.body.classList.toggle("stale", Boolean(fault));
}

when("asking", () => by("refresh").classList.add("asking"));
when("changed", () => {
  by("refresh").classList.remove("asking");
  tellWho();
  tellFault();
  tellAge();
});
setInterval(tellAge, 5000);

by("language").append(
  ...languages.map(([name, words]) => element("option", { value: name, lang: name }, words)),
);
by("language").value = language;
by("language").addEventListener("change", () => choose(by("language").value));
