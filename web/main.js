// The start of the page: its texts, its key and its tabs.

import { fill, text } from "./texts.js";

fill(document);
for (const it of document.querySelectorAll("template")) fill(it.content);

const { call, key } = await import("./api.js");
const { all, by, closeMenus, focused, sayNothing } = await import("./parts.js");
const { desk, forget, refresh, restore, when } = await import("./desk.js");
const { told } = await import("./words.js");
const { tellView, tellWho, wearColours } = await import("./look.js");
const { goTo, viewOfAddress } = await import("./place.js");
const names = ["overview", "find", "queue", "sent", "rules", "notices", "usage"];
const [overview, find, queue, sent, rules, notices, usage] = await Promise.all(
  names.map((it) => import(`./${it}.js`)),
);

const VIEWS = { overview, find, queue, sent, rules, notices, usage };
const tabs = all("[role=tab]");
const viewOf = (tab) => tab.getAttribute("aria-controls");
let chosen = tabs[0];

// ---- tabs: the one that is open stands in the address, so that a reload comes back to it

function select(tab) {
  chosen = tab;
  for (const it of tabs) {
    it.setAttribute("aria-selected", it === tab);
    it.tabIndex = it === tab ? 0 : -1;
    by(viewOf(it)).hidden = it !== tab;
  }
  tab.scrollIntoView({ block: "nearest", inline: "nearest" });
  if (viewOfAddress() !== viewOf(tab)) goTo(viewOf(tab), {}, true);
  tellView(viewOf(tab));
  VIEWS[viewOf(tab)].open();
}

function turnTo(tab) {
  sayNothing();
  select(tab);
}

function moveBetweenTabs(event) {
  const here = tabs.indexOf(event.target);
  const places = { ArrowRight: (here + 1) % tabs.length, ArrowLeft: here - 1, Home: 0, End: -1 };
  if (!(event.key in places)) return;
  event.preventDefault();
  const tab = tabs.at(places[event.key]);
  tab.focus();
  turnTo(tab);
}

const tabOfAddress = () =>
  tabs.find((it) => viewOf(it) === viewOfAddress()) ?? tabs[0];

// (two views have more in the address than their name)
const takeAddress = () => VIEWS[viewOf(tabOfAddress())].takeAddress?.();

// ---- the key

function askForKey(words) {
  by("starting").hidden = true;
  for (const id of ["views", "account", "who-name", "refresh"]) by(id).hidden = true;
  by("key-form").hidden = false;
  by("key-fault").textContent = words;
  by("key").focus();
}

function showViews() {
  if (!by("views").hidden) return;
  by("starting").hidden = true;
  by("key-form").hidden = true;
  by("views").hidden = false;
  by("refresh").hidden = false;
  takeAddress();
  select(tabOfAddress());
  // (so that Tab and arrows begin where the page does)
  if (focused() === document.body) chosen.focus({ focusVisible: false });
}

async function useKey(event) {
  event.preventDefault();
  const typed = by("key").value.trim();
  if (!/^[A-Za-z0-9]{16,64}$/.test(typed)) return askForKey(text("noKeyForm"));
  try {
    await call("GET", "/v1/usage", undefined, typed);
  } catch (fault) {
    return askForKey(fault.number === 2 ? text("fault2") : told(fault));
  }
  key.set(typed);
  // (so that nothing is left of whoever used the page before)
  return location.reload();
}

function leave() {
  key.forget();
  forget();
  desk.at = 0;
  location.reload();
}

// Nobody has this key any more, or nobody is logged in: asked again and again, it stayed so.
function stranger({ detail: fault }) {
  const words = key.get() || desk.at ? told(fault) : "";
  key.forget();
  forget();
  desk.at = 0;
  askForKey(words);
}

// Asks for what is looked at anew: the queue, and what a view has beside it.
async function lookAgain() {
  await refresh();
  const view = VIEWS[viewOf(chosen)];
  if (desk.at && !desk.fault && !view.draw && !by("views").hidden) view.open();
}

// ---- the start

when("stranger", stranger);
when("changed", () => {
  if (!by("key-form").hidden) return;
  if (desk.at) showViews();
  else if (desk.fault) by("starting").textContent = text("notYet");
  if (desk.at && by("views").ariaBusy !== "true") VIEWS[viewOf(chosen)].draw?.();
});
document.addEventListener("turn", ({ detail }) => {
  if (viewOf(chosen) !== detail) turnTo(by(`tab-${detail}`));
});
document.addEventListener("notices", ({ detail }) => {
  turnTo(by("tab-notices"));
  notices.openOf(detail);
});
document.addEventListener("click", closeMenus);
document.addEventListener("focusin", closeMenus);
document.addEventListener("keydown", closeMenus);
addEventListener("popstate", () => {
  if (by("views").hidden) return;
  takeAddress();
  if (tabOfAddress() !== chosen) turnTo(tabOfAddress());
});
for (const tab of tabs) {
  tab.addEventListener("click", () => turnTo(tab));
  tab.addEventListener("keydown", moveBetweenTabs);
}
by("key-form").addEventListener("submit", useKey);
by("forget").addEventListener("click", leave);
by("told-close").addEventListener("click", sayNothing);
by("refresh").addEventListener("click", lookAgain);
by("away-again").addEventListener("click", refresh);
wearColours();
tellWho();
restore();
refresh();
