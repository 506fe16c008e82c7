// The page: the parts come together, and the program is asked for the first time.

import * as api from "./api.js";
import { undo } from "./actions.js";
import { answers, asksOf, refresh } from "./answers.js";
import { by, el, put } from "./dom.js";
import "./failures.js";
import "./follow.js";
import { on, show } from "./hub.js";
import "./inspector.js";
import "./menu.js";
import { drawNetwork, fit, forgetViews } from "./network.js";
import { markStatement, setPolicy } from "./policy.js";
import { onCase } from "./promises.js";
import { chosen, clear, forget, given, keep, net, restore } from "./state.js";
import { view, VIEWS } from "./views.js";

// ---- prefix and view

function choosePrefix(prefix) {
  Object.assign(chosen, { prefix, events: [], rest: false });
  Object.assign(answers, { cause: "", before: null, report: null });
  by("prefix").value = prefix;
  forgetViews();
  refresh(false);
}

function chooseView(name) {
  if (chosen.view === name) return;
  if (chosen.view === "steps" || name === "steps") { // events begin with all up, and failures aren't events
    clear();
    forget();
  }
  if (name === "steps") Object.assign(chosen, { events: [], rest: false });
  chosen.view = name;
  Object.assign(answers, { cause: "", before: null });
  view().forget?.();
  refresh(false);
  show();
}

// ---- dark or light

const isDark = matchMedia("(prefers-color-scheme: dark)");
const showTheme = () => { document.documentElement.dataset.theme = chosen.theme || (isDark.matches ? "dark" : "light"); };

function turnTheme() {
  chosen.theme = document.documentElement.dataset.theme === "dark" ? "light" : "dark";
  showTheme();
  keep(chosen.policy);
}

// ---- the beginning

const SLOW = 30; // places of a network on which the build without proof is slow

function showGiven() {
  document.title = `${given.names[1]} · Propane`;
  by("names").textContent = given.names.join(" · ");
  by("unproved").hidden = given.proved;
  by("unproved").title = `${given.version}. ./propane prove proves the program, once, and builds it fast.`;
  if (net?.names.length > SLOW) by("unproved").textContent += ": slow on a network of this size";
  const button = ({ name, said }) => el("button", { type: "button", "data-mode": name, onclick: () => chooseView(name) }, said);
  put(by("modes"), VIEWS.map(button));
}

function listen() {
  by("theme").addEventListener("click", turnTheme);
  by("fit").addEventListener("click", fit);
  by("prefix").addEventListener("change", () => choosePrefix(by("prefix").value.trim()));
  isDark.addEventListener("change", showTheme);
  document.addEventListener("keydown", (event) => {
    if (!(event.ctrlKey || event.metaKey) || event.key !== "z" || event.target.closest("textarea,input")) return;
    event.preventDefault();
    undo();
  });
}

onCase((prefix, statement) => { choosePrefix(prefix); markStatement(statement); });
asksOf(view);
api.whenever(() => by("network").classList.toggle("waits", api.isWaiting()));
on("show", () => by("unproved").classList.toggle("slow", !given.proved && api.isWaiting()));
const policy = restore(VIEWS.map(({ name }) => name));
showTheme();
showGiven();
listen();
drawNetwork();
setPolicy(policy);
show();
globalThis.propane = { chosen, answers, view, times: api.times };
