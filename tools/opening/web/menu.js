// Saving and copying.

import { refresh } from "./answers.js";
import * as api from "./api.js";
import { by, el, put } from "./dom.js";
import { saved } from "./network.js";
import { followed } from "./policy.js";
import { chosen, eventText, file, given, keep, running, scenario } from "./state.js";

const TOLD = 2500, HELD = 1000; // milliseconds

function toast(said) {
  by("toast").textContent = said;
  by("toast").classList.add("on");
  setTimeout(() => by("toast").classList.remove("on"), TOLD);
}

function download(name, kind, held) {
  const link = el("a", { href: URL.createObjectURL(new Blob([held], { type: kind })), download: name });
  link.click();
  setTimeout(() => URL.revokeObjectURL(link.href), HELD);
}

/** Saves what a command writes. */
async function written(command, name) {
  const said = await api.ask(command, chosen.policy, undefined, `save ${command}`);
  if (said?.status === 0) download(name, "text/plain", said.output); else toast(said?.error ?? "no answer");
}

async function savePolicy() {
  const { policy } = chosen, said = await api.save(policy, file.seen);
  if (said?.status === 0) {
    Object.assign(file, { seen: said.seen, policy });
    running.policy = policy;
    followed();
    refresh(false);
    toast("saved");
  } else toast(/409/.test(said?.error) ? "the file has been changed by somebody else: nothing is written" : said?.error ?? "no answer");
}

async function copyLink() {
  keep(chosen.policy);
  await navigator.clipboard.writeText(location.href);
  toast("copied; it works while this server runs");
}

const ITEMS = [
  ...(given.save ? [["Save the policy to its file", savePolicy]] : []),
  ["Policy", () => download("policy.propane", "text/plain", chosen.policy)],
  ["Configuration", () => written("compile", "config.txt")],
  ["Evidence", () => written("evidence", "evidence.json")],
  ["Route maps", () => written("routemap", "maps.txt")],
  ["Scenario", () => download("scenario.json", "application/json", `${scenario()}\n`)],
  ["Events", () => download("events.json", "application/json", `${eventText(chosen.events)}\n`)],
  ["Picture (SVG)", () => download("network.svg", "image/svg+xml", saved())],
  ["Copy a link to this view", copyLink],
];

put(by("menu-items"), ITEMS.map(([said, go]) => el("button", { type: "button", onclick: () => { by("menu").open = false; go(); } }, said)));
document.addEventListener("click", (event) => { if (!by("menu").contains(event.target)) by("menu").open = false; });
