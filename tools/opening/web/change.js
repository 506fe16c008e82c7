// The view of a change of policy as a running network takes it, from the policy that runs to the edited one: who has something to load
// in each stage, and whose path is another one in the end.

import { pin } from "./actions.js";
import { answers, askReport, changesFrom } from "./answers.js";
import * as api from "./api.js";
import { askedBlock, dropBlocks } from "./blocks.js";
import { by, el, many, some } from "./dom.js";
import { glance, show } from "./hub.js";
import { button, changeRows, head, legendKey, text } from "./parts.js";
import { reportOf } from "./read.js";
import { chosen, keep, net, running, scenario, STAGES } from "./state.js";

const MOST_LOADS = 60, MOST_IDLE = 12;
const TITLES = { old: "Old", one: "Stage 1", two: "Stage 2", new: "New" };
const SAID = {
  old: "This is what runs: the policy as its file had it when the page was begun, or when you last saved it here.",
  one: "It has the lines of both policies, and begins routes as the old one does. Nothing changes, and no message is sent.",
  two: "It has the lines of both policies, and begins routes as the new one does. Routes go over to the new policy.",
  new: "It has the lines of the new policy alone. Load it once the network rests. Nothing changes, and no message is sent.",
};
const NO_STAGES = {
  compile: "The policy that runs isn't accepted:",
  renew: "There is no configuration that may take over from the one that runs:",
  between: "There are no stages from the policy that runs to this one:",
};

/** What the program says: the routes of the policy that runs, and the steps between two policies; `fault` is why there are none. */
const held = { report: null, before: "", policy: "", steps: null, fault: null };

const isEdited = () => chosen.policy !== running.policy;
const isHeld = () => held.before === running.policy && held.policy === chosen.policy;

/** What is said of a command that writes nothing. Only a verdict has words. */
const faultOf = (said) => ({ ...said, place: null, of: said.words ? NO_STAGES[said.command] : "There is no answer:" });

/** The stages are the same whatever has failed. */
async function askStages(before, policy) {
  if (isHeld() && held.steps) return;
  dropBlocks();
  const said = await api.change(before, policy);
  if (!said || (said.status < 0 && !said.error) || before !== running.policy || policy !== chosen.policy) return; // it is of an earlier text
  Object.assign(held, { before, policy, steps: said.steps ?? null, fault: said.status ? faultOf(said) : null });
  show();
}

async function askBefore(before) {
  const said = await api.ask("replay", before, scenario(), "before");
  if (!said) return;
  held.report = said.status === 0 ? reportOf(said.output) : null;
  show();
}

const stepTo = (stage) => (isHeld() ? held.steps?.find(({ to }) => to === stage) : undefined);

/** Whose paths are others. Ranks of two policies aren't compared. */
function changes() {
  if (!isEdited()) return [];
  const way = (standing) => (standing?.path.length ? standing.path.join(" ") : standing?.state);
  return changesFrom(held.report).filter(({ old, now }) => way(old) !== way(now));
}

function paint() {
  const moved = changes().filter(({ peer }) => !peer).map(({ name, old }) => [name, old]);
  return { old: { routers: new Map(moved) }, loads: new Set(stepTo(chosen.stage)?.load) };
}

// ---- the list

function choose(stage) {
  chosen.stage = stage;
  keep(chosen.policy);
  by("live").textContent = `${TITLES[stage]}. ${SAID[stage]}`;
  show();
}

function stageShown(stage) {
  const step = stepTo(stage), small = (said, more) => el("small", more, said);
  const loads = step ? [
    small(`${step.load.length || "none"} to load`), step.still ? small("still") : small("moves", { class: "moves" })] : small("runs now");
  return button([el("b", {}, TITLES[stage]), loads], () => choose(stage),
    { id: `stage-${stage}`, "aria-pressed": String(chosen.stage === stage) });
}

const loadShown = (name) => button(name, () => pin(name), {
  id: `load-${name}`, class: "load", "aria-pressed": String(chosen.pinned === name),
  onpointerenter: () => glance("node", name), onpointerleave: () => glance(), onfocus: () => glance("node", name) });

/** Who has something to load for a stage, and who has nothing. */
function loadsShown({ load }) {
  const idle = net.routers.filter((name) => !load.includes(name)), of = `${load.length} of ${many(net.routers.length, "router")}`;
  return [
    text(load.length ? `Something to load: ${of}.` : "No router has anything to load."),
    el("div", { class: "tools", role: "group", "aria-label": "Routers with something to load" }, load.slice(0, MOST_LOADS).map(loadShown)),
    load.length > MOST_LOADS ? text(`And ${many(load.length - MOST_LOADS, "more router")}.`) : null,
    load.length && idle.length ? text(`Nothing to load: ${some(idle, MOST_IDLE)}.`) : null,
  ];
}

function routesSaid(changed) {
  if (!held.report || !answers.report) return "There are no routes to compare.";
  if (!changed.length) return "No path changes under these failures.";
  return `${many(changed.length, "path changes", "paths change")} under these failures. Ranks count each policy's own alternatives.`;
}

function nothingSaid() {
  if (!isEdited()) return "Edit the policy: then this shows how a running network goes over to it, stage by stage.";
  if (answers.fault) return "The edited policy isn't accepted.";
  if (!chosen.prefix) return "Choose a prefix.";
  if (isHeld() && held.fault) return "There are no stages to show. Why stands below the policy.";
  return isHeld() ? "" : "Asking …";
}

function list(changed) {
  const nothing = nothingSaid(), step = stepTo(chosen.stage);
  if (nothing) return [head("Change"), text(nothing)];
  return [
    head("From what runs to the edited policy"),
    el("div", { class: "stages", role: "group", "aria-label": "Stages" }, STAGES.map(stageShown)),
    text(SAID[chosen.stage]), step ? loadsShown(step) : null,
    askedBlock(TITLES[chosen.stage]),
    head("Routes, before and after"),
    text(routesSaid(changed)), changeRows(changed),
  ];
}

function told(id) {
  const step = stepTo(chosen.stage);
  if (!step || !net.routers.includes(id)) return "";
  return step.load.includes(id) ? "It has something to load in this stage." : "It has nothing to load in this stage.";
}

export const change = {
  name: "change",
  said: "Change",
  held,
  asks: (policy) => [askReport(policy), ...(isEdited() ? [askBefore(running.policy), askStages(running.policy, policy)] : [])],
  forget: () => { held.report = null; },
  fault: () => (isEdited() && isHeld() ? held.fault : null),
  changes, paint, list, told,
  legend: () => (isEdited() && held.steps ? [
    el("b", { class: "sign" }, "· · ▸ path before"), legendKey("something to load", "var(--node)", "var(--warn)")] : []),
};
