// What the program last said of what is chosen, and asking it. What only one view shows, that view asks and keeps.

import * as api from "./api.js";
import { show } from "./hub.js";
import { promisesOf, reportOf, sameStanding } from "./read.js";
import { chosen, keep, scenario } from "./state.js";

const NO_ROUTES = "The policy isn't accepted: there are no routes to show";
const BAD_PREFIX = /^(scenario 6|events 5) /;
const OF_REQUEST = /^(scenario|events) /;
const REFUSED = 1, BAD_INPUT = 3, STOPPED = -1;

export const answers = {
  promises: null, // null where the policy isn't accepted
  outline: { statements: [], originates: [] }, // where in the text its statements are, and what it originates
  fault: null, // why it isn't accepted, or why there is no answer
  why: null, // the refused statements with their repairs; "asked" while they are looked for
  findings: [], // of lint
  report: null, // null where there is none for this policy and these failures
  isPrefix: true, // whether what was asked for is a prefix
  before: null, // the report before the last click, and what was clicked
  cause: "",
  note: "", // what stands in the picture where there is no report
  blocks: new Map(), // configurations of routers
};

/** Whether an answer is one; else the fault is kept, with the text whose places it names. */
function heard(said, policy) {
  if (said.status === 0) return true;
  if (said.status !== STOPPED || said.error) answers.fault = { ...said, policy };
  return false;
}

async function askPromises(policy) {
  const said = await api.ask("promises", policy);
  if (!said) return;
  answers.fault = null;
  if (said.outline) answers.outline = said.outline;
  answers.promises = heard(said, policy) ? promisesOf(said.output) : null;
  if (answers.promises && !chosen.prefix) chosen.prefix = prefixes()[0]?.prefix ?? "";
  if (answers.fault?.status === REFUSED) askWhy(policy);
  show();
}

async function askFindings(policy) {
  const said = await api.ask("lint", policy);
  if (!said) return;
  answers.findings = (said.status === 0 ? said.findings : []).map((each) => ({ ...each, policy }));
  show();
}

async function askWhy(policy) {
  answers.why = "asked";
  const said = await api.why(policy);
  if (!said || policy !== chosen.policy) return;
  answers.why = said.parts ?? [];
  show();
}

/** Asks for the report of what is chosen; gives whether there is one. */
export async function askReport(policy, command = "replay", third = scenario()) {
  const said = await api.ask(command, policy, third, "report");
  if (!said) return false;
  if (said.status === 0) {
    answers.before = answers.cause ? answers.report : null;
    answers.report = reportOf(said.output);
    answers.note = "";
  } else {
    answers.report = answers.before = null;
    answers.note = noteOf(said);
    if (!OF_REQUEST.test(said.error)) heard(said, policy);
  }
  answers.isPrefix = !BAD_PREFIX.test(`${said.error} `);
  show();
  return said.status === 0;
}

/** What stands in the picture in the place of routes. */
function noteOf(said) {
  if (BAD_PREFIX.test(`${said.error} `)) return `${chosen.prefix} is no prefix`;
  return said.status === REFUSED || said.status === BAD_INPUT ? NO_ROUTES : "No answer";
}

/** The block of a router's configuration, asked once for each text. */
export async function askBlock(router) {
  const held = answers.blocks;
  if (held.has(router)) return;
  const said = await api.ask("compile", chosen.policy, undefined, "block", { router });
  if (!said || said.status !== 0) return;
  held.set(router, said.output);
  show();
}

let view = null;
/** The view that asks besides what all views show. */
export const asksOf = (chosenView) => { view = chosenView; };

/** Asks all that is shown; `isWhole` where the policy itself has changed. */
export async function refresh(isWhole) {
  keep(chosen.policy);
  const policy = chosen.policy, asked = [];
  if (isWhole || !answers.promises) {
    answers.blocks = new Map();
    asked.push(askPromises(policy), askFindings(policy));
  }
  if (!chosen.prefix) await asked[0];
  asked.push(...(view().asksOfTexts?.(policy) ?? []));
  if (chosen.prefix) asked.push(...view().asks(policy));
  else { answers.note = answers.fault ? noteOf(answers.fault) : "Choose a prefix"; show(); }
  await Promise.all(asked);
}

// ---- what follows from answers

const EVERY = "0.0.0.0/0 le 32";
const FALLBACKS = ["203.0.113.0/24", "198.51.100.0/24", "192.0.2.0/24"]; // prefixes for examples (RFC 5737)

export const patternTold = (pattern) => (pattern === EVERY ? "any other prefix" : pattern);

/** A prefix for each pattern of each case: its own, or for the widest one an example. */
export function prefixes() {
  const taken = new Set(answers.outline.originates);
  const example = (pattern) => {
    const [own] = pattern.split(" ");
    return pattern === EVERY ? FALLBACKS.find((one) => !taken.has(one)) ?? own : own;
  };
  return (answers.promises?.cases ?? []).flatMap((each) =>
    each.prefixes.map((pattern) => ({ prefix: example(pattern), pattern: patternTold(pattern), number: each.number })));
}

/** Who stands otherwise in a report than in another one: routers, and what they offer peers. */
export function changesFrom(from) {
  const now = answers.report, found = [];
  if (!now || !from) return found;
  for (const [name, standing] of now.routers) {
    const old = from.routers.get(name);
    if (!sameStanding(old, standing)) found.push({ name, peer: "", old, now: standing });
  }
  const offer = (each) => `${each.router} ${each.peer}`, offers = new Map(from.sessions.map((each) => [offer(each), each]));
  for (const each of now.sessions) {
    const old = offers.get(offer(each));
    if (!sameStanding(old, each)) found.push({ name: each.router, peer: each.peer, old, now: each });
  }
  return found;
}
