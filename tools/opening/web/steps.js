// The view of BGP message by message: what is failed is an event, and messages are delivered by hand.

import { beginAgain, eventTold, happen, runToRest } from "./actions.js";
import { answers, askReport, changesFrom } from "./answers.js";
import * as api from "./api.js";
import { el, many } from "./dom.js";
import { glance, show } from "./hub.js";
import { button, changeRows, chip, head, row, text } from "./parts.js";
import { waitingOf } from "./read.js";
import { chosen, clear, eventText } from "./state.js";
import { linkKey } from "./topology.js";

const MOST_ROWS = 60, MOST_EVENTS = 40, MOST_TOLD = 3; // messages of one direction
/** The directions in which messages wait, each with them; null while they aren't known. */
const held = { waiting: null };

const FAILURES = { // what an event puts into which set, or takes out of it
  router_down: ["dead", true], router_up: ["dead", false], link_down: ["cut", true], link_up: ["cut", false],
  peer_silent: ["silent", true], peer_speak: ["silent", false],
};

/** What is down after the events, from those that could happen. */
function failed() {
  clear();
  chosen.events.forEach(([word, ...names], at) => {
    if (!FAILURES[word] || answers.report.events.has(at + 1)) return;
    const [set, isDown] = FAILURES[word], id = names.length > 1 ? linkKey(...names) : names[0];
    if (isDown) chosen[set].add(id); else chosen[set].delete(id);
  });
}

async function askSteps(policy) {
  const events = eventText(chosen.events), { rest } = chosen, asked = rest ? null : api.ask("waiting", policy, events);
  if (!await askReport(policy, rest ? "settle" : "trace", events)) return;
  failed();
  const said = await asked;
  if (!rest && !said) return; // a newer question has taken its place
  held.waiting = rest ? [] : said.status === 0 ? waitingOf(said.output) : null;
  show();
}

const deliver = ({ from, to }) => ["deliver", from, to];

function stateSaid() {
  const { report } = answers;
  if (!report) return "";
  if (chosen.rest) return `At rest after ${many(report.rounds, "more round")} and ${many(report.deliveries, "delivery", "deliveries")}.`;
  if (report.quiet) return "No message waits.";
  return `${held.waiting ? many(held.waiting.length, "direction") : "…"} with messages that wait.`;
}

function tools(waiting) {
  const round = () => happen(...waiting.flatMap((each) => each.messages.map(() => deliver(each))));
  const isAtRest = !answers.report || chosen.rest || answers.report.quiet;
  return el("div", { class: "tools" },
    button("Deliver next", () => happen(deliver(waiting[0])), { class: "main", id: "next", disabled: !waiting.length }),
    button("One round", round, { id: "round", disabled: !waiting.length }),
    button("Run to rest", runToRest, { id: "rest", disabled: isAtRest }),
    button("Begin again", beginAgain, { class: "quiet" }));
}

const messageSaid = (path) => (path ? path.join(" → ") : chip("none", "withdraw"));

/** A direction with its messages: a click delivers the first one. */
function waitingRow(each) {
  const told = each.messages.slice(0, MOST_TOLD).flatMap((path, k) => [k ? ", then " : null, messageSaid(path)]);
  const more = each.messages.length - MOST_TOLD;
  return row(`${each.from} → ${each.to}`, [told, more > 0 ? `, and ${many(more, "more message")}` : null], () => happen(deliver(each)),
    linkKey(each.from, each.to), { "data-way": `${each.from}>${each.to}` }, glance);
}

function eventSaid(event, number) {
  const refused = answers.report?.events.get(number);
  return text(`${number}. ${eventTold(event)}${refused ? ` — couldn't happen: ${refused}` : ""}`);
}

function list(changed) {
  const waiting = held.waiting ?? [], count = chosen.events.length;
  return [
    head("BGP, message by message"), text(stateSaid()), tools(waiting),
    waiting.length ? head("Waiting") : null, waiting.slice(0, MOST_ROWS).map(waitingRow),
    waiting.length > MOST_ROWS ? text(`And ${many(waiting.length - MOST_ROWS, "more direction")}.`) : null,
    changed.length ? head(answers.cause) : null, changeRows(changed),
    count ? head(many(count, "event")) : null,
    chosen.events.slice(-MOST_EVENTS).map((event, at, last) => eventSaid(event, count - last.length + at + 1)).reverse(),
  ];
}

export const steps = {
  name: "steps",
  said: "Steps",
  held,
  asks: (policy) => [askSteps(policy)],
  forget: () => { held.waiting = null; },
  changes: () => changesFrom(answers.before),
  paint: () => ({ waiting: held.waiting ?? [] }),
  list,
  legend: () => [el("b", { class: "sign" }, "▸ a message waits"), el("b", { class: "sign" }, "▹ it withdraws a route")],
};
