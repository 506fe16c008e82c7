// The view of routes: who sends where under the failures that are chosen.

import { pin } from "./actions.js";
import { answers, askReport, changesFrom } from "./answers.js";
import { el, many } from "./dom.js";
import { show } from "./hub.js";
import { button, changeRows, head, hops, row, standingChip, text } from "./parts.js";
import { told } from "./read.js";

const said = (standing) => [standingChip(standing), " ", hops(standing)];

function everyRoute() {
  const { routers, sessions } = answers.report;
  return [
    head("Routers"), [...routers].map(([name, standing]) => row(name, said(standing), () => pin(name), name)),
    sessions.length ? head("Offers to peers") : null,
    sessions.map((each) => row(`${each.peer} at ${each.router}`, said(each), () => pin(each.peer), each.peer)),
  ];
}

function showEvery() {
  Object.assign(answers, { cause: "", before: null });
  show();
}

/** Those that changed by the last click. */
function changedRoutes(changed) {
  return [
    head(answers.cause), text(changed.length ? `${many(changed.length, "change")}:` : "Nobody's route changes."), changeRows(changed),
    el("div", { class: "tools" }, button("All routers", showEvery, { class: "quiet" })),
  ];
}

/** The changes of the last click in a sentence, for who hears the page. */
export function spoken(changed) {
  const first = changed.slice(0, 5).map((each) => `${each.name} ${told(each.now)}`);
  return `${answers.cause}: ${many(changed.length, "change")}. ${first.join("; ")}`;
}

export const routes = {
  name: "routes",
  said: "Routes",
  asks: (policy) => [askReport(policy)],
  changes: () => changesFrom(answers.before),
  paint: () => ({}),
  list(changed) {
    if (answers.cause && answers.before) return changedRoutes(changed);
    return answers.report ? everyRoute() : [];
  },
};
