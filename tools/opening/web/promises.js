// What is promised, and to whom. A click chooses a prefix.

import { answers, patternTold, prefixes } from "./answers.js";
import { by, el, put, some } from "./dom.js";
import { on } from "./hub.js";
import { button, chip, grouped } from "./parts.js";

const MOST_LISTED = 300;
let choose = () => {};
/** Calls this where a case is chosen, with a prefix of it and its statement. */
export const onCase = (call) => { choose = call; };

/** How many sources have which rank, the best first, with the alternative of the rank. */
function rankChips(sources, alternatives) {
  const groups = grouped(sources, ({ rank }) => rank);
  groups.sort(([one], [other]) => (one.rank || Infinity) - (other.rank || Infinity));
  return groups.map((group) => {
    const [{ rank }] = group;
    return chip(rank ? `rank${Math.min(rank, 4)}` : "none", `${group.length} × ${rank ? `rank ${rank}` : "no path"}`,
      { title: alternatives[rank - 1] ?? "" });
  });
}

/** Cases of one statement of which the same is promised stand together. */
const alike = (each) => {
  const ranks = [...each.routers, ...each.sessions].map(({ rank }) => rank).sort();
  return [each.statement, each.origins[0] === "peers", ranks, each.unclaimed.length, each.transit.length, each.isCovered, each.unused.length].join("|");
};

function groupShown(group, prefixOf) {
  const [each] = group, patterns = [...new Set(group.flatMap((one) => one.prefixes))].map(patternTold);
  const origins = some([...new Set(group.flatMap((one) => one.origins))], 4), numbers = group.map((one) => one.number).join(" ");
  const go = (one) => choose(prefixOf.get(one.number), one.statement);
  return [
    el("button", { class: "promise", type: "button", "data-cases": ` ${numbers} `, onclick: () => go(each) },
      el("b", {}, some(patterns, 2)), el("small", {}, `statement ${each.statement}, from ${origins}`),
      el("span", { class: "chips" }, rankChips([...each.routers, ...each.sessions], shown.ranks.get(each.statement) ?? []),
        each.unclaimed.length ? chip("warn", `${each.unclaimed.length} unclaimed`, { title: each.unclaimed.join(", ") }) : null,
        each.transit.length ? chip("transit", `${each.transit.length} transit`, { title: each.transit.join(", ") }) : null,
        each.isCovered ? chip("warn", "covered", { title: "no prefix of it is left" }) : null,
        each.unused.length ? chip("warn", `${each.unused.length} unused`, { title: each.unused.join(", ") }) : null)),
    group.length > 1 ? el("details", { class: "promise-more" }, el("summary", {}, `${group.length} cases alike`),
      el("div", {}, group.slice(0, MOST_LISTED).map((one) => button(prefixOf.get(one.number), () => go(one))))) : null,
  ];
}

const uncarriedShown = (list) => el("div", { class: "say lint" }, el("p", { class: "line" }, `uncarried: ${list.join(", ")}`),
  el("p", {}, "Originated, and governed by no statement: no router but the origins has a route."));

const partTold = ({ pattern, prefix }) => (pattern.split(" ")[0] === prefix ? pattern : `${pattern} in ${prefix}`);
const openShown = (list) => el("div", { class: "say lint" },
  grouped(list, ({ number }) => number).map((parts) =>
    el("p", { class: "line" }, `open ${some(parts.map(partTold), 8)} case ${parts[0].number}`)),
  el("p", {}, "A peer that announces one of these is believed: packets for the originated prefix go to it."));

const apartShown = (list, ranks) => el("div", { class: "say lint" },
  list.map(({ statement, better, worse }) => el("p", { class: "line", title: [better, worse].map((rank) => ranks.get(statement)?.[rank - 1] ?? "").join(" >> ") },
    `apart statement ${statement} alternatives ${better} ${worse}`)),
  el("p", {}, "No source has paths of both, so the order of the two decides nothing."));

let shown = null;

function showPromises() {
  if (shown === answers.promises) return; // it changes with the policy alone
  shown = answers.promises;
  by("promised").textContent = shown ? shown.last : "";
  const every = prefixes(), prefixOf = new Map(every.map((one) => [one.number, one.prefix]).reverse());
  put(by("promises"), shown ? [
    shown.uncarried.length ? uncarriedShown(shown.uncarried) : null,
    shown.open.length ? openShown(shown.open) : null,
    shown.apart.length ? apartShown(shown.apart, shown.ranks) : null,
    grouped(shown.cases, alike).map((group) => groupShown(group, prefixOf))]
    : el("div", { class: "say" }, "Nothing is promised while the policy isn't accepted."));
  const options = [...new Map(every.map((each) => [each.prefix, each])).values()].slice(0, MOST_LISTED);
  put(by("prefixes"), options.map(({ prefix, pattern }) => el("option", { value: prefix }, pattern)));
}

/** Marks the promises of the statement in which the cursor stands. */
export function markPromises(at) {
  const found = answers.outline.statements.find((each) => each.from <= at && at <= each.to);
  const own = (answers.promises?.cases ?? []).filter((each) => each.statement === found?.number);
  for (const each of by("promises").querySelectorAll(".promise")) {
    each.classList.toggle("chosen", own.some(({ number }) => each.dataset.cases.includes(` ${number} `)));
  }
}

on("show", showPromises);
