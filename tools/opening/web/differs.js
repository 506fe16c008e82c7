// What an edit changes, as `compare` says it of the policy as its file has it and as it is edited: for which prefixes, by which statements,
// for whom, and walks that show it. A click on a walk draws it. All this is of the texts alone, whatever prefix is chosen and what has
// failed, and policies that aren't accepted are compared, too.

import * as api from "./api.js";
import { patternTold } from "./answers.js";
import { by, el, many, some } from "./dom.js";
import { show } from "./hub.js";
import { button, chip, head, text, wideChip } from "./parts.js";
import { comparisonOf } from "./read.js";
import { chosen, file } from "./state.js";

const MOST_CHANGES = 40, MOST_ROWS = 12, MOST_NAMES = 8, MOST_PREFIXES = 4;
// What each word says of those who stand beside it, and the colour of it.
const SAID = {
  lost: ["none", "some walks are taken away"], gained: ["warn", "further walks are allowed"],
  reordered: ["rank2", "walks stand in another order"], unclaimed: ["none", "no walk is allowed any more"],
  claimed: ["warn", "walks are allowed, and none was"], replaced: ["none", "other walks are allowed, and none of the old ones"],
};
const ORIGINS = { "": "Origins", lost: "No origins any more", kept: "Origins still", gained: "New origins" };
const CARRIERS = { lost: "Carry it no more", gained: "Carry it now, and didn't" };

/** What the program says of two texts, the file's and the edited one; and the walk that is drawn. */
const held = { old: "", now: "", comparison: null, statements: null, fault: null, walk: null };

const isHeld = () => held.old === file.policy && held.now === chosen.policy;

/** Asks what the edit changes, once for each pair of texts. */
export async function askComparison(now) {
  const old = file.policy;
  if (old === now || (isHeld() && held.comparison)) return;
  const said = await api.ask("compare", old, now);
  if (!said || (said.status < 0 && !said.error) || old !== file.policy || now !== chosen.policy) return; // it is of earlier texts
  const isGood = said.status === 0;
  Object.assign(held, {
    old, now, comparison: isGood ? comparisonOf(said.output) : null, statements: said.statements, fault: isGood ? null : said, walk: null });
  show();
}

/** The walk that is drawn, null where there is none. */
export const drawnWalk = () => (isHeld() ? held.walk : null);
export const dropWalk = () => { held.walk = null; };

function draw(walk) {
  held.walk = held.walk === walk ? null : walk;
  by("live").textContent = held.walk ? `The walk is drawn: ${walk.walk.join(", ")}` : "No walk is drawn.";
  show();
}

// ---- who, and of which prefixes

const nameSaid = (kind) => (name) => (kind === "sessions" ? name.split(" ").reverse().join(" at ") : name);

function namedSaid({ kind, areAll, names }) {
  const told = some(names.map(nameSaid(kind)), MOST_NAMES);
  return areAll ? `all ${kind}${names.length ? ` but ${told}` : ""}` : told;
}

const whoSaid = ({ routers, sessions }) => [routers, sessions].filter((each) => each).map(namedSaid).join(", and ");
const partSaid = ({ part }) => (part.length ? text(some(part, MOST_PREFIXES)) : null);

// ---- statements

/** A statement's text in lines, with a sign before the first. */
const statementShown = (form, sign, found) => el(form, {}, `${sign} ${found?.text.replaceAll("\n", "\n  ") ?? ""}`);

function statementsShown({ old, now }) {
  const was = held.statements?.old[old - 1], is = held.statements?.new[now - 1];
  if (!was && !is) return null;
  return el("pre", { class: "block statements", tabindex: "0", role: "region", "aria-label": "The two statements" },
    was && is && was.text === is.text ? statementShown("span", " ", is)
      : [was ? statementShown("del", "-", was) : null, is ? statementShown("ins", "+", is) : null]);
}

const statementSaid = (number) => (number === null ? "no statement" : `statement ${number}`);

// ---- walks

const rankSaid = (rank) => (rank === null ? chip("none", "forbidden") : chip(`rank${Math.min(rank, 4)}`, `rank ${rank}`));

const walkShown = (each, id) => button([
  rankSaid(each.old), " → ", rankSaid(each.now), el("span", { class: "what" }, each.walk.join(" → ")),
  each.isPath ? null : chip("warn", "comes to a router twice"),
], () => draw(each), { id, class: "item walk", "aria-pressed": String(held.walk === each) });

const wordShown = (word) => [wideChip(...(SAID[word] ?? ["warn", word])), " "];

function differsShown(differs, id) {
  return [
    el("p", { class: "differs" }, el("b", {}, whoSaid(differs)), " ", differs.words.map(wordShown)),
    partSaid(differs), differs.rows.slice(0, MOST_ROWS).map((each, at) => walkShown(each, `${id}-${at}`)),
    differs.rows.length > MOST_ROWS ? text(`And ${many(differs.rows.length - MOST_ROWS, "more pair")} of ranks.`) : null,
  ];
}

const carriersShown = (carriers) => [text(`${CARRIERS[carriers.words[0]]}: ${whoSaid(carriers)}.`), partSaid(carriers)];
const originsShown = ({ word, routers }) => text(`${ORIGINS[word]}: ${routers ? namedSaid(routers) : "peers"}.`);

function changeShown(change, at) {
  return el("section", { class: "change" },
    el("h3", {}, some(change.prefixes.map(patternTold), MOST_PREFIXES)),
    text(`${statementSaid(change.old)}, now ${statementSaid(change.now)}`), statementsShown(change),
    change.origins.map(originsShown),
    change.differs.map((differs, k) => differsShown(differs, `walk-${at}-${k}`)),
    change.carriers.map(carriersShown));
}

function faultSaid({ error, words }) {
  return [text(`There is no comparison: ${error}`), [words?.where, ...(words?.says ?? [])].filter((line) => line).map((line) => text(line))];
}

/** What the edit changes. */
export function comparisonShown() {
  if (!isHeld()) return [head("What the edit changes"), text("Asking …")];
  if (held.fault) return [head("What the edit changes"), faultSaid(held.fault)];
  const { changes, cases, changed } = held.comparison;
  return [
    head("What the edit changes"),
    text(changed ? `${changed} of ${many(cases, "case")} differ${changed === 1 ? "s" : ""}. Click a walk to draw it.`
      : "Nothing: both permit the same walks in the same order. A configuration that is right for the one is right for the other."),
    changes.slice(0, MOST_CHANGES).map(changeShown),
    changes.length > MOST_CHANGES ? text(`And ${many(changes.length - MOST_CHANGES, "more change")}.`) : null,
  ];
}
