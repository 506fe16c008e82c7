// The view of what an edit changes, against the policy as its file has it: what `compare` says of both (differs.js), the reports of both,
// and what one more failure takes from whom.

import { clickOn } from "./actions.js";
import * as api from "./api.js";
import { answers, askReport, changesFrom } from "./answers.js";
import { askComparison, comparisonShown, drawnWalk, dropWalk } from "./differs.js";
import { el, many } from "./dom.js";
import { show } from "./hub.js";
import { changeRows, head, row, text, wideChip } from "./parts.js";
import { cutsOf, reportOf } from "./read.js";
import { chosen, file, scenario } from "./state.js";

/** What the program says of the file's policy, and of one more failure with either. */
const held = { report: null, oldCuts: null, newCuts: null };

const read = (said, reader) => (said.status === 0 ? reader(said.output) : null);

async function askOld(policy) {
  const [old, oldCuts, newCuts] = await Promise.all([
    api.ask("replay", file.policy, scenario(), "old"), api.ask("whatif", file.policy, scenario(), "old cuts"),
    api.ask("whatif", policy, scenario(), "new cuts")]);
  if (!old || !oldCuts || !newCuts) return;
  Object.assign(held, { report: read(old, reportOf), oldCuts: read(oldCuts, cutsOf), newCuts: read(newCuts, cutsOf) });
  show();
}

/** The cuts under which others than before lose every path. Ranks of two policies aren't compared as numbers. */
function otherwiseLost() {
  const cuts = (found) => new Map((found?.cuts ?? []).map((cut) => [cut.id, cut]));
  const old = cuts(held.oldCuts), now = cuts(held.newCuts), rows = [];
  for (const id of new Set([...old.keys(), ...now.keys()])) {
    const before = new Set(old.get(id)?.lost), after = new Set(now.get(id)?.lost), { name } = old.get(id) ?? now.get(id);
    const lose = [...after].filter((who) => !before.has(who)), keep = [...before].filter((who) => !after.has(who));
    if (lose.length || keep.length) rows.push({ id, name, lose, keep });
  }
  return rows;
}

const cutRow = ({ id, name, lose, keep }) => row(name, [
  lose.length ? wideChip("none", `now lose it: ${lose.join(", ")}`) : null,
  keep.length ? wideChip("rank1", `now keep one: ${keep.join(", ")}`) : null], () => clickOn(id), id);

function routesShown(changed) {
  if (!answers.report) return text("The edited policy isn't accepted: it has no routes.");
  if (!held.report) return text("The policy as its file has it isn't accepted: it has no routes.");
  return [
    text(changed.length ? `${many(changed.length, "change")} under these failures. Ranks count each policy's own alternatives.`
      : "No route changes under these failures."),
    changeRows(changed)];
}

function list(changed) {
  if (chosen.policy === file.policy) return [head("Compare"), text("Edit the policy: then this shows what it changes, against the file's.")];
  const rows = otherwiseLost(), hasCuts = held.oldCuts && held.newCuts;
  return [
    comparisonShown(), head("Routes, against the file's"), routesShown(changed), hasCuts ? head("Under one more failure") : null,
    hasCuts ? text(rows.length ? "Who loses every path, or doesn't any more:" : "The same sources keep a path under each single one.") : null,
    rows.map(cutRow),
  ];
}

function forget() {
  Object.assign(held, { report: null, oldCuts: null, newCuts: null });
  dropWalk();
}

/** The walk that is drawn stands in the place of routes: in the colour of what is taken away, newly allowed, or in another order. */
function paint() {
  const drawn = drawnWalk();
  if (!drawn) return { old: held.report };
  const form = drawn.now === null ? "none" : drawn.old === null ? "warn" : "accent";
  return { old: held.report, walk: { steps: drawn.walk, colour: `var(--${form})` } };
}

export const compare = {
  name: "compare",
  said: "Compare",
  held,
  asks: (policy) => [askReport(policy), askOld(policy)],
  asksOfTexts: (policy) => [askComparison(policy)],
  forget,
  changes: () => changesFrom(held.report),
  paint, list,
  legend: () => (drawnWalk() ? [el("b", { class: "sign" }, "▸ the walk that is drawn")] : []),
};
