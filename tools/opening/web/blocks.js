// The block of the pinned router in a stage of a change, with the lines that the step to it adds and takes away.

import * as api from "./api.js";
import { el, many } from "./dom.js";
import { show } from "./hub.js";
import { button, head, text } from "./parts.js";
import { chosen, net, running } from "./state.js";

const MOST_LINES = 2000;
const FORMS = { "+": "ins", "-": "del", " ": "span" };

/** The blocks of routers in each stage: null while they are asked for, and empty where there is no answer. */
let held = new Map();
/** Drops the blocks, which are those of another policy. */
export const dropBlocks = () => { held = new Map(); };

async function ask(router) {
  const into = held;
  into.set(router, null);
  const said = await api.change(running.policy, chosen.policy, router);
  if (!said) into.delete(router); // a newer question has taken its place
  else into.set(router, said.blocks ?? {});
  if (said && into === held) show();
}

let isWhole = false;

/** The lines that are added and taken away, each behind the first line of the neighbour that it is of. */
function changedAlone(lines) {
  const found = [];
  let first = null;
  for (const line of lines) {
    if (/^(router|session|peer) /.test(line[1])) first = line;
    if (line[0] === " ") continue;
    if (first && first !== line) found.push(first);
    first = null;
    found.push(line);
  }
  return found;
}

function turn() {
  isWhole = !isWhole;
  show();
}

const lineShown = ([sign, line]) => el(FORMS[sign], {}, `${sign} ${line}`);

function linesShown(lines, said) {
  const count = (wanted) => lines.filter(([sign]) => sign === wanted).length;
  const added = count("+"), gone = count("-"), isChanged = added + gone > 0, shown = isWhole || !isChanged ? lines : changedAlone(lines);
  return [
    isChanged ? text(`${many(added, "line")} added, ${gone} taken away. `,
      button(isWhole ? "These alone" : "The whole block", turn, { id: "whole-block", class: "quiet" })) : null,
    el("pre", { class: "block stage-block", id: "stage-block", tabindex: "0", role: "region", "aria-label": said },
      shown.slice(0, MOST_LINES).map(lineShown)),
    shown.length > MOST_LINES ? text(`And ${many(shown.length - MOST_LINES, "more line")}.`) : null];
}

/** The block of the pinned router in the chosen stage, which is asked for where it isn't known. */
export function askedBlock(title) {
  const router = chosen.pinned;
  if (!net.routers.includes(router)) return text("Choose a router above, or Shift-click one, to see its block.");
  if (!held.has(router)) ask(router);
  const of = held.get(router), lines = of?.[chosen.stage];
  return [head(`${router}: ${title}`), lines ? linesShown(lines, `Block of ${router}, ${title}`) : text(of ? "No answer." : "…")];
}
