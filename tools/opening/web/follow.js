// Follows the policy's file: who edits it elsewhere sees each save here.

import * as api from "./api.js";
import { by } from "./dom.js";
import { editPolicy, followed, setPolicy } from "./policy.js";
import { chosen, file, running } from "./state.js";

const EVERY = 1000; // milliseconds
const ENDED = -2;
let onDisk = file.policy;

async function follow() {
  if (document.hidden) return;
  const said = await api.file(file.seen);
  if (said?.status === ENDED) {
    clearInterval(following);
    by("verdict").className = "verdict bad";
    by("verdict").textContent = "the server has ended";
  }
  if (!said || said.status !== 0 || said.seen === file.seen) return;
  const isEdited = chosen.policy !== file.policy;
  file.seen = said.seen;
  onDisk = said.policy;
  running.policy = said.runs;
  if (isEdited && onDisk !== chosen.policy) { by("changed").hidden = false; return; }
  file.policy = onDisk;
  if (onDisk === chosen.policy) followed(); else setPolicy(onDisk);
}

/** Takes what the file has now in the place of what was edited. */
function take() {
  by("changed").hidden = true;
  file.policy = onDisk;
  editPolicy(onDisk);
}

by("reload").addEventListener("click", take);
const following = setInterval(follow, EVERY);
