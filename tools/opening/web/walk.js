// The picture by keys: from router to router, and to their links.

const WAYS = { ArrowLeft: [-1, 0], ArrowRight: [1, 0], ArrowUp: [0, -1], ArrowDown: [0, 1] };
const ASIDE = 2.5; // how much farther a place counts that lies aside

/** The location that is nearest in a direction, null where there is none. */
function nearest(at, from, [wayX, wayY]) {
  const [x, y] = at.get(from);
  let best = null, least = Infinity;
  for (const [name, [u, v]] of at) {
    const along = (u - x) * wayX + (v - y) * wayY, aside = Math.abs((u - x) * wayY) + Math.abs((v - y) * wayX);
    if (name !== from && along > 4 && along + ASIDE * aside < least) { least = along + ASIDE * aside; best = name; }
  }
  return best;
}

export function walkByKeys(picture) {
  const { net, doing } = picture;

  /** What a key does at a router or link; whether it does anything. */
  function act(key, name, link) {
    const from = name ?? net.linked.get(link)[0];
    if (WAYS[key]) {
      const best = nearest(picture.at, from, WAYS[key]);
      if (best) picture.focus("node", best);
    } else if (key === "Enter" || key === " ") {
      if (name) doing.node(name); else doing.link(link);
    } else if (key === "l" || key === "L") {
      const links = net.linksOf(from);
      if (links.length) picture.focus("link", links[(links.indexOf(link) + 1) % links.length]);
    } else if ((key === "p" || key === "P") && name) doing.pin(name);
    else if (key === "Escape" && link) picture.focus("node", from);
    else return false;
    return true;
  }

  picture.root.addEventListener("keydown", (event) => {
    const { node, link } = event.target.closest("[data-node],[data-link]")?.dataset ?? {};
    if ((node || link) && !event.ctrlKey && !event.metaKey && act(event.key, node, link)) event.preventDefault();
  });
}
