// The network of a topology text, as far as it can be drawn. The program judges whether the text is one.

/** The name of a link, the same from both ends. No location's name has the sign. */
export const linkKey = (a, b) => (a < b ? `${a}~${b}` : `${b}~${a}`);
export const isLink = (id) => id.includes("~");

const named = (list) => (Array.isArray(list) ? list : []).filter((each) => typeof each?.name === "string");

export function topologyOf(text) {
  let value;
  try { value = JSON.parse(text); } catch { return null; }
  const routers = named(value?.routers), peers = named(value?.peers), sites = new Map();
  for (const each of routers) sites.set(each.name, { ...each, isPeer: false });
  for (const each of peers) sites.set(each.name, { ...each, isPeer: true });
  const links = (Array.isArray(value?.links) ? value.links : []).filter((each) =>
    Array.isArray(each) && each.length === 2 && each[0] !== each[1] && each.every((name) => sites.has(name)));
  const near = new Map([...sites.keys()].map((name) => [name, []]));
  for (const [a, b] of links) { near.get(a).push(b); near.get(b).push(a); }
  const linked = new Map(links.map(([a, b]) => [linkKey(a, b), [a, b]]));
  return {
    routers: routers.map((each) => each.name), peers: peers.map((each) => each.name), names: [...sites.keys()],
    sites, links, near, linked,
    isPeer: (name) => sites.get(name)?.isPeer ?? false,
    /** The links of a location. */
    linksOf: (name) => near.get(name).map((other) => linkKey(name, other)),
    /** A session of a router with a peer, the router first; nothing where a link joins two routers. */
    session: (key) => {
      const [a, b] = linked.get(key);
      return sites.get(b).isPeer ? [a, b] : sites.get(a).isPeer ? [b, a] : null;
    },
  };
}
