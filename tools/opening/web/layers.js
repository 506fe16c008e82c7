// Places the routers of a fabric in layers, as a Clos network or a fat tree has them.

const APART = { x: 58, y: 44 }; // of boxes in a row, and of rows of one layer
const MOST_LAYERS = 5, TURNS = 6, PEERS_APART = 84, PEER_TURNS = 60;

const mean = (list) => list.reduce((sum, each) => sum + each, 0) / list.length;

/** The distance of each router from those of `begin`, over links of routers. */
function levelsFrom(begin, inner) {
  const level = new Map(begin.map((name) => [name, 0]));
  for (const here of level.keys()) { // those that are added are gone through, too
    for (const there of inner.get(here)) if (!level.has(there)) level.set(there, level.get(here) + 1);
  }
  return level;
}

/** The layers of routers, the first at the bottom; null where the links don't make layers. */
export function layersOf(net) {
  if (net.routers.length < 4) return null;
  const inner = new Map(net.routers.map((name) => [name, net.near.get(name).filter((other) => !net.isPeer(other))]));
  const degrees = net.routers.map((name) => inner.get(name).length);
  for (const wanted of [Math.min(...degrees), Math.max(...degrees)]) {
    const level = levelsFrom(net.routers.filter((_, k) => degrees[k] === wanted), inner);
    const count = Math.max(...level.values()) + 1;
    const isApart = (name) => inner.get(name).every((other) => level.get(name) !== level.get(other));
    const fits = count >= 2 && count <= MOST_LAYERS && net.routers.length >= 2 * count;
    if (!fits || level.size < net.routers.length || !net.routers.every(isApart)) continue;
    const layers = Array.from({ length: count }, (_, k) => net.routers.filter((name) => level.get(name) === k));
    return layers[0].length >= layers.at(-1).length ? layers : layers.reverse();
  }
  return null;
}

/** Orders each layer by where its neighbours stand, a few times up and down. */
function ordered(layers, net) {
  const at = new Map();
  const spread = (layer) => layer.forEach((name, k) => at.set(name, (k + 0.5) / layer.length));
  layers.forEach(spread);
  for (let turn = 0; turn < TURNS; turn++) {
    for (const layer of turn % 2 ? layers.toReversed() : layers) {
      const own = new Set(layer), wish = new Map(layer.map((name) => {
        const near = net.near.get(name).filter((other) => at.has(other) && !own.has(other));
        return [name, Math.round(1e6 * (near.length ? mean(near.map((other) => at.get(other))) : at.get(name)))];
      }));
      layer.sort((one, other) => wish.get(one) - wish.get(other)); // who wish the same stay in their order
      spread(layer);
    }
  }
  return layers;
}

/** The rows of a layer: as few as hold it, of the same length. */
function rowsOf(layer, across) {
  const count = Math.max(1, Math.ceil(layer.length / across)), each = Math.ceil(layer.length / count);
  return Array.from({ length: count }, (_, k) => layer.slice(k * each, (k + 1) * each));
}

/** Places the rows of one layer, the lowest at `y`. */
function placeBand(place, band, y, across, width) {
  const longest = Math.max(...band.map((row) => row.length)), shift = band.length > 1 ? 0.5 : 0;
  band.forEach((row, k) => {
    const step = Math.min(row.length > across / 2 ? (width - 60) / Math.max(1, longest - 1 + shift) : 150, 190);
    const odd = shift ? (k % 2 ? step / 4 : -step / 4) : 0;
    row.forEach((name, i) => place.set(name, [width / 2 + (i - (row.length - 1) / 2) * step + odd, y - k * APART.y]));
  });
}

/** Puts peers above what they are linked with, apart from each other. */
function spreadPeers(place, peers, net, width) {
  const wish = peers.map((peer) => {
    const near = net.near.get(peer).filter((name) => place.has(name));
    return [peer, near.length ? mean(near.map((name) => place.get(name)[0])) : width / 2];
  }).sort((one, other) => one[1] - other[1]);
  for (let turn = 0; turn < PEER_TURNS; turn++) {
    for (let k = 1; k < wish.length; k++) {
      const lack = PEERS_APART - (wish[k][1] - wish[k - 1][1]);
      if (lack > 0) { wish[k][1] += lack / 2; wish[k - 1][1] -= lack / 2; }
    }
  }
  for (const [peer, x] of wish) place.get(peer)[0] = x;
}

/** The places of a network in layers, the peers above or below the layer that they are linked with. */
export function layered(net, found, width, height) {
  const layers = ordered(found, net), place = new Map(), across = Math.max(4, Math.floor((width - 40) / APART.x));
  const high = new Map(layers.flatMap((layer, k) => layer.map((name) => [name, k])));
  const isOver = (peer) => net.near.get(peer).every((name) => (high.get(name) ?? 0) > (layers.length - 1) / 2 - 0.1);
  const over = net.peers.filter(isOver), under = net.peers.filter((peer) => !isOver(peer));
  const bands = [under, ...layers, over].filter((layer) => layer.length).map((layer) => rowsOf(layer, across).reverse());
  const inner = bands.reduce((sum, band) => sum + band.length - 1, 0) * APART.y;
  const gap = bands.length > 1 ? Math.min(190, Math.max(60, (height - 70 - inner) / (bands.length - 1))) : 0;
  let y = height / 2 + (gap * (bands.length - 1) + inner) / 2;
  for (const band of bands) {
    placeBand(place, band, y, across, width);
    y -= (band.length - 1) * APART.y + gap;
  }
  for (const peers of [over, under]) if (peers.length <= across) spreadPeers(place, peers, net, width);
  return place;
}
