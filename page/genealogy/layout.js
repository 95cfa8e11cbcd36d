/**
 * Places the boxes of a graph in layers from left to right, and leads its edges between them. Pure: it
 * knows nothing of lots, nor of how it is drawn.
 *
 * 1. Edges that close a ring are turned round.
 * 2. Each box stands in the layer of the longest way that leads to it; then boxes with more ways out than
 *    in move towards what they lead to. A box that only leads away stands beside the box that is asked for, if it
 *    leads to that; some of its edges then lead against the others.
 * 3. An edge over several layers has a lane in each layer between, so it passes behind no box. The edges of one
 *    box share their lanes.
 * 4. Each layer is ordered by where its neighbours stand, to and fro, and the order with the fewest
 *    crossings is kept.
 * 5. Heights: each box goes where its neighbours are, as near as the order and the distances let it.
 */

const ORDERINGS = 12;
const SETTLINGS = 16;

/** The sizes of boxes and what is between them. */
export const SIZES = { width: 190, height: 66, lane: 8, apart: 18, gap: 64, margin: 20, port: 9 };

/** The same for a picture whose layers come one below another: `width` is along the layers' direction. */
const UPRIGHT_SIZES = { width: SIZES.height, height: SIZES.width, lane: 8, apart: 16, gap: 44, margin: 20, port: 22 };

/**
 * The picture of boxes (their ids, in the order that is kept where nothing speaks against it) and edges
 * ([from, to]). Gives `boxes`, a map of id to {x, y, layer}, `edges` as {from, to, path}, where a path is
 * a list of points that are joined by curves and, within a layer, by straight lines; `width` and `height`.
 * `beside` is the box that is asked for.
 */
export function layered(ids, edges, { sizes = SIZES, beside = null } = {}) {
  const simple = simpleEdges(ids, edges);
  const straight = withoutRings(ids, simple);
  const layerOf = layersOf(ids, straight, besideOf(simple, beside));
  const graph = withLanes(ids, straight, layerOf, sizes);
  const layers = ordered(graph.layers);
  settle(layers, sizes);
  const gaps = gapsOf(layers, sizes);
  return measured(graph, layers, gaps, sizes);
}

/** The picture with its layers one below another: what was from left to right is from top to bottom. */
export function upright(ids, edges, { beside } = {}) {
  const { boxes, edges: paths, width, height } = layered(ids, edges, { sizes: UPRIGHT_SIZES, beside });
  return {
    boxes: new Map([...boxes].map(([id, { x, y, layer }]) => [id, { x: y, y: x, layer }])),
    edges: paths.map(({ path, ...edge }) => ({ ...edge, path: path.map(([x, y]) => [y, x]) })),
    width: height, height: width,
  };
}

/** Each edge between two boxes once. */
function simpleEdges(ids, edges) {
  const known = new Set(ids);
  const once = new Map(edges.map(edge => [edge.join("\n"), edge]));
  return [...once.values()].filter(([from, to]) => known.has(from) && known.has(to) && from !== to);
}

const listsOf = (ids, edges, [by, other]) => {
  const lists = new Map(ids.map(id => [id, []]));
  for (const edge of edges) lists.get(edge[by]).push(edge[other]);
  return lists;
};

/** The edges as {from, to, turned}, those that close a ring turned round. */
function withoutRings(ids, edges) {
  const outs = listsOf(ids, edges, [0, 1]);
  const ins = listsOf(ids, edges, [1, 0]);
  const state = new Map();
  const closing = new Set();
  // depth first, without recursion: `next` is how many of a box's edges were followed
  for (const root of [...ids].sort((a, b) => ins.get(a).length - ins.get(b).length)) {
    const way = state.has(root) ? [] : [root];
    while (way.length > 0) {
      const id = way.at(-1);
      const next = state.get(id) ?? 0;
      state.set(id, next + 1);
      const to = outs.get(id)[next];
      if (to === undefined) {
        way.pop();
        state.set(id, Infinity);
      } else if (!state.has(to)) way.push(to);
      else if (state.get(to) !== Infinity) closing.add(`${id}\n${to}`);
    }
  }
  return edges.map(([from, to]) => (closing.has(`${from}\n${to}`) ? { from: to, to: from, turned: true } : { from, to, turned: false }));
}

/** The boxes that lead to the box that is asked for, and that nothing leads to; with that box. */
function besideOf(edges, asked) {
  const reached = new Set(edges.map(([, to]) => to));
  return { asked, sources: edges.filter(([from, to]) => to === asked && !reached.has(from)).map(([from]) => from) };
}

/** The layer of each box, where edges lead to a later layer; the sources stand beside what is asked for. */
function layersOf(ids, edges, { asked, sources }) {
  const pairs = edges.map(edge => [edge.from, edge.to]);
  const outs = listsOf(ids, pairs, [0, 1]);
  const ins = listsOf(ids, pairs, [1, 0]);
  const left = new Map(ids.map(id => [id, ins.get(id).length]));
  const row = ids.filter(id => left.get(id) === 0);
  const layer = new Map(row.map(id => [id, 0]));
  for (let i = 0; i < row.length; i++) {
    for (const to of outs.get(row[i])) {
      layer.set(to, Math.max(layer.get(to) ?? 0, layer.get(row[i]) + 1));
      left.set(to, left.get(to) - 1);
      if (left.get(to) === 0) row.push(to);
    }
  }
  for (const id of row.reverse()) {
    if (outs.get(id).length > ins.get(id).length) layer.set(id, Math.min(...outs.get(id).map(to => layer.get(to))) - 1);
  }
  for (const id of sources) layer.set(id, layer.get(asked) - 1);
  const first = Math.min(...layer.values());
  for (const [id, at] of layer) layer.set(id, at - first);
  return layer;
}

/**
 * Points are boxes and lanes. Each edge becomes a chain of points, one for each layer that it passes. An edge against
 * the others leaves its box on the left, and turns round on the left of the box that it leads to.
 */
function withLanes(ids, edges, layerOf, sizes) {
  const layers = Array.from({ length: Math.max(-1, ...layerOf.values()) + 1 }, () => []);
  const point = (id, layer) => {
    const created = { id, layer, height: id === null ? sizes.lane : sizes.height, ins: [], outs: [], at: 0, y: 0, isEnd: false };
    layers[layer].push(created);
    return created;
  };
  const points = new Map(ids.map(id => [id, point(id, layerOf.get(id))]));
  const lanes = new Map();
  const laneOf = (from, way, layer) => {
    const key = `${way} ${layer} ${from}`;
    if (!lanes.has(key)) lanes.set(key, point(null, layer));
    return lanes.get(key);
  };
  const chains = edges.map(({ from, to, turned }) => {
    const [first, last] = [layerOf.get(from), layerOf.get(to)];
    const against = last <= first;
    const [begin, end] = against ? [last, first] : [first + 1, last];
    const between = Array.from({ length: end - begin }, (_, i) => laneOf(from, against ? "against" : turned ? "turned" : "on", begin + i));
    const chain = against ? [points.get(from), ...between.reverse(), points.get(to)] : [points.get(from), ...between, points.get(to)];
    if (against) joinAgainst(chain);
    else chain.slice(1).forEach((next, i) => join(chain[i], next));
    return { from, to, turned, against, chain };
  });
  markEnds(points, chains);
  return { layers, points, chains };
}

/** Marks boxes that only lead away or are only led to, with the lanes of their edges: other boxes don't follow their heights. */
function markEnds(points, chains) {
  for (const box of points.values()) box.isEnd = box.ins.length === 0 || box.outs.length === 0;
  for (const { chain } of chains) {
    const isEnd = chain[0].isEnd || chain.at(-1).isEnd;
    for (const lane of chain.slice(1, -1)) lane.isEnd = isEnd;
  }
}

const put = (list, point) => { if (!list.includes(point)) list.push(point); };

/** Two points of neighbouring layers. */
function join(left, right) {
  put(left.outs, right);
  put(right.ins, left);
}

/** The points of an edge against the others: its last lane and the box that it leads to are in one layer. */
function joinAgainst(chain) {
  const [last, end] = [chain.at(-2), chain.at(-1)];
  for (let i = 1; i < chain.length - 1; i++) join(chain[i], chain[i - 1]);
  put(end.ins, last);
  if (chain.length === 2) put(last.ins, end);
}

const mean = list => list.reduce((sum, summand) => sum + summand, 0) / list.length;
const number = layer => layer.forEach((point, i) => { point.at = i; });

/** The layers in the order with the fewest crossings that was met. */
function ordered(layers) {
  layers.forEach(number);
  let best = layers.map(layer => [...layer]);
  let fewest = crossingsOf(best);
  for (let round = 0; round < ORDERINGS && fewest > 0; round++) {
    const forth = round % 2 === 0;
    for (const layer of forth ? layers : [...layers].reverse()) {
      const wanted = new Map(layer.map(point => [point, wantedPlace(point, forth ? point.ins : point.outs)]));
      layer.sort((a, b) => wanted.get(a) - wanted.get(b) || a.at - b.at);
      number(layer);
    }
    const crossings = crossingsOf(layers);
    if (crossings < fewest) [best, fewest] = [layers.map(layer => [...layer]), crossings];
  }
  best.forEach(number);
  return best;
}

const wantedPlace = (point, neighbours) => (neighbours.length > 0 ? mean(neighbours.map(other => other.at)) : point.at);

/** How many pairs of edges cross between neighbouring layers. */
export function crossingsOf(layers) {
  layers.forEach(number);
  let crossings = 0;
  for (const layer of layers) {
    const size = 1 + Math.max(0, ...layer.flatMap(point => point.outs.map(to => to.at + 1)));
    const counts = new Array(size + 1).fill(0);
    let before = 0;
    // those before it that end behind it cross it: a tree of sums counts those that don't
    for (const ends of layer.map(point => point.outs.map(to => to.at).sort((a, b) => a - b))) {
      for (const end of ends) {
        let notBehind = 0;
        for (let i = end + 1; i > 0; i -= i & -i) notBehind += counts[i];
        crossings += before - notBehind;
      }
      for (const end of ends) for (let i = end + 1; i <= size; i += i & -i) counts[i]++;
      before += ends.length;
    }
  }
  return crossings;
}

/** Heights: layer by layer, to and fro, each point goes to the middle of its neighbours. */
function settle(layers, sizes) {
  for (let round = 0; round < SETTLINGS; round++) {
    const forth = round % 2 === 0;
    for (const layer of forth ? layers : [...layers].reverse()) {
      const last = round >= SETTLINGS - 2;
      settleLayer(layer, point => wantedHeight(point, last ? [...point.ins, ...point.outs] : forth ? point.ins : point.outs), sizes);
    }
  }
  const top = Math.min(...layers.flat().map(point => point.y - point.height / 2));
  for (const point of layers.flat()) point.y += sizes.margin - top;
}

/**
 * The middle of a point's neighbours, so that long chains stay level: a lane follows lanes, and a box follows those
 * within chains, where there are some.
 */
function wantedHeight(point, neighbours) {
  const within = neighbours.filter(other => (point.id === null ? other.id === null : !other.isEnd));
  const followed = within.length > 0 ? within : neighbours;
  return followed.length > 0 ? mean(followed.map(other => other.y)) : point.y;
}

/** How much a point counts where several want one place: lanes most, so that long edges are straight, and ends least. */
const weightOf = point => (point.id === null ? 4 : point.isEnd ? 0.01 : 1);

/**
 * The heights nearest to those wanted that keep order and distances. Points that want to be nearer to each
 * other than they may be form a block, which stands at the mean of what its points want.
 */
function settleLayer(layer, wanted, sizes) {
  const blocks = [];
  let offset = 0;
  layer.forEach((point, i) => {
    if (i > 0) offset += (layer[i - 1].height + point.height) / 2 + distance(layer[i - 1], point, sizes);
    const weight = weightOf(point);
    let block = { points: [[point, offset]], weight, sum: (wanted(point) - offset) * weight };
    while (blocks.length > 0 && blocks.at(-1).sum / blocks.at(-1).weight > block.sum / block.weight) {
      const above = blocks.pop();
      block = { points: above.points.concat(block.points), weight: above.weight + block.weight, sum: above.sum + block.sum };
    }
    blocks.push(block);
  });
  for (const { points, sum, weight } of blocks) for (const [point, at] of points) point.y = sum / weight + at;
}

const distance = (a, b, sizes) => (a.id === null && b.id === null ? sizes.lane / 2 : a.id === null || b.id === null ? sizes.apart / 2 : sizes.apart);

/** The room behind each layer: more, where more edges cross it. */
function gapsOf(layers, sizes) {
  return layers.map(layer => sizes.gap + Math.min(90, 3 * layer.reduce((sum, point) => sum + point.outs.length, 0)));
}

const tenth = coordinate => Math.round(coordinate * 10) / 10;

function measured({ points, chains }, layers, gaps, sizes) {
  const left = [sizes.margin];
  layers.forEach((_, i) => left.push(left[i] + sizes.width + gaps[i]));
  const boxes = new Map([...points].map(([id, box]) => [id, { x: left[box.layer], y: tenth(box.y - sizes.height / 2), layer: box.layer }]));
  const [starts, ends] = [portsOf(points, "outs", sizes), portsOf(points, "ins", sizes)];
  const bottom = Math.max(0, ...layers.flat().map(point => point.y + point.height / 2));
  const right = layers.length > 0 ? left[layers.length - 1] + sizes.width : 0;
  return { boxes, edges: chains.map(chain => edgeOf(chain, left, starts, ends, sizes)), width: right + sizes.margin, height: tenth(bottom) + sizes.margin };
}

/** How far from a box's middle each of its edges begins or ends: in the order of what they lead to. */
function portsOf(points, side, sizes) {
  const ports = new Map();
  for (const box of points.values()) {
    const row = [...box[side]].sort((a, b) => a.at - b.at);
    const step = Math.min(sizes.port, (sizes.height - 20) / Math.max(1, row.length - 1));
    ports.set(box, new Map(row.map((other, i) => [other, (i - (row.length - 1) / 2) * step])));
  }
  return ports;
}

function edgeOf({ from, to, turned, against, chain }, left, starts, ends, sizes) {
  const [first, last] = [chain[0], chain.at(-1)];
  if (against) return { from, to, path: pathAgainst(chain, left, ends, sizes) };
  const path = [[left[first.layer] + sizes.width, tenth(first.y + starts.get(first).get(chain[1]))]];
  for (const lane of chain.slice(1, -1)) path.push([left[lane.layer], tenth(lane.y)], [left[lane.layer] + sizes.width, tenth(lane.y)]);
  path.push([left[last.layer], tenth(last.y + ends.get(last).get(chain.at(-2)))]);
  return turned ? { from: to, to: from, path: path.reverse() } : { from, to, path };
}

/** From the left side of a box to that of another, which stands no later. */
function pathAgainst(chain, left, ends, sizes) {
  const [first, last] = [chain[0], chain.at(-1)];
  const path = [[left[first.layer], tenth(first.y + ends.get(first).get(chain[1]))]];
  for (const lane of chain.slice(1, -1)) path.push([left[lane.layer] + sizes.width, tenth(lane.y)], [left[lane.layer], tenth(lane.y)]);
  path.push([left[last.layer], tenth(last.y + ends.get(last).get(chain.at(-2)))]);
  return path;
}
