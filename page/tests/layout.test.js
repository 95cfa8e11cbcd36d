import assert from "node:assert/strict";
import test from "node:test";
import { curve, halfWay } from "../genealogy/draw.js";
import { crossingsOf, layered, SIZES, upright } from "../genealogy/layout.js";

const edgesOf = text => text.trim().split(/\s+/).map(pair => pair.split(">"));
const idsOf = edges => [...new Set(edges.flat())];
const layersOf = layout => Object.fromEntries([...layout.boxes].map(([id, box]) => [id, box.layer]));

/** Numbers that look like chance and are the same each time. */
function chance(seed) {
  let state = seed;
  return most => {
    state = (state * 1103515245 + 12345) % 2147483648;
    return Math.floor((state / 2147483648) * most);
  };
}

function randomGraph(seed, boxes, edges) {
  const next = chance(seed);
  const ids = Array.from({ length: boxes }, (_, i) => `L-${i}`);
  return [ids, Array.from({ length: edges }, () => [ids[next(boxes)], ids[next(boxes)]])];
}

/** Points along a path's curves and lines, as draw.js draws them. */
function pointsOn(path) {
  const points = [];
  for (const [i, [x1, y1]] of path.slice(0, -1).entries()) {
    const [x2, y2] = path[i + 1];
    const half = i % 2 === 0 ? halfWay(x1, x2) : null;
    for (let t = 0; t <= 1; t += 0.05) {
      const u = 1 - t;
      points.push(half === null ? [x1 + (x2 - x1) * t, y1 + (y2 - y1) * t]
        : [u ** 3 * x1 + 3 * u * u * t * half + 3 * u * t * t * half + t ** 3 * x2, u ** 3 * y1 + 3 * u * u * t * y1 + 3 * u * t * t * y2 + t ** 3 * y2]);
    }
  }
  return points;
}

/** What is wrong with a picture: boxes that overlap, and edges behind boxes. */
function faultsOf({ boxes, edges, width, height }) {
  const faults = [];
  const all = [...boxes];
  for (const [i, [a, p]] of all.entries()) {
    if (p.x < 0 || p.y < 0 || p.x + SIZES.width > width || p.y + SIZES.height > height) faults.push(`${a} is outside`);
    for (const [b, q] of all.slice(i + 1)) {
      if (Math.abs(p.x - q.x) < SIZES.width && Math.abs(p.y - q.y) < SIZES.height) faults.push(`${a} and ${b} overlap`);
    }
  }
  for (const { from, to, path } of edges) {
    for (const [x, y] of pointsOn(path)) {
      const behind = all.find(([, box]) => x > box.x + 0.1 && x < box.x + SIZES.width - 0.1 && y > box.y && y < box.y + SIZES.height);
      if (behind) {
        faults.push(`${from}>${to} passes behind ${behind[0]}`);
        break;
      }
    }
  }
  return faults;
}

test("a box stands in the layer of the longest way to it", () => {
  const edges = edgesOf("salt>brine water>brine brine>blend water>blend blend>drum brine>drum");
  assert.deepEqual(layersOf(layered(idsOf(edges), edges)), { salt: 0, water: 0, brine: 1, blend: 2, drum: 3 });
});

test("a box with more ways out than in moves towards what it leads to", () => {
  const edges = edgesOf("a>b b>c c>d late>d");
  assert.equal(layersOf(layered(idsOf(edges), edges)).late, 2);
});

test("an edge over several layers has a lane in each, and passes behind no box", () => {
  const edges = edgesOf("a>b b>c c>d a>d x>b x>d y>c");
  const layout = layered(idsOf(edges), edges);
  const long = layout.edges.find(edge => edge.from === "a" && edge.to === "d");
  assert.equal(long.path.length, 2 + 2 * 2);
  assert.deepEqual(faultsOf(layout), []);
});

test("an edge begins at the right side of its box, and ends at the left side of the other", () => {
  const layout = layered(["a", "b"], [["a", "b"]]);
  const [a, b] = [layout.boxes.get("a"), layout.boxes.get("b")];
  const { path } = layout.edges[0];
  assert.deepEqual([path[0][0], path.at(-1)[0]], [a.x + SIZES.width, b.x]);
  assert.deepEqual([path[0][1], path.at(-1)[1]], [a.y + SIZES.height / 2, b.y + SIZES.height / 2]);
});

test("rings are drawn, with the arrows as they are", () => {
  const edges = edgesOf("a>b b>c c>a c>d");
  const layout = layered(idsOf(edges), edges);
  assert.deepEqual(layout.edges.map(edge => `${edge.from}>${edge.to}`).sort(), ["a>b", "b>c", "c>a", "c>d"]);
  const turned = layout.edges.find(edge => edge.from === "c" && edge.to === "a");
  assert.ok(turned.path[0][0] > turned.path.at(-1)[0], "c>a leads back to the left");
  assert.deepEqual(faultsOf(layout), []);
});

test("a box alone, none at all, edges to themselves, twice and to unknown boxes", () => {
  assert.deepEqual([...layered(["a"], []).boxes.keys()], ["a"]);
  assert.deepEqual(layered([], []).edges, []);
  const layout = layered(["a", "b"], edgesOf("a>a a>b a>b b>c"));
  assert.deepEqual(layout.edges.map(edge => [edge.from, edge.to]), [["a", "b"]]);
});

test("crossings are counted, and avoided where they can be", () => {
  const point = () => ({ outs: [] });
  const [a, b, c, d] = [point(), point(), point(), point()];
  a.outs = [d];
  b.outs = [c];
  assert.equal(crossingsOf([[a, b], [c, d]]), 1);
  assert.equal(crossingsOf([[b, a], [c, d]]), 0);
  const layout = layered(["a", "b", "c", "x", "y", "z"], edgesOf("a>z b>y c>x"));
  const heights = ["x", "y", "z", "c", "b", "a"].map(id => layout.boxes.get(id).y);
  assert.equal(new Set(heights).size, 3);
  assert.deepEqual(heights.slice(0, 3), heights.slice(3));
});

/** A chain of n lots, each made of the one before it, of water and of a salt of its own. */
const chain = n => edgesOf(Array.from({ length: n }, (_, i) => `B${i}>B${i + 1} WATER>B${i + 1} S${i + 1}>B${i + 1}`).join(" "));

test("all that a lot within a chain was made of stands beside it, each once", () => {
  const edges = chain(32);
  const layout = layered(idsOf(edges), edges, { beside: "B16" });
  const layer = id => layout.boxes.get(id).layer;
  assert.deepEqual(edges.filter(([, to]) => to === "B16").map(([from]) => layer("B16") - layer(from)), [1, 1, 1]);
  assert.equal(layout.boxes.size, idsOf(edges).length);
  assert.deepEqual(layout.edges.map(({ from, to }) => `${from}>${to}`).sort(), edges.map(edge => edge.join(">")).sort());
  assert.deepEqual(faultsOf(layout), []);
});

test("a long chain makes a picture that is hardly higher than a short one, since edges of a box share their lanes", () => {
  const heightOf = n => layered(idsOf(chain(n)), chain(n), { beside: `B${n / 2}` }).height;
  assert.ok(heightOf(150) < 2 * heightOf(10), `${heightOf(150)} and ${heightOf(10)}`);
});

test("an edge against the others leaves on the left, and enters on the left after a turn", () => {
  const layout = layered(["W", "A", "B", "C"], edgesOf("A>B B>C W>A W>B W>C"), { beside: "C" });
  assert.deepEqual(layersOf(layout), { W: 1, A: 0, B: 1, C: 2 });
  const at = id => layout.boxes.get(id);
  for (const to of ["A", "B"]) {
    const { path } = layout.edges.find(edge => edge.from === "W" && edge.to === to);
    assert.deepEqual([path[0][0], path.at(-1)[0]], [at("W").x, at(to).x]);
  }
  assert.deepEqual(faultsOf(layout), []);
  assert.equal(curve([[50, 0], [50, 30]]), "M50 0C26 0 26 30 50 30");
});

test("in graphs of any form around any box no boxes overlap, and no edge passes behind a box", () => {
  for (let seed = 1; seed <= 60; seed++) {
    const [ids, edges] = randomGraph(seed, 2 + (seed % 25), seed % 50);
    assert.deepEqual(faultsOf(layered(ids, edges, { beside: ids[seed % ids.length] })), [], `seed ${seed}`);
  }
});

test("an upright picture has its layers from top to bottom", () => {
  const edges = edgesOf("a>c b>c c>d");
  const { boxes, edges: paths, width, height } = upright(idsOf(edges), edges, { beside: "c" });
  const at = id => boxes.get(id);
  assert.equal(at("a").y, at("b").y);
  assert.ok(at("a").y + SIZES.height < at("c").y && at("c").y + SIZES.height < at("d").y);
  assert.ok(Math.abs(at("a").x - at("b").x) >= SIZES.width, "boxes of a layer stand side by side");
  for (const { x, y } of boxes.values()) assert.ok(x >= 0 && y >= 0 && x + SIZES.width <= width && y + SIZES.height <= height);
  const { path } = paths.find(edge => edge.from === "c");
  assert.deepEqual([path[0][1], path.at(-1)[1]], [at("c").y + SIZES.height, at("d").y]);
  assert.equal(curve([[0, 0], [5, 10]], 1), "M0 0C0 5 5 5 5 10");
});

test("the same graph has the same picture", () => {
  const [ids, edges] = randomGraph(7, 30, 60);
  assert.deepEqual(layered(ids, edges), layered(ids, edges));
});

test("in graphs of any form no boxes overlap, and no edge passes behind a box", () => {
  for (let seed = 1; seed <= 60; seed++) {
    const [ids, edges] = randomGraph(seed, 2 + (seed % 25), seed % 50);
    assert.deepEqual(faultsOf(layered(ids, edges)), [], `seed ${seed}`);
  }
});

test("every edge but those that are turned leads to a later layer", () => {
  for (let seed = 1; seed <= 30; seed++) {
    const [ids, random] = randomGraph(seed, 20, 40);
    const forward = random.filter(([a, b]) => Number(a.slice(2)) < Number(b.slice(2)));
    const layout = layered(ids, forward);
    for (const { from, to } of layout.edges) assert.ok(layout.boxes.get(from).layer < layout.boxes.get(to).layer, `seed ${seed}: ${from}>${to}`);
  }
});

test("300 boxes are placed within two seconds, and a chain of 3,000 without a deep stack", () => {
  const [ids, edges] = randomGraph(3, 300, 600);
  const begun = performance.now();
  layered(ids, edges.filter(([a, b]) => Number(a.slice(2)) < Number(b.slice(2))));
  assert.ok(performance.now() - begun < 2000, `${performance.now() - begun} ms`);
  const chain = Array.from({ length: 3000 }, (_, i) => `${i}`);
  assert.equal(layered(chain, chain.slice(1).map((to, i) => [chain[i], to])).boxes.get("2999").layer, 2999);
});

test("a path is drawn as curves between layers and lines within them", () => {
  assert.equal(curve([[0, 0], [10, 5], [30, 5], [50, 9]]), "M0 0C5 0 5 5 10 5L30 5C40 5 40 9 50 9");
});
