import assert from "node:assert/strict";
import test from "node:test";
import { Boxes } from "../genealogy/boxes.js";
import { groupsOf, tellsTrace, UNFOLDED } from "../genealogy/groups.js";
import { linksOf, notedIn } from "../genealogy/links.js";
import { foldOf } from "../genealogy/lots.js";

const pad = n => String(n).padStart(3, "0");
const names = (prefix, n) => Array.from({ length: n }, (_, i) => `ACME/${prefix}-${pad(i)}`);

test("three lots that are alike are a group, two are not", () => {
  const kindOf = id => (id.startsWith("ACME/L") ? "DRUM" : id.startsWith("ACME/M") ? "CASK" : null);
  const ids = [...names("L", 3), ...names("M", 2), ...names("N", 5)];
  const { places, groups } = groupsOf(ids, kindOf, new Map());
  assert.deepEqual([...groups.keys()], ["group/DRUM"]);
  assert.deepEqual(ids.map(id => places.get(id)).filter(id => !id.startsWith("group/")), [...names("M", 2), ...names("N", 5)]);
});

test("a click shows so many lots of a group; what is left stays one where it is three or more", () => {
  const ids = names("L", 33);
  const shown = n => groupsOf(ids, () => "DRUM", new Map([["group/DRUM", n]])).groups.get("group/DRUM")?.lots.length ?? 0;
  assert.deepEqual([shown(0), shown(10), shown(UNFOLDED), shown(31), shown(33)], [33, 23, 3, 0, 0]);
});

/** What companion tells of edges, and the office's traces by them. */
function office(edges) {
  const neighbours = id => ({ back: edges.filter(([, to]) => to === id).map(([from]) => from), forward: edges.filter(([from]) => from === id).map(([, to]) => to) });
  const trace = (id, way) => {
    const steps = new Map([[id, 0]]);
    for (const at of steps.keys()) for (const next of neighbours(at)[way]) if (!steps.has(next)) steps.set(next, steps.get(at) + 1);
    return [...steps].map(([each, n]) => ({ id: each, owner: each.split("/")[0], lot: each.split("/")[1], steps: n })).sort((a, b) => a.steps - b.steps || (a.id < b.id ? -1 : 1));
  };
  return { records: { neighboursOf: neighbours }, traces: id => ({ back: trace(id, "back"), forward: trace(id, "forward") }) };
}

const BATCHES = 11;
const drums = Array.from({ length: BATCHES }, (_, i) => names(`L-${i + 1}`, 199)).flat();
const batchOf = id => `BIG/${id.split("-")[1]}`;
const large = office(drums.map(id => ["ACME/S-1", id]));
const drumKind = id => (id.startsWith("ACME/L") ? { kind: "DRUM, quarantined", batch: batchOf(id) } : { kind: "SALT, released" });

test("2,189 lots of eleven batches are eleven boxes where the companion tells their batches", () => {
  const boxes = new Boxes(large.traces("ACME/S-1"), drumKind, large.records);
  const { ids, edges, groups, countOf } = boxes.drawn;
  assert.ok(boxes.isWhole);
  assert.deepEqual([ids.length, edges.length, groups.size, countOf("forward")], [12, 11, 11, 0]);
  assert.deepEqual(edges.map(([from]) => from), Array(11).fill("ACME/S-1"));
  assert.equal(groups.get("group/BIG/1 | DRUM, quarantined").lots.length, 199);
});

test("a group unfolds by parts, and folds again", () => {
  const boxes = new Boxes(large.traces("ACME/S-1"), drumKind, large.records);
  const group = () => boxes.drawn.groups.get("group/BIG/1 | DRUM, quarantined");
  boxes.open(group(), UNFOLDED);
  assert.equal(boxes.drawn.ids.length, 12 + UNFOLDED);
  assert.equal(group().lots.length, 199 - UNFOLDED);
  boxes.open(group(), UNFOLDED);
  assert.equal(boxes.drawn.ids.length, 12 + 2 * UNFOLDED);
  boxes.fold();
  assert.equal(boxes.drawn.ids.length, 12);
});

test("without a companion, lots that are shown stand in one box where their neighbours are the same", () => {
  const traces = large.traces("ACME/S-1");
  const boxes = new Boxes(traces, id => ({ ...drumKind(id), batch: undefined }), null);
  assert.ok(!boxes.isWhole);
  for (const { id } of boxes.placed.shown) for (const way of ["back", "forward"]) boxes.know(id, way, large.records.neighboursOf(id)[way]);
  const { ids, edges, groups, countOf } = boxes.drawn;
  assert.deepEqual([ids.length, groups.size], [3, 1]);
  assert.equal([...groups.values()][0].lots.length + countOf("forward"), 2189);
  assert.ok(edges.some(([, to]) => to === foldOf("forward")));
});

test("received lots are a group among the same neighbours alone", () => {
  const edges = [...names("S", 4).map(id => [id, "ACME/P"]), ["ACME/T-000", "ACME/P"], ["ACME/T-000", "ACME/Q"], ["ACME/P", "ACME/Q"]];
  const graph = office(edges);
  const boxes = new Boxes(graph.traces("ACME/P"), () => ({ kind: "SALT, released" }), graph.records);
  assert.deepEqual([...boxes.drawn.groups.values()].map(group => group.lots), [names("S", 4)]);
});

test("where the companion tells other steps than the office, the office is asked", () => {
  const graph = office([["ACME/A", "ACME/B"], ["ACME/B", "ACME/C"]]);
  const traces = graph.traces("ACME/B");
  assert.ok(new Boxes(traces, () => null, graph.records).isWhole);
  for (const edges of [[["ACME/A", "ACME/B"]], [["ACME/A", "ACME/B"], ["ACME/B", "ACME/C"], ["ACME/B", "ACME/D"]], [["ACME/A", "ACME/B"], ["ACME/A", "ACME/C"]]]) {
    assert.ok(!new Boxes(traces, () => null, office(edges).records).isWhole, edges.join(" "));
  }
  assert.ok(!tellsTrace([{ id: "A", steps: 0 }, { id: "B", steps: 2 }], "forward", id => ({ forward: id === "A" ? ["B"] : [] })));
});

test("links are drawn where no edge is recorded, and lots that no trace has stand beside", () => {
  const link = (from, to) => ({ from: { owner: "ACME", lot: from }, to: { owner: "ACME", lot: to }, why: "rework" });
  const places = new Map([["ACME/A", "ACME/A"], ["ACME/B", "group/B"]]);
  const links = [link("A", "B"), link("A", "C"), link("X", "Y"), link("B", "B")];
  const noted = notedIn(links, id => places.get(id) ?? null, []);
  assert.deepEqual(noted.aside.map(row => row.id), ["ACME/C"]);
  assert.deepEqual(noted.edges, [["ACME/A", "group/B"], ["ACME/A", "ACME/C"]]);
  assert.deepEqual(notedIn([link("A", "B")], id => places.get(id) ?? null, [["ACME/A", "group/B"]]).edges, []);
  assert.deepEqual([linksOf(links, "ACME/A").into.length, linksOf(links, "ACME/A").from.length], [2, 0]);
});
