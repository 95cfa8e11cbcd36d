import assert from "node:assert/strict";
import test from "node:test";
import { atFirst, edgesOf, foldOf, further, hiddenOf, lotsOf, mostOf, MOST, shownOf, waysAsked, within } from "../genealogy/lots.js";

/** A trace of lots by steps: how many there are at one step, at two, and so on. */
const trace = (name, ...counts) => [{ lot: "ASKED", owner: "ACME", steps: 0 },
  ...counts.flatMap((n, i) => Array.from({ length: n }, (_, at) => ({ lot: `${name}-${i + 1}-${at}`, owner: "ACME", steps: i + 1 })))];

test("each lot of both traces is there once, with its steps", () => {
  const back = [{ lot: "A", owner: "ACME", steps: 0 }, { lot: "W", owner: "HOUSE", steps: 1 }, { lot: "B", owner: "ACME", steps: 2 }];
  const forward = [{ lot: "A", owner: "ACME", steps: 0 }, { lot: "B", owner: "ACME", steps: 1 }];
  assert.deepEqual(lotsOf(back, forward).map(lot => [lot.id, lot.back, lot.forward]), [["ACME/A", 0, 0], ["HOUSE/W", 1, null], ["ACME/B", 2, 1]]);
});

test("how many lots there are within so many steps", () => {
  assert.deepEqual(within(trace("B", 2, 3, 1)), [2, 5, 6]);
  assert.deepEqual(within(trace("B")), []);
});

test("a small genealogy is shown whole", () => {
  assert.deepEqual(atFirst(trace("B", 4, 3), trace("F", 5, 5, 5)), { back: 7, forward: 15 });
});

test("a large one begins with the nearest steps, and a step that is too large with its first lots", () => {
  assert.deepEqual(atFirst(trace("B", 3, 500), trace("F", 2, 4, 80)), { back: 3, forward: 6 });
  assert.deepEqual(atFirst(trace("B", 500), trace("F", 500)), { back: 14, forward: 14 });
});

test("further shows the next whole step, or a part of it", () => {
  const back = trace("B", 3, 20, 500);
  assert.equal(further(back, 3), 23);
  assert.equal(further(back, 23), 53);
  assert.equal(further(back, 523), 523);
});

test("a picture has a limit, which both sides share", () => {
  assert.deepEqual(mostOf(trace("B", 1000), trace("F", 1000)), { back: MOST / 2, forward: MOST / 2 });
  assert.deepEqual(mostOf(trace("B", 10), trace("F", 1000)), { back: 10, forward: MOST - 10 });
});

/** What a genealogy's lots would tell, asked so: the edges that are found. */
function edgesFound(edges, back, forward, shown) {
  const [lots, hidden] = [shownOf(back, forward, shown), hiddenOf(back, forward, shown)];
  const neighbours = new Map();
  for (const { id } of lots) {
    const asked = { back: edges.filter(edge => edge[1] === id).map(edge => edge[0]), forward: edges.filter(edge => edge[0] === id).map(edge => edge[1]) };
    neighbours.set(id, Object.fromEntries(waysAsked(hidden).map(way => [way, asked[way]])));
  }
  return edgesOf(lots, neighbours, hidden).map(edge => edge.join(">").replaceAll("ACME/", "")).sort();
}

test("no edge is missed, whatever is folded", () => {
  const edges = "B2>B1 B1>X B2>X X>F1 X>G1 F1>F2 G1>F2 F2>F3 B1>F1 B2>F2".split(" ").map(pair => pair.split(">").map(name => `ACME/${name}`));
  const steps = text => text.split(" ").map(word => ({ lot: word.split(":")[0], owner: "ACME", steps: Number(word.split(":")[1]) }));
  const [back, forward] = [steps("X:0 B1:1 B2:1"), steps("X:0 F1:1 G1:1 F2:2 F3:3")];
  assert.deepEqual(edgesFound(edges, back, forward, { back: 2, forward: 4 }), ["B1>F1", "B1>X", "B2>B1", "B2>F2", "B2>X", "F1>F2", "F2>F3", "G1>F2", "X>F1", "X>G1"]);
  assert.deepEqual(edgesFound(edges, back, forward, { back: 2, forward: 2 }), ["B1>F1", "B1>X", "B2>B1", "B2>X", "B2>fold/forward", "F1>fold/forward", "G1>fold/forward", "X>F1", "X>G1"]);
  assert.deepEqual(edgesFound(edges, back, forward, { back: 1, forward: 1 }), ["B1>F1", "B1>X", "F1>fold/forward", "X>F1", "X>fold/forward", "fold/back>B1", "fold/back>X"]);
  assert.deepEqual(edgesFound(edges, back, forward, { back: 1, forward: 4 }), ["B1>F1", "B1>X", "F1>F2", "F2>F3", "G1>F2", "X>F1", "X>G1", "fold/back>B1", "fold/back>F2", "fold/back>X"]);
});

test("edges join what is shown, and lead to a fold where a neighbour isn't", () => {
  const [back, forward] = [trace("B", 2, 1), trace("F", 1)];
  const shown = { back: 2, forward: 1 };
  const hidden = hiddenOf(back, forward, shown);
  assert.deepEqual([...hidden], [["ACME/B-2-0", "back"]]);
  const neighbours = new Map([
    ["ACME/ASKED", { back: ["ACME/B-1-0", "ACME/B-1-1"], forward: ["ACME/F-1-0"] }],
    ["ACME/B-1-0", { back: ["ACME/B-2-0"] }],
    ["ACME/B-1-1", { back: ["ACME/B-2-0"] }],
    ["ACME/F-1-0", { back: ["ACME/ASKED", "ACME/ELSEWHERE"] }],
  ]);
  assert.deepEqual(edgesOf(shownOf(back, forward, shown), neighbours, hidden).map(edge => edge.join(">")).sort(), [
    "ACME/ASKED>ACME/F-1-0", "ACME/B-1-0>ACME/ASKED", "ACME/B-1-1>ACME/ASKED", `${foldOf("back")}>ACME/B-1-0`, `${foldOf("back")}>ACME/B-1-1`,
  ].sort());
});
