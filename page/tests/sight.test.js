import assert from "node:assert/strict";
import test from "node:test";
import { directOf } from "../genealogy/lots.js";
import { beginning } from "../genealogy/sight.js";

test("the asked box is in sight, with what it is joined to where that fits", () => {
  const sees = (length, asked, ins, outs) => {
    const begins = beginning(length, asked, ins, outs);
    return [asked, ...ins, ...outs].map(([from, to]) => from >= begins && to <= begins + length);
  };
  const [asked, near, far, next] = [[1000, 1190], [740, 930], [500, 690], [1260, 1450]];
  assert.deepEqual(sees(1200, asked, [near, far], [next]), [true, true, true, true]);
  assert.deepEqual(sees(800, asked, [near, far], [next]), [true, true, true, false]);
  assert.deepEqual(sees(600, asked, [near, far], [next]), [true, false, false, true]);
  assert.equal(beginning(1000, [20, 210], [], [[300, 490]]), 255 - 500);
});

test("where not all that it is joined to fits, the window begins with the asked box, and cuts it at no side", () => {
  const [asked, left, right] = [[1000, 1190], [500, 690], [1500, 1690]];
  assert.equal(beginning(600, asked, [left, right], []), 1000 - 8);
  assert.equal(beginning(600, asked, [], [left, right]), 1000 - 8);
  assert.equal(beginning(700, asked, [left], [right]), 500 - 8);
  // a window that is hardly wider than the box, and one that is narrower
  assert.equal(beginning(193, asked, [left], []), 1000 - 3);
  assert.equal(beginning(100, asked, [left], []), 1000);
});

test("what a lot was directly made of is what stands at one step", () => {
  const trace = [["A", 0], ["B", 1], ["C", 1], ["D", 2]].map(([lot, steps]) => ({ lot, owner: "ACME", steps }));
  assert.deepEqual(directOf(trace).map(lot => lot.lot), ["B", "C"]);
});
