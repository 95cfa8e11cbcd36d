import assert from "node:assert/strict";
import test from "node:test";
import { ABOVE, BELOW, blocksOf, heldBy, judgementOf, limits, measured, MISSING, PASSES, verdict, verdictsOf } from "../verdicts.js";

const DENSITY = { test: "DENSITY", low: 1100, high: 1250 };
const PH = { test: "PH", low: 600, high: 800, unit: "pH", decimals: 2 };
const result = (name, value) => ({ test: name, value, day: 261128 });

test("both limits count as within", () => {
  assert.deepEqual([1099, 1100, 1250, 1251, undefined].map(value => verdict(DENSITY, value)), [BELOW, PASSES, PASSES, ABOVE, MISSING]);
  assert.equal(verdict({ low: -5, high: 5 }, -6), BELOW);
  assert.equal(verdict({ low: 0, high: "12345678901234567" }, "12345678901234568"), ABOVE);
});

test("the latest result of each test counts", () => {
  const rows = verdictsOf([DENSITY, PH], [result("DENSITY", 1300), result("DENSITY", 1200)]);
  assert.deepEqual(rows.map(row => [row.test, row.value, row.word]), [["DENSITY", 1200, PASSES], ["PH", undefined, MISSING]]);
});

test("values and limits stand as measured", () => {
  assert.deepEqual([limits(DENSITY), limits(PH), measured(PH, 705)], ["1,100 to 1,250", "6.00 to 8.00 pH", "7.05 pH"]);
});

test("a lot whose tests pass can be released, and one of which nothing is known too", () => {
  assert.deepEqual(blocksOf({ release: { possible: true } }, [DENSITY], [result("DENSITY", 1200)]), []);
  assert.deepEqual(blocksOf(undefined, undefined, []), []);
});

test("the office's own results decide about tests, whatever the companion said before", () => {
  const failed = { release: { possible: false, why: [{ test: "DENSITY", reason: "above", value: 1300, limit: 1250 }] } };
  assert.deepEqual(blocksOf(failed, [DENSITY], [result("DENSITY", 1300), result("DENSITY", 1200)]), []);
  assert.deepEqual(blocksOf({ release: { possible: true } }, [DENSITY], [result("DENSITY", 1200), result("DENSITY", 1099)]), ["DENSITY is 1,099, below its limit of 1,100."]);
  assert.deepEqual(blocksOf({ release: { possible: true } }, [DENSITY, PH], [result("DENSITY", 1251)]), ["DENSITY is 1,251, above its limit of 1,250.", "PH has no result yet."]);
  assert.deepEqual(blocksOf(failed, undefined, []), ["DENSITY is 1,300, above its limit of 1,250."]);
});

test("what else keeps a lot is said in words, each once", () => {
  const why = [{ reason: "plant-hold", text: "mixed up." }, { reason: "plant-hold" }, { reason: "unsigned", test: "QA" }, { reason: "unsigned" }, { reason: "new-reason" }, { reason: "missing", test: "QA" }];
  const words = blocksOf({ release: { possible: false, why } }, [DENSITY], [result("DENSITY", 1200)]);
  assert.deepEqual(words, ["The plant holds it: mixed up.", "The plant holds it.", "The plant's quality hasn't signed it yet.", "The plant gives another reason: new-reason.", "QA has no result yet."]);
});

test("a lot that the plant holds by its word alone is said to be held, once", () => {
  assert.equal(heldBy({ held: { day: 261128, text: "mixed up." }, release: { possible: true } }), "The plant holds it since 2026-11-28: mixed up.");
  assert.equal(heldBy({ held: { day: 103 } }), "The plant holds it since 103.");
  assert.deepEqual([heldBy({ held: { day: 103 }, release: { possible: false, why: [{ reason: "plant-hold" }] } }), heldBy({}), heldBy(undefined)], ["", "", ""]);
});

test("a result of the plant's own test is what its quality says, in words", () => {
  const said = (value, lot = { signed: { day: 261128 } }, tests = [DENSITY]) => judgementOf(lot, tests, result("QA", value));
  assert.deepEqual([said(1), said(0), said(0, { held: { day: 103 } })], ["signed by the plant", "held by the plant", "held by the plant"]);
  // another value, a test of the owner's, a lot of which the plant says nothing, and one of which nothing is known
  assert.deepEqual([said(2), said(-1), said("1"), judgementOf({ signed: { day: 1 } }, [DENSITY], result("DENSITY", 1)), said(1, {}), judgementOf(undefined, [DENSITY], result("QA", 1)), judgementOf({ signed: { day: 1 } }, undefined, result("QA", 1))], Array(7).fill(undefined));
});
