import assert from "node:assert/strict";
import test from "node:test";
import { daysOf } from "../order-status.js";
import { Records } from "../records.js";
import { needsOf } from "../views/placing.js";
import { BLOCKED, NOT_KNOWN, partedOf, POSSIBLE, talliesOf, waitingOf, waitOf } from "../waiting.js";

const lot = (name, given = {}) => ({ lot: name, material: "BRINE", measure: "kg", amount: 5, disposition: "quarantined", ...given });
const MATERIALS = [{ owner: "ACME", material: "BRINE", measure: "kg", tests: [{ test: "PH", low: 1, high: 9 }] }];
const failing = { possible: false, why: [{ reason: "above", test: "PH", value: 12, limit: 9 }] };

test("what waits is in quarantine and on hand", () => {
  const lots = [lot("A"), lot("B", { amount: 0 }), lot("C", { disposition: "released" }), lot("D", { amount: "12345678901234567" })];
  assert.deepEqual(waitingOf(lots).map(row => row.lot), ["A", "D"]);
});

test("a lot is ready, not ready and why, or not known", () => {
  const lots = [{ lot: "A", release: { possible: true }, order: "O-1", batch: 2 }, { lot: "B", release: failing }, { lot: "D", release: { possible: true }, held: { day: 261128 } }];
  const records = new Records({ owner: "ACME", materials: MATERIALS, lots });
  const wait = name => waitOf(lot(name), records);
  assert.deepEqual(["A", "B", "C", "D"].map(name => wait(name).word), [POSSIBLE, BLOCKED, NOT_KNOWN, POSSIBLE]);
  assert.deepEqual([wait("B").blocks, wait("B").hasFailed, wait("A").batch], [["PH is 12, above its limit of 9."], true, "O-1/2"]);
  assert.equal(wait("D").held, "The plant holds it since 2026-11-28.");
  assert.deepEqual([waitOf(lot("A"), null).word, waitOf(lot("A"), null).blocks], [NOT_KNOWN, []]);
});

test("of what is chosen, what isn't ready stays, and what isn't known is asked for", () => {
  const rows = [{ lot: "A", word: POSSIBLE }, { lot: "B", word: BLOCKED }, { lot: "C", word: NOT_KNOWN }, { lot: "D", word: POSSIBLE }];
  const { goes, stays } = partedOf(rows, new Set(["A", "B", "C", "GONE"]));
  assert.deepEqual([goes.map(row => row.lot), stays.map(row => row.lot)], [["A", "C"], ["B"]]);
  assert.deepEqual(talliesOf(rows, row => row.word), [[POSSIBLE, 2], [BLOCKED, 1], [NOT_KNOWN, 1]]);
});

test("an order needs what its recipe consumes, and what is released of it is on hand", () => {
  const line = (use, owner, material, amount, segment = 1) => ({ segment, use, owner, material, amount });
  const recipe = { lines: [line("consumed", "ACME", "SALT", 300), line("consumed", "ACME", "SALT", 100, 2), line("consumed", "HOUSE", "WATER", 700), line("produced", "ACME", "BRINE", 1000)] };
  const stock = [lot("S-1", { material: "SALT", amount: 500, disposition: "released" }), lot("S-2", { material: "SALT", amount: 70 }), lot("S-3", { material: "SALT", amount: 9, disposition: "rejected" })];
  assert.deepEqual(needsOf(recipe, 2, stock, "ACME"), {
    consumed: [{ owner: "ACME", material: "SALT", needed: 800n, released: 500n, quarantined: 70n, missing: 300n }, { owner: "HOUSE", material: "WATER", needed: 1400n, released: null, quarantined: null, missing: null }],
    produced: [{ owner: "ACME", material: "BRINE", needed: 2000n }],
  });
  assert.equal(needsOf(recipe, 1, stock, "ACME").consumed[0].missing, 0n);
  assert.deepEqual(needsOf({ lines: [] }, 9, [], "ACME"), { consumed: [], produced: [] });
});

test("an order has the days that the companion tells, and none that it tells in part", () => {
  const order = { order: "O-1", batches: 2, status: "open" };
  const batch = (n, given) => ({ order: "O-1", batch: n, unit: "U", state: "idle", lines: [], ...given });
  const of = (...batches) => daysOf(new Records({ owner: "ACME", orders: [{ order: "O-1", placedOn: 261101 }], batches }), order);
  assert.deepEqual(of(batch(1, { openedOn: 261103, closed: true, closedOn: 261106 }), batch(2, { openedOn: 261104, closed: true, closedOn: 261105 })), { placed: 261101, begun: 261103, finished: 261106 });
  assert.deepEqual(of(batch(1, { openedOn: 261103, closed: true, closedOn: 261106 })), { placed: 261101, begun: 261103, finished: undefined });
  assert.deepEqual(of(batch(1, { closed: true, closedOn: 261106 }), batch(2, { openedOn: 261104, closed: true })), { placed: 261101, begun: undefined, finished: undefined });
  assert.deepEqual(daysOf(null, order), { placed: undefined, begun: undefined, finished: undefined });
});
