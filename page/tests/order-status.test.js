import assert from "node:assert/strict";
import test from "node:test";
import { statusIn, statusOf } from "../order-status.js";
import { Records } from "../records.js";
import { recipesOffered } from "../views/placing.js";

const order = (members = {}) => ({ order: "O-1", recipe: "R", batches: 3, status: "open", ...members });
const batch = (n, closed, members = {}) => ({ order: "O-1", batch: n, unit: "U", state: "complete", ...(closed && { closed }), ...members });
const records = members => new Records({ version: 1, owner: "ACME", made: "2026-11-28T18:04:00Z", ...members });

test("an order is finished when as many batches are closed as it is for", () => {
  const status = (...batches) => statusIn(records({ batches }), order());
  assert.equal(status(batch(1, true), batch(2, true), batch(3, true)), "finished");
  assert.equal(status(batch(1, true), batch(2, true)), "open");
  assert.equal(status(batch(1, true), batch(2, true), batch(3)), "open");
  assert.equal(status(), "open");
});

test("batches of another order, or the same one several times, finish none", () => {
  const closed = [batch(1, true), batch(1, true), batch(1, true), batch(2, true, { order: "O-2" }), batch(3, true, { order: "O-11" }), batch(4, true)];
  assert.equal(statusIn(records({ batches: closed }), order()), "open");
});

test("a cancelled order stays one, and without a companion the office's word stands", () => {
  assert.equal(statusIn(records({ batches: [batch(1, true)] }), order({ batches: 1, status: "cancelled" })), "cancelled");
  assert.equal(statusIn(null, order()), "open");
});

test("an order of no batch, or of more than there can be, isn't finished and takes no time", () => {
  assert.deepEqual([0, -1, "0", 9e15, "9999999999999999"].map(batches => statusOf(order({ batches }), n => n < 100)), Array(5).fill("open"));
});

test("recipes that the plant defined are offered before anything was ordered, each once and by name", () => {
  const recipes = ["MIX-2", "MIX-1"].map(recipe => ({ recipe, segments: 1, lines: [] }));
  assert.deepEqual(recipesOffered(records({ recipes }), []), ["MIX-1", "MIX-2"]);
  assert.deepEqual(recipesOffered(records({ recipes }), [order({ recipe: "MIX-1" }), order({ recipe: "AGE" })]), ["AGE", "MIX-1", "MIX-2"]);
  assert.deepEqual([recipesOffered(null, [order()]), recipesOffered(records({}), [])], [["R"], []]);
});
