import assert from "node:assert/strict";
import test from "node:test";
import { Away, Refused } from "../api.js";
import { fieldAtFault, outcome, standing } from "../views/placing.js";

const ORDER = { order: "TWICE-1", recipe: "FILL", batches: 3, status: "open" };
const CANCELLED = { ...ORDER, status: "cancelled" };

test("a new order is placed", () => {
  assert.deepEqual(outcome(ORDER, null), { text: "Order TWICE-1 is placed: 3 × FILL.", tone: "good" });
});

test("an order that was cancelled before is never told as placed", () => {
  for (const before of [CANCELLED, ORDER, null]) {
    assert.deepEqual(outcome(CANCELLED, before), { text: "TWICE-1 was cancelled; choose another name.", tone: "bad" });
  }
});

test("an order that was there before is told so", () => {
  const { text, tone } = outcome(ORDER, ORDER);
  assert.match(text, /^Order TWICE-1 was placed before: 3 × FILL\./);
  assert.equal(tone, "wait");
});

test("what stands before is the order, or nothing; another fault is none of both", async () => {
  const refused = async () => { throw new Refused(404, 18, "UnknownOrder", false); };
  assert.equal(await standing(async path => (path === "/orders/TWICE-1" ? ORDER : null), "TWICE-1"), ORDER);
  assert.equal(await standing(refused, "TWICE-1"), null);
  await assert.rejects(standing(async () => { throw new Away("away"); }, "TWICE-1"), Away);
  await assert.rejects(standing(async () => { throw new Refused(404, 27, "UnknownLot", false); }, "TWICE-1"), Refused);
});

test("a refusal leads to the field at fault", () => {
  assert.equal(fieldAtFault(new Refused(409, 13, "UnknownRecipe", false)), "recipe");
  for (const error of [new Refused(409, 17, "OrderExists", false), new Refused(409, 39, "LimitReached", false), {}]) assert.equal(fieldAtFault(error), "order");
});
