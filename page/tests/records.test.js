import assert from "node:assert/strict";
import test from "node:test";
import { Records } from "../records.js";
import { newsOf } from "../views/home.js";

const actual = (use, lot, segment, members = {}) => ({ key: "K", kind: "actual", day: 261128, lotOwner: "ACME", lot, sublot: "A", amount: 1, material: "M", order: "O-1", batch: 1, segment, use, ...members });
const records = (movements, members = {}) => new Records({ version: 1, owner: "ACME", made: "2026-11-28T18:04:00Z", movements, ...members });

test("a batch leads from what a segment consumed to what the same or a later one produced", () => {
  const recorded = records([
    actual("consumed", "S", 1), actual("consumed", "W", 2, { lotOwner: "HOUSE" }), actual("produced", "I", 1), actual("consumed", "I", 2), actual("produced", "P", 2),
    actual("consumed", "X", 1, { voided: true }), actual("consumed", "S", 1, { order: "O-2" }), actual("produced", "Q", 1, { order: "O-2" }),
  ]);
  const around = id => { const { back, forward } = recorded.neighboursOf(id); return [back.sort(), forward.sort()]; };
  assert.deepEqual(around("ACME/S"), [[], ["ACME/I", "ACME/P", "ACME/Q"]]);
  assert.deepEqual(around("HOUSE/W"), [[], ["ACME/P"]]);
  assert.deepEqual(around("ACME/P"), [["ACME/I", "ACME/S", "HOUSE/W"], []]);
  assert.deepEqual(around("ACME/X"), [[], []]);
  assert.deepEqual(around("ACME/NOWHERE"), [[], []]);
});

test("a lot's lowest segment that consumed and highest that produced count", () => {
  const recorded = records([actual("consumed", "S", 3), actual("consumed", "S", 1), actual("produced", "P", 1), actual("produced", "P", 2), actual("consumed", "T", 3)]);
  assert.deepEqual(recorded.neighboursOf("ACME/P").back, ["ACME/S"]);
});

test("lists that are left out are empty", () => {
  const recorded = new Records({ version: 1, owner: "ACME", made: "2026-11-28" });
  assert.deepEqual([recorded.batches, recorded.links, recorded.movements, recorded.plant, recorded.lot("A"), recorded.testsOf("A"), recorded.makerOf("A"), recorded.shipmentsOf("A")], [[], [], [], {}, undefined, undefined, undefined, []]);
  assert.deepEqual(records([], { materials: [{ owner: "ACME", material: "M", measure: "kg" }] }).testsOf("M"), []);
});

test("a link to a batch is one to each lot that it made", () => {
  const link = to => ({ from: { owner: "HOUSE", lot: "W" }, to, why: "use" });
  const recorded = records([], {
    batches: [{ order: "O-1", batch: 2, unit: "U", state: "running", lots: ["A", "B"] }],
    links: [link({ owner: "ACME", order: "O-1", batch: 2 }), link({ owner: "ACME", order: "O-1", batch: 3 }), link({ owner: "ACME", lot: "C" })],
  });
  assert.deepEqual(recorded.links.map(row => row.to), [{ owner: "ACME", lot: "A" }, { owner: "ACME", lot: "B" }, { owner: "ACME", lot: "C" }]);
});

test("parties have their full names, and the last reason counts", () => {
  const recorded = records([], { parties: [{ party: "NORD", description: "Nord Foods Ltd" }, { party: "SUD" }], reasons: [{ command: "hold", order: "O", batch: 1, text: "a" }, { command: "hold", order: "O", batch: 1, text: "b" }] });
  assert.deepEqual(["NORD", "SUD", "WEST"].map(name => recorded.partyOf(name)), ["Nord Foods Ltd (NORD)", "SUD", "WEST"]);
  assert.deepEqual([recorded.reasonFor({ order: "O", batch: 1 }), recorded.reasonFor({ order: "O", batch: 2 })], ["b", undefined]);
});

test("shipments are those of the owner's lot, not of the plant's of the same name", () => {
  const ship = members => ({ key: "K", kind: "shipment", day: 261128, lot: "A", lotOwner: "ACME", sublot: "S", amount: 5, material: "M", ...members });
  const recorded = records([ship({ to: "North" }), ship({ lotOwner: "HOUSE" }), ship({ lot: "B" })]);
  assert.deepEqual(recorded.shipmentsOf("A").map(row => row.to), ["North"]);
});

test("news are what was received, made, shipped and scrapped on the last days, the latest first", () => {
  const move = (kind, day, members = {}) => ({ key: kind, kind, day, lot: `${kind}-${day}`, lotOwner: "ACME", sublot: "S", amount: 1, material: "M", ...members });
  const recorded = records([
    move("receipt", 261121), move("receipt", 261123), move("receipt", 261122), move("split", 261127), move("actual", 261127, { use: "consumed", order: "O", batch: 1 }), move("actual", 261128, { use: "produced", order: "O", batch: 1 }),
    move("shipment", 261128), move("scrap", 261128, { voided: true }), move("receipt", 999999), move("receipt", 103),
  ]);
  assert.deepEqual(newsOf(recorded, 7, new Date(2026, 10, 28)).map(row => row.lot), ["shipment-261128", "actual-261128", "receipt-261123", "receipt-261122"]);
  assert.deepEqual(newsOf(recorded, 1, new Date(2026, 10, 28)).length, 2);
});
