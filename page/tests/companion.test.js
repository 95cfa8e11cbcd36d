import assert from "node:assert/strict";
import test from "node:test";
import { Office } from "../api.js";
import { Companion, isCompanion } from "../companion.js";
import { introduce, plantOf, whomToAsk } from "../contact.js";
import { Records } from "../records.js";
import { giveUp } from "../session.js";

const WHO = { owner: "ACME", key: "ACMEKEY1" };
const VALUE = {
  version: 1, owner: "ACME", made: "2026-11-28T18:04:00Z", plant: { name: "Hilltop", contact: "555" },
  full: [{ what: "lots", count: 12, most: 5000 }],
  materials: [{ owner: "ACME", material: "BRINE", measure: "kg", tests: [{ test: "DENSITY", low: -5, high: 1250, unit: "g/l", decimals: 2 }] }, { owner: "HOUSE", material: "WATER", measure: "liter" }],
  recipes: [{ recipe: "BRINE-10", segments: 1, lines: [{ segment: 1, use: "consumed", owner: "HOUSE", material: "WATER", amount: 700 }] }],
  batches: [{ order: "O-1", batch: 1, unit: "KETTLE", state: "running", lines: [{ segment: 1, use: "consumed", owner: "HOUSE", material: "WATER", required: 700, actual: 700 }], lots: ["B-1"] }],
  lots: [{ lot: "B-1", order: "O-1", batch: 1, made: 261128, release: { possible: false, why: [{ test: "DENSITY", reason: "missing" }] }, signed: { day: 261128 }, bounds: [{ test: "DENSITY", value: 5, day: 261128, bound: "below" }] }],
  movements: [{ key: "K3", kind: "actual", day: 261128, lot: "B-1", lotOwner: "ACME", sublot: "TOTE1", amount: 980, material: "BRINE", order: "O-1", batch: 1, segment: 1, use: "produced" }],
  links: [{ from: { owner: "ACME", lot: "B-1" }, to: { owner: "ACME", lot: "C-1" }, why: "rework" }, { from: { owner: "HOUSE", lot: "W-1" }, to: { owner: "ACME", order: "O-1", batch: 1 }, why: "use", text: "seals" }],
  parties: [{ party: "NORD", description: "Nord Foods Ltd", roles: ["customer"] }],
  reasons: [{ command: "hold", order: "O-1", batch: 1, text: "stirrer" }],
};

const reply = (value, mark = '"1"') => new Response(typeof value === "string" ? value : JSON.stringify(value), { headers: { "content-type": "application/json", etag: mark } });
const status = code => new Response(code === 304 ? null : '{"error":"NoRoute"}', { status: code });

/** A companion that is told these replies; `asked` has the mark of each request. */
function companion(replies, options) {
  giveUp();
  const asked = [];
  const office = new Office({
    fetch: async (path, { headers }) => {
      asked.push([path, headers["toll-owner"], headers["if-none-match"]]);
      const next = replies.length > 1 ? replies.shift() : replies[0];
      return typeof next === "function" ? next() : next.clone();
    },
  });
  return Object.assign(new Companion(office, options), { asked });
}

test("a companion of version 1 is one, whatever members it has besides", () => {
  assert.ok(isCompanion(VALUE, "ACME"));
  assert.ok(isCompanion({ ...VALUE, more: {}, lots: [{ ...VALUE.lots[0], colour: "blue" }] }, "ACME"));
  assert.ok(isCompanion({ version: 1, owner: "ACME", made: VALUE.made }, "ACME"));
});

test("anything else is none", () => {
  const change = (list, members) => ({ ...VALUE, [list]: [{ ...VALUE[list][0], ...members }] });
  const wrong = [
    null, [], "text", {}, { ...VALUE, version: 2 }, { ...VALUE, version: "1" }, { ...VALUE, made: "now" }, { ...VALUE, made: undefined }, { ...VALUE, plant: { name: 5 } }, { ...VALUE, lots: {} }, { ...VALUE, lots: [null] },
    { ...VALUE, owner: "BOLT" }, change("materials", { material: "<b>" }), change("materials", { tests: [{ test: "DENSITY", low: 1 }] }), change("batches", { state: "fine" }), change("batches", { lots: ["b"] }),
    change("lots", { release: {} }), change("lots", { release: { possible: false, why: [{}] } }), change("movements", { amount: 1.5 }), change("movements", { voided: "no" }), change("movements", { lot: "../A" }),
    change("links", { from: "B-1" }), change("links", { to: { owner: "ACME" } }), change("links", { why: null }), change("parties", { party: 5 }), change("reasons", { text: undefined }), change("lots", { held: {} }), { ...VALUE, owner: null },
  ];
  for (const [i, value] of wrong.entries()) assert.ok(!isCompanion(value, "ACME"), `wrong ${i}`);
});

test("it is read once for a session, and again by its mark", async () => {
  const reader = companion([reply(VALUE), status(304), reply({ ...VALUE, plant: {} }, '"2"'), status(304)]);
  assert.equal((await reader.records(WHO)).made, VALUE.made);
  assert.equal((await reader.records(WHO)).made, VALUE.made);
  assert.deepEqual(reader.asked, [["/companion", "ACME", undefined]]);
  reader.expire();
  assert.equal((await reader.records(WHO)).plant.name, "Hilltop");
  assert.equal(await reader.read(WHO), true);
  assert.equal(await reader.read(WHO), false);
  assert.deepEqual(reader.asked.slice(1).map(([, , mark]) => mark), ['"1"', '"1"', '"2"']);
  assert.deepEqual(reader.last.plant, {});
});

test("what was only written anew is no change", async () => {
  const reader = companion([reply(VALUE), reply({ ...VALUE, made: "2026-11-28T18:05:00Z" }, '"2"')]);
  assert.equal(await reader.read(WHO), true);
  assert.equal(await reader.read(WHO), false);
  assert.equal(reader.last.made, "2026-11-28T18:05:00Z");
});

test("where there is none, none is there; what is foreign or another's is none", async () => {
  for (const other of [status(404), status(403), reply("<html>"), reply({ ...VALUE, version: 2 }), reply({ ...VALUE, owner: "BOLT" }), reply('{"version":1,'), reply("")]) {
    assert.equal(await companion([other]).records(WHO), null);
    const reader = companion([reply(VALUE), other]);
    await reader.read(WHO);
    assert.equal(await reader.read(WHO), true);
    assert.equal(reader.last, null);
  }
});

test("where the site is busy or away, what was read stays, and nothing is asked again by itself", async () => {
  for (const trouble of [status(503), status(429), status(502), () => { throw new TypeError("Failed to fetch"); }]) {
    const reader = companion([reply(VALUE), trouble]);
    await reader.read(WHO);
    assert.equal(await reader.read(WHO), false);
    assert.equal(reader.last.owner, "ACME");
    assert.equal(reader.asked.length, 2);
  }
});

test("the next session has nothing of it, and what comes after its end is dropped", async () => {
  const reader = companion([reply(VALUE)]);
  await reader.read(WHO);
  giveUp();
  assert.equal(reader.last, null);
  const late = companion([async () => { giveUp(); return reply(VALUE); }]);
  assert.equal(await late.read(WHO), false);
  assert.equal(late.last, null);
});

test("a view doesn't wait for what comes late, and is told when it is there", async () => {
  let [answer, isLate] = [null, 0];
  const reader = companion([() => new Promise(done => { answer = () => done(reply(VALUE)); })], { late: () => { isLate += 1; }, patience: async () => {} });
  assert.equal(await reader.records(WHO), null);
  assert.equal(isLate, 0);
  answer();
  await new Promise(done => setTimeout(done, 5));
  assert.equal(isLate, 1);
  assert.equal(reader.last.owner, "ACME");
});

test("the plant's name is the companion's, else the site's", () => {
  assert.deepEqual(plantOf({ name: "A", address: "", contact: 5, more: "B" }), { name: "A" });
  introduce({}, null);
  assert.equal(whomToAsk(), "");
  introduce({ plant: { name: "Site", contact: "111" } }, { last: null });
  assert.equal(whomToAsk(), "If it stays so, ask Site: 111.");
  introduce({ plant: { name: "Site", contact: "111" } }, { last: new Records(VALUE) });
  assert.equal(whomToAsk(), "If it stays so, ask Hilltop: 555.");
  introduce({ plant: { contact: "111" } }, null);
  assert.equal(whomToAsk(), "If it stays so, ask the plant: 111.");
});
