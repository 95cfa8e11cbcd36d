import assert from "node:assert/strict";
import { readFileSync, readdirSync } from "node:fs";
import test from "node:test";
import { Away, Forbidden, Office, Refused, RESTS, Strange } from "../api.js";
import { known, meaning } from "../refusals.js";
import { isReply } from "../replies.js";
import { read, toHome, toLot, toOrder, toOrders, toPlantLot, toStock } from "../router.js";
import { forget, giveUp, keep, see, seenAt, untilEnd, whoAsks } from "../session.js";
import { compareNumbers, day, dayCount, decimal, isName, lotCount, number, parse, share, time } from "../values.js";

const PAGE = new URL("..", import.meta.url);
const WHO = { owner: "ACME", key: "ACMEKEY1" };
const ORDER = { batches: 2, order: "O-1", recipe: "R", status: "open" };

// The office, asked

const json = (status, value, headers = {}) => new Response(JSON.stringify(value), { status, headers: { "content-type": "application/json", ...headers } });

/** An office that is told these replies, one after another; a function is called. What was asked is in `asked`. */
function office(...replies) {
  const asked = [];
  const rests = [];
  const signs = [];
  const client = new Office({
    fetch: async (path, given) => {
      asked.push([given.method, path, given.headers["toll-owner"], given.body]);
      const reply = replies.length > 1 ? replies.shift() : replies[0];
      return typeof reply === "function" ? reply() : reply.clone();
    },
    rest: async milliseconds => { rests.push(milliseconds); },
    waits: why => { signs.push(why); return () => signs.push("over"); },
  });
  return Object.assign(client, { asked, rests, signs });
}

const away = () => { throw new TypeError("Failed to fetch"); };

test("a reply is given as it is", async () => {
  const client = office(json(200, { orders: [] }));
  assert.deepEqual(await client.ask(WHO, "GET", "/orders"), { orders: [] });
  assert.deepEqual(client.asked, [["GET", "/orders", "ACME", undefined]]);
  assert.deepEqual(client.signs, []);
});

test("503 and 429, and a server that is away, are asked again, each with its sign until it is over", async () => {
  const client = office(json(503, { error: "Unavailable" }), new Response("<html>", { status: 429 }), away, new Response("", { status: 502 }), json(200, { lots: [] }));
  assert.deepEqual(await client.ask(WHO, "GET", "/stock"), { lots: [] });
  assert.equal(client.asked.length, 5);
  // the sign of the busy office is over when that of the office that is away has begun, so that there is one all the time
  assert.deepEqual(client.signs, ["busy", "away", "over", "over"]);
  client.rests.forEach((rest, i) => assert.ok(rest >= RESTS[i] * 0.75 && rest <= RESTS[i] * 1.25));
});

test("retry-after is kept, up to half a minute", async () => {
  const client = office(json(429, {}, { "retry-after": "3" }), json(503, {}, { "retry-after": "900" }), json(200, { lots: [] }));
  await client.ask(WHO, "GET", "/stock");
  assert.deepEqual(client.rests, [3000, 30000]);
});

test("in the end it is told that the office is away", async () => {
  const client = office(away);
  await assert.rejects(client.ask(WHO, "GET", "/stock"), Away);
  assert.equal(client.asked.length, RESTS.length + 1);
  assert.deepEqual(client.signs, ["away", "over"]);
});

test("refusals, a wrong key and what the interface doesn't have are told apart", async () => {
  await assert.rejects(office(json(409, { code: 36, error: "TestsOpen" })).ask(WHO, "POST", "/lots/B-1/release"),
    error => error instanceof Refused && error.code === 36 && error.status === 409 && !error.repeated && error.message === meaning(36, "TestsOpen"));
  await assert.rejects(office(json(403, { error: "Forbidden" })).ask(WHO, "GET", "/stock"), Forbidden);
  const page = (status, text) => new Response(text, { status, headers: { "content-type": "text/html" } });
  const cut = text => new Response(text, { status: 200, headers: { "content-type": "application/json" } });
  const strange = [
    json(404, { error: "NoRoute" }), json(400, { error: "BadRequest" }), json(409, { error: "TestsOpen" }), json(500, { code: 36, error: "TestsOpen" }),
    new Response("", { status: 501 }), page(200, "<html>"), page(200, '{"lots":[]}'), page(403, "<html>Forbidden"), page(404, "<html>"), json(403, {}),
    cut(""), cut("{"), cut('{"lots":['), json(200, null), json(200, []), json(200, {}), json(200, { lots: {} }), json(200, { lots: [null] }), json(200, { orders: [] }),
  ];
  for (const [i, reply] of strange.entries()) await assert.rejects(office(reply).ask(WHO, "GET", "/stock"), Strange, `strange ${i}`);
});

test("each reply of docs/http.md has its form, and no form takes another route's", () => {
  const text = readFileSync(new URL("../docs/http.md", PAGE), "utf8");
  const asked = [...text.matchAll(/^\$ curl -K acme (.*)http:\/\/127\.0\.0\.1:8080(\/\S+)\n(\{.*\}) 200$/gm)]
    .map(([, words, path, reply]) => [/-X POST|-d /.test(words) ? "POST" : "GET", path, parse(reply)]);
  const kinds = new Set(asked.map(([method, path]) => `${method} ${path.replace(/[A-Z]+-\d+|\d+/g, "*")}`));
  assert.equal(kinds.size, 12);
  for (const [method, path, value] of asked) assert.ok(isReply(method, path, value), `${method} ${path}`);
  const [order, lots, lot] = ["/orders/O-1", "/stock", "/lots/S-1"].map(wanted => asked.find(([method, path]) => method === "GET" && path === wanted)[2]);
  for (const [path, value] of [["/orders", order], ["/orders/O-1", lots], ["/stock", lot], ["/lots/S-1", lots], ["/trace/back/S-1", { lots: [] }], ["/nowhere", {}]]) {
    assert.ok(!isReply("GET", path, value), path);
  }
  for (const wrong of [{ lot: "<b>" }, { material: "a" }, { measure: 1 }, { disposition: "fine" }, { origin: "O-1/1/2" }, { results: null }, { sublots: [{ sublot: "A", amount: "x" }] }]) {
    assert.ok(!isReply("GET", "/lots/S-1", { ...lot, ...wrong }), JSON.stringify(wrong));
  }
});

test("a refusal of what was asked twice is none, where it stands as it was asked for", async () => {
  const lost = () => office(away, json(409, { code: 32, error: "NotQuarantined" }));
  assert.equal(await lost().carry(WHO, "/lots/S-1/release", { stands: async () => true }), null);
  await assert.rejects(lost().carry(WHO, "/lots/S-1/release", { stands: async () => false }), Refused);
  await assert.rejects(office(json(409, { code: 32, error: "NotQuarantined" })).carry(WHO, "/lots/S-1/release", { stands: async () => true }), Refused);
});

test("an order is sent as JSON", async () => {
  const client = office(json(200, ORDER));
  await client.carry(WHO, "/orders", { body: { order: "O-1", recipe: "R", batches: 2 } });
  assert.deepEqual(client.asked, [["POST", "/orders", "ACME", '{"order":"O-1","recipe":"R","batches":2}']]);
});

test("at most three are asked at a time, as the site lets an address ask four", async () => {
  let [now, most] = [0, 0];
  const client = new Office({
    fetch: async () => {
      most = Math.max(most, ++now);
      await new Promise(done => setTimeout(done, 2));
      now--;
      return json(200, { lots: [] });
    },
  });
  await Promise.all(Array.from({ length: 25 }, () => client.ask(WHO, "GET", "/stock")));
  assert.equal(most, 3);
  const site = readFileSync(new URL("../packaging/nginx.conf", PAGE), "utf8");
  assert.ok(most < Number(site.match(/limit_conn toll_at_once (\d+);/)[1]));
});

test("what changes something is asked before all that waits to be read", async () => {
  const asked = [];
  const client = new Office({
    fetch: async path => {
      asked.push(path);
      await new Promise(done => setTimeout(done, 2));
      return json(200, path === "/stock" ? { lots: [] } : ORDER);
    },
  });
  const reads = Array.from({ length: 9 }, () => client.ask(WHO, "GET", "/stock"));
  await Promise.all([...reads, client.carry(WHO, "/orders", { body: {} })]);
  assert.equal(asked.indexOf("/orders"), 3);
});

test("what was left is asked no more", async () => {
  const leaving = new AbortController();
  const client = office(() => { leaving.abort(); throw leaving.signal.reason; });
  await assert.rejects(client.ask(WHO, "GET", "/stock", { signal: leaving.signal }), { name: "AbortError" });
  await assert.rejects(client.ask(WHO, "GET", "/stock", { signal: leaving.signal }), { name: "AbortError" });
  assert.equal(client.asked.length, 1);
});

test("what was given up between two tries is asked no more, and not looked up", async () => {
  const over = new AbortController();
  const client = office(() => { over.abort(); throw new TypeError("Failed to fetch"); }, json(409, { code: 32, error: "NotQuarantined" }));
  let looked = false;
  await assert.rejects(client.carry(WHO, "/lots/S-1/release", { signal: over.signal, stands: async () => { looked = true; return true; } }), { name: "AbortError" });
  assert.deepEqual([client.asked.length, looked, client.signs], [1, false, []]);
});

// Who asks

test("a session ends when its owner logs off, and when another logs in", () => {
  const kept = new Map();
  globalThis.sessionStorage = { getItem: name => kept.get(name) ?? null, setItem: (name, text) => kept.set(name, text), removeItem: name => kept.delete(name) };
  const ends = [];
  const begin = () => ends.push(untilEnd());
  begin();
  keep(WHO);
  begin();
  assert.deepEqual([whoAsks(), ends.map(end => end.aborted)], [WHO, [true, false]]);
  keep({ owner: "BOLT", key: "BOLTKEY1" });
  begin();
  assert.deepEqual([whoAsks().owner, ends.map(end => end.aborted)], ["BOLT", [true, true, false]]);
  giveUp();
  begin();
  assert.deepEqual([whoAsks().owner, ends.map(end => end.aborted)], ["BOLT", [true, true, true, false]]);
  see(1234);
  assert.deepEqual([whoAsks(), seenAt()], [{ owner: "BOLT", key: "BOLTKEY1" }, 1234]);
  keep(WHO, 5678);
  assert.deepEqual([whoAsks(), seenAt()], [WHO, 5678]);
  forget();
  see(9999);
  assert.deepEqual([whoAsks(), seenAt(), kept.size, ends.every(end => end.aborted)], [null, 0, 0, true]);
  for (const wrong of ["", "null", "{", "[]", '{"owner":"ACME"}', '{"owner":1,"key":2}']) {
    kept.set("hilpoven", wrong);
    assert.equal(whoAsks(), null, wrong);
  }
  delete globalThis.sessionStorage;
});

// Refusals

test("each refusal of an owner's request has its meaning, by the number and the word of docs/commands.md", () => {
  const rows = readFileSync(new URL("../docs/commands.md", PAGE), "utf8").matchAll(/^- (\d+) (\w+)(?: \((\d+)\))?: /gm);
  const asked = [...rows].filter(([, , , status]) => status).map(([, code, word]) => [Number(code), word]);
  assert.ok(asked.length > 0);
  assert.deepEqual([...known()], asked);
  assert.match(meaning(99, "NewWord"), /NewWord/);
});

// Addresses

test("an address names a view, and what it is about", () => {
  const view = hash => { const route = read(hash); return [route.view, route.name]; };
  assert.deepEqual(view(""), ["home", null]);
  assert.deepEqual(view("#/"), ["home", null]);
  assert.deepEqual(view(toHome({ days: 30 })), ["home", null]);
  assert.deepEqual(view(toOrders()), ["orders", null]);
  assert.deepEqual(view(toOrder("O-1")), ["order", "O-1"]);
  assert.deepEqual(view(toStock({ material: "BRINE" })), ["stock", null]);
  assert.deepEqual(view(toLot("B-1")), ["lot", "B-1"]);
  assert.deepEqual(view(toPlantLot("W-101")), ["plant", "W-101"]);
  assert.equal(read(toStock({ search: "A B", sort: "" })).query.get("search"), "A B");
  assert.equal(toStock({ search: "" }), "#/stock");
});

test("what is no name is in no address", () => {
  for (const hash of ["#/lots/b-1", "#/lots/", "#/lots/-A", "#/lots/A/release", "#/lots/A%2f", "#/lots/ABCDEFGHIJKLMNOPQ", "#/stock/A", "#/nowhere", "#/orders/../stock"]) {
    assert.equal(read(hash).view, "nowhere", hash);
  }
});

// Values

test("numbers that a Number can't hold are kept", () => {
  const parsed = parse('{"lots":[{"amount":123456789012345678,"lot":"A"},{"amount":5,"lot":"1234567890123456"}]}');
  assert.equal(number(parsed.lots[0].amount), "123,456,789,012,345,678");
  assert.equal(parsed.lots[1].lot, "1234567890123456");
  assert.deepEqual(["20", "3", 100].sort(compareNumbers), ["3", "20", 100]);
});

test("numbers and names in words", () => {
  assert.deepEqual([number(1000), number(-5), lotCount(1), lotCount(2000), dayCount(7)], ["1,000", "-5", "1 lot", "2,000 lots", "7 days"]);
  assert.deepEqual([time(15), time(1), time(0.1)], ["15 minutes", "1 minute", "6 seconds"]);
  assert.deepEqual([share(980, 1000), share(9999, 10000), share(1002, 1000), share(0, 7), share("20000000000000000", 1)], ["98 %", "99.9 %", "100.2 %", "0 %", "2,000,000,000,000,000,000 %"]);
  assert.deepEqual([261128, "261128", 100101, 260229, 261301, 101, 20261128].map(day), ["2026-11-28", "2026-11-28", "2010-01-01", "260229", "261301", "101", "20261128"]);
  assert.deepEqual([decimal(1180), decimal(1180, 2), decimal(-5, 2), decimal(123456, 1), decimal("12345678901234567", 3)], ["1,180", "11.80", "-0.05", "12,345.6", "12,345,678,901,234.567"]);
  assert.deepEqual(["A", "A-1", "-A", "a", "", "A".repeat(17), "A/B", 5].map(isName), [true, true, false, false, false, false, false, false]);
});

// The files

test("no file of the page makes HTML of texts, and none has styles or scripts within", () => {
  const files = readdirSync(PAGE, { recursive: true }).filter(file => /\.(js|html)$/.test(file) && !file.startsWith("tests"));
  for (const file of files) {
    const text = readFileSync(new URL(file, PAGE), "utf8");
    assert.doesNotMatch(text, /innerHTML|outerHTML|insertAdjacentHTML|document\.write|DOMParser|\beval\(|new Function|localStorage/, file);
    assert.doesNotMatch(text, /<script(?![^>]*\bsrc=)[^>]*>|<style|\sstyle=|\son\w+="/, file);
  }
});
