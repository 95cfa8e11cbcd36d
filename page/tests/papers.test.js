/** Papers to take: how one is asked for, what is told where none comes, and days. */

import assert from "node:assert/strict";
import { test } from "node:test";

import { fileOf, lastMonth, take } from "../views/papers.js";

const JANE = { owner: "ACME", person: "jane", role: "reads", token: "T" };
const KEY = { owner: "ACME", key: "ACMEKEY1" };
const reply = (status, type) => async () => ({ status, headers: new Headers({ "content-type": type }), blob: async () => new Blob(["%PDF-"]) });

test("a paper is asked for by a person or by the key", async () => {
  const asked = [];
  const fetch = async (path, how) => { asked.push([path, how.headers, how.credentials]); return reply(200, "application/pdf")(); };
  for (const who of [JANE, KEY]) assert.equal((await take(who, "/papers/certificate/B-1", { fetch })).size, 5);
  assert.deepEqual(asked, [
    ["/person/papers/certificate/B-1", { "toll-token": "T" }, "same-origin"],
    ["/papers/certificate/B-1", { "toll-owner": "ACME", "toll-key": "ACMEKEY1" }, "omit"],
  ]);
  assert.equal(fileOf(KEY, "/papers/batch/O-1/2"), "ACME-batch-O-1-2.pdf");
});

test("what isn't a paper is told", async () => {
  const told = { 404: /no such paper/, 429: /being made/, 401: /session is over/, 503: /can't make papers/, 200: /can't make papers/ };
  for (const [status, text] of Object.entries(told)) await assert.rejects(take(KEY, "/papers/certificate/B-1", { fetch: reply(Number(status), "text/html") }), text);
  await assert.rejects(take(KEY, "/papers/certificate/B-1", { fetch: async () => { throw new TypeError("away"); } }), /can't make papers/);
});

test("a statement is of the last month", () => {
  assert.deepEqual(lastMonth(new Date(2026, 0, 15)), ["2025-12-01", "2025-12-31"]);
  assert.deepEqual(lastMonth(new Date(2028, 2, 31)), ["2028-02-01", "2028-02-29"]);
});
