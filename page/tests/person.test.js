/** Persons: how their requests go, what comes of a log-in, and what a session keeps. */

import assert from "node:assert/strict";
import { readFileSync } from "node:fs";
import { test } from "node:test";

import { Forbidden, NotAllowed, Office, Refused } from "../api.js";
import { isWho, logInBy, loginOf, logOut, mayOrder, mayRelease, nameOf, wayOf } from "../person.js";
import { settingsOf } from "../settings.js";

const JANE = { owner: "ACME", person: "jane", role: "orders", token: "T" };
const KEY = { owner: "ACME", key: "ACMEKEY1" };
const reply = (status, value) => async () => ({
  status, ok: status === 200, headers: new Headers({ "content-type": "application/json" }), json: async () => value, text: async () => JSON.stringify(value),
});

test("a person's requests carry a token and cookies, and no key", async () => {
  assert.deepEqual(wayOf(JANE, "/stock"), { path: "/person/stock", headers: { "toll-token": "T" }, credentials: "same-origin" });
  assert.deepEqual(wayOf(KEY, "/stock"), { path: "/stock", headers: { "toll-owner": "ACME", "toll-key": "ACMEKEY1" }, credentials: "omit" });
  const asked = [];
  const fetch = async (path, how) => { asked.push([path, how]); return reply(200, { lots: [] })(); };
  await new Office({ fetch }).ask(JANE, "GET", "/stock");
  assert.deepEqual([asked[0][0], asked[0][1].credentials, asked[0][1].headers], ["/person/stock", "same-origin", { "toll-token": "T" }]);
});

test("a session that is over, and a role that doesn't allow it, are told apart", async () => {
  const ask = (status, error) => new Office({ fetch: reply(status, { error }), rest: async () => {} }).ask(JANE, "GET", "/stock");
  await assert.rejects(ask(401, "LogIn"), Forbidden);
  await assert.rejects(ask(403, "NotAllowed"), error => error instanceof NotAllowed && error instanceof Refused && /role/.test(error.message));
});

test("a log-in gives who asks, or says why not", async () => {
  const by = fetch => logInBy({ name: "jane", password: "p" }, { fetch });
  assert.deepEqual(await by(reply(200, { owner: "ACME", name: "jane", role: "orders", token: "T", more: 1 })), JANE);
  await assert.rejects(by(reply(401, { error: "Wrong" })), /The name or the password is wrong/);
  await assert.rejects(by(reply(429, { error: "Wait", seconds: 8 })), /in 8 seconds/);
  const strange = [reply(200, {}), reply(200, { owner: "<b>", name: "jane", role: "orders", token: "T" }), reply(200, { owner: "ACME", name: "jane", role: "all", token: "T" }), reply(503, null)];
  for (const fetch of [...strange, async () => { throw new TypeError("away"); }]) await assert.rejects(by(fetch), /can't log anybody in now/);
});

test("logging out asks the site, of persons alone", () => {
  const asked = [];
  const fetch = async path => { asked.push(path); };
  logOut(JANE, fetch);
  for (const who of [KEY, null]) logOut(who, fetch);
  assert.deepEqual(asked, ["/person/log-out"]);
});

test("what a session keeps is who asks", () => {
  assert.ok(isWho(JANE) && isWho(KEY));
  for (const other of [null, {}, { owner: "ACME" }, { owner: "ACME", person: "jane" }, { key: "K" }, { owner: 1, key: "K" }]) assert.ok(!isWho(other));
  assert.deepEqual([nameOf(JANE), nameOf(KEY), loginOf(JANE), loginOf(KEY)], ["jane, ACME", "ACME", "jane", "ACME"]);
});

test("the site says whether it has persons", () => {
  const shipped = readFileSync(new URL("../../packaging/persons/nginx.conf", import.meta.url), "utf8");
  const parts = /set \$toll_parts '\$toll_parts(,[^']*)';/.exec(shipped)[1];
  assert.equal(settingsOf(JSON.parse(`{"idle_minutes":15${parts}}`)).persons, true);
  for (const persons of [false, 1, "true", null]) assert.equal(settingsOf({ persons }).persons, undefined);
});

test("a role shows what it may, and a key all", () => {
  const offered = [KEY, ...["reads", "orders", "releases", "all", undefined].map(role => ({ ...JANE, role }))].map(who => [mayOrder(who), mayRelease(who)]);
  assert.deepEqual(offered, [[true, true], [false, false], [true, false], [true, true], [false, false], [false, false]]);
});
