import assert from "node:assert/strict";
import { readFileSync } from "node:fs";
import test from "node:test";
import { IdleWatch, stateOf } from "../idle.js";
import { DEFAULTS, readSettings, settingsOf } from "../settings.js";

const MINUTE = 60_000;

/** A watch over a window in which somebody is logged in, with a clock that is set by hand. */
function window(minutes, seen = 0) {
  const opened = { now: seen, seen, isOn: true, events: [] };
  opened.watch = new IdleWatch({
    minutes,
    session: { isOn: () => opened.isOn, seenAt: () => opened.seen, see: now => { opened.seen = now; } },
    warn: isWarned => opened.events.push(isWarned ? "warned" : "not warned"),
    end: () => { opened.isOn = false; opened.events.push("over"); },
    now: () => opened.now,
  });
  opened.at = minutesLater => { opened.now = minutesLater * MINUTE; return opened.watch; };
  return opened;
}

test("who does nothing is warned a minute before, and logged off", () => {
  const opened = window(15);
  for (const minutes of [1, 13.9, 14, 14.5, 15, 16]) opened.at(minutes).look();
  assert.deepEqual(opened.events, ["warned", "over", "not warned"]);
});

test("a key or a click begins anew, also after the warning", () => {
  const opened = window(15);
  opened.at(10).touch();
  opened.at(24.5).look();
  opened.at(24.6).touch();
  opened.at(38).look();
  assert.deepEqual(opened.events, ["warned", "not warned"]);
  opened.at(39.6).look();
  assert.deepEqual(opened.events.slice(2), ["over"]);
});

test("what is done after the end, as when a machine wakes up, is no way back", () => {
  const opened = window(15);
  opened.at(600).touch();
  assert.deepEqual([opened.events, opened.isOn, opened.seen], [["over"], false, 0]);
});

test("a window that is brought back after the time isn't shown", () => {
  const opened = window(15, 5 * MINUTE);
  opened.now = 21 * MINUTE;
  assert.equal(opened.watch.look(), false);
  assert.equal(window(15).watch.look(), true);
});

test("nobody is logged off where nobody is logged in, nor where the site sets 0", () => {
  const off = window(15);
  off.isOn = false;
  off.at(100).look();
  off.at(101).touch();
  const never = window(0);
  never.at(10_000).look();
  assert.deepEqual([off.events, never.events, off.seen], [[], [], 0]);
});

test("a time below two minutes warns half way", () => {
  assert.deepEqual([0, 2.9, 3, 5.9, 6].map(seconds => stateOf(seconds * 1000, 6000)), ["active", "active", "warned", "warned", "over"]);
});

test("settings that are none are as if there were none", () => {
  assert.deepEqual(settingsOf({ idle_minutes: 5 }), { idleMinutes: 5 });
  assert.deepEqual(settingsOf({ idle_minutes: 0 }), { idleMinutes: 0 });
  for (const unusable of [null, [], "15", {}, { idle_minutes: -1 }, { idle_minutes: "5" }, { idle_minutes: null }, { idle_minutes: Infinity }]) assert.deepEqual(settingsOf(unusable), DEFAULTS);
});

test("the settings are read from the site, and where they can't be, the page goes on", async () => {
  const reply = (text, status = 200) => async () => new Response(text, { status });
  assert.deepEqual(await readSettings(reply('{"idle_minutes":3}')), { idleMinutes: 3 });
  for (const fetch of [reply("<html>", 404), reply("{"), reply('{"idle_minutes":3}', 500), async () => { throw new TypeError("Failed to fetch"); }]) {
    assert.deepEqual(await readSettings(fetch), DEFAULTS);
  }
});

test("the site's setting is what the page has where there is none", () => {
  const site = readFileSync(new URL("../../packaging/nginx.conf", import.meta.url), "utf8");
  const [, text] = site.match(/location = \/owner\/settings\.json {[^}]*return 200 '(.*)';/);
  assert.deepEqual(settingsOf(JSON.parse(text.replace("$toll_parts", ""))), DEFAULTS);
});
