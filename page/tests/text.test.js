/** Every text of the page has a translation, and none stands in the code without one. */

import assert from "node:assert/strict";
import { readFileSync, readdirSync } from "node:fs";
import test from "node:test";
import { bestOf, inline, key, language, phrase, plural, speak, t, word } from "../text.js";
import { DE } from "../texts/de.js";
import { amount, day, decimal, lotCount, number, share } from "../values.js";

const PAGE = new URL("..", import.meta.url);
const isSource = name => name.endsWith(".js") && !name.startsWith("tests/") && !name.startsWith("texts/");
const SOURCES = readdirSync(PAGE, { recursive: true }).filter(isSource).sort().map(name => [name, readFileSync(new URL(name, PAGE), "utf8")]);

/** Their texts are put in the reader's language by whoever shows them (`phrase`). */
const BY_PHRASE = new Set(["api.js"]);

/** What stands in code: comments, literals, and templates with the code in their places. Gives [kind, text, what stands before]. */
function literalsOf(code) {
  const literals = [];
  /** Reads from a place to the brace that closes it; where that is. */
  function read(at) {
    for (let depth = 0; at < code.length; at++) {
      const rest = code.slice(at, at + 2);
      if (rest === "//") at = code.indexOf("\n", at);
      else if (rest === "/*") at = code.indexOf("*/", at) + 1;
      else if (code[at] === '"') {
        const end = code.indexOf('"', at + 1);
        literals.push(["text", code.slice(at + 1, end), code.slice(Math.max(0, at - 24), at)]);
        at = end;
      } else if (code[at] === "'") at = code.indexOf("'", at + 1);
      else if (code[at] === "`") at = template(at);
      else if (code[at] === "/" && /[(,=:[]\s*$/.test(code.slice(Math.max(0, at - 4), at))) at += /^\/(?:\\.|\[(?:\\.|[^\]])*\]|[^/\\\n])+\//.exec(code.slice(at))[0].length - 1;
      else if (code[at] === "{") depth += 1;
      else if (code[at] === "}" && depth-- === 0) return at;
    }
    return at;
  }
  function template(begin) {
    const parts = [""];
    for (let at = begin + 1; ; at++) {
      if (code[at] === "`") {
        literals.push(["template", parts.map((part, i) => (i > 0 ? `{${i - 1}}${part}` : part)).join(""), code.slice(Math.max(0, begin - 24), begin)]);
        return at;
      }
      if (code[at] === "$" && code[at + 1] === "{") {
        at = read(at + 2);
        parts.push("");
      } else parts[parts.length - 1] += code[at];
    }
  }
  read(0);
  return literals;
}

const LITERALS = SOURCES.flatMap(([name, code]) => literalsOf(code).map(([kind, text, before]) => ({ name, kind, text, before })));
const isTagged = ({ kind, before }) => kind === "template" && /\b(?:t|inline|key)$/.test(before);
const PLURALS = SOURCES.flatMap(([, code]) => [...code.matchAll(/plural\([^"]*?"([^"]*)", "([^"]*)"/g)].map(([, one, other]) => [one, other]));
const USED = new Set([...LITERALS.filter(isTagged).map(({ text }) => text), ...PLURALS.map(([, other]) => other)]);

/** What a reader would read: words of a sentence, or a word that begins with a capital letter. */
const isProse = text => /[a-z]{2,} [a-z]{2,}/i.test(text) || /^[A-Z][a-z]{2,}(?![A-Za-z]*[A-Z])/.test(text);
// values of attributes, selectors, and what the browser and the interface call things
const NO_TEXT = [/\b(?:class|d|viewBox|autocomplete|transform|rootMargin): (?:\w+ \? )?$/, /matchMedia\($/, /querySelector(?:All)?\($/, /\.matches\($/];
const WORDS_OF_OTHERS = new Set(["Enter", "Escape", "Hilpoven", "Forbidden", "Wait", "Wrong"]);

test("each text has a German one with the same places, and no other is there", () => {
  const places = text => [...text.matchAll(/\{\d\}/g)].map(String).sort().join();
  const phrases = new Set(LITERALS.filter(({ name }) => BY_PHRASE.has(name)).map(({ text }) => text));
  assert.deepEqual([...USED].filter(name => !(name in DE.texts)).sort(), [], "texts without a translation");
  assert.deepEqual(Object.keys(DE.texts).filter(name => !USED.has(name) && !phrases.has(name)).sort(), [], "translations of no text");
  for (const [name, text] of Object.entries(DE.texts)) {
    for (const form of typeof text === "string" ? [text] : [text.other]) assert.equal(places(form), places(name), name);
    assert.ok(typeof text === "string" || PLURALS.some(([, other]) => other === name), name);
  }
  for (const [, other] of PLURALS) assert.deepEqual(Object.keys(DE.texts[other]).sort(), ["one", "other"], other);
});

/** Headings of files, which stay the same in each language, and a word of the interface. */
const EXPECTED = new Set([
  ...["Opened on", "Closed on"].map(text => `views/order.js: ${text}`),
  ...["Placed on", "Begun on", "Finished on"].map(text => `views/orders.js: ${text}`),
  ...["On hand", "Released", "Quarantined", "Rejected"].map(text => `views/stock.js: ${text}`),
  ...["Steps back", "Steps forward", "On hand"].map(text => `genealogy/words.js: ${text}`),
  "views/lot.js: On hand", "views/releasing.js: On hand", "refusals.js: Rejected",
]);

test("the code has no text that isn't put in the reader's language", () => {
  const plurals = new Set(PLURALS.flat());
  const bare = LITERALS.filter(each => !BY_PHRASE.has(each.name) && !isTagged(each) && isProse(each.text) && !plurals.has(each.text))
    .filter(({ text, before }) => !NO_TEXT.some(form => form.test(before)) && !WORDS_OF_OTHERS.has(text) && !/^[a-z-]+(?: [a-z-]+)*$/.test(text.replace(/\{\d\}/g, "")));
  assert.deepEqual(bare.map(({ name, text }) => `${name}: ${text}`).filter(line => !EXPECTED.has(line)), []);
});

test("what style.css writes has no words, which would be of one language", () => {
  const style = readFileSync(new URL("../style.css", import.meta.url), "utf8").replace(/\/\*.*?\*\//gs, "");
  const written = [...style.matchAll(/content:([^;]*);/g)].flatMap(([, value]) => [...value.matchAll(/"((?:\\[0-9A-F]+|[^"])*)"/g)]).map(([, text]) => text);
  assert.deepEqual(written.filter(text => /[a-z]/i.test(text.replace(/\\[0-9A-F]+/g, ""))), []);
});

test("what others made in English is found by its words", () => {
  const texts = LITERALS.filter(({ name, text }) => BY_PHRASE.has(name) && isProse(text) && !WORDS_OF_OTHERS.has(text) && !/^(?:card|fields)/.test(text));
  speak("de");
  const missing = texts.filter(({ text, before }) => !/autocap\w+: $|pattern: $/.test(before) && phrase(text.replace(/\{\d\}/g, "7 Tage")) === text.replace(/\{\d\}/g, "7 Tage"));
  speak("en");
  assert.deepEqual(missing.map(({ name, text }) => `${name}: ${text}`), []);
});

test("the language is the first that the browser prefers and the page has", () => {
  assert.deepEqual([["de-AT", "en"], ["fr", "de"], ["en-GB", "de"], ["fr"], [], ["DE"]].map(bestOf), ["de", "de", "en", "en", "en", "de"]);
});

test("numbers, days and plurals are those of the language", () => {
  const said = () => [number(1234567), decimal(-70512, 2), share(2003, 2000), day(261128), day(103), lotCount(1), lotCount(2000), amount("12345678901234567", "kg")];
  assert.deepEqual(said(), ["1,234,567", "-705.12", "100.1 %", "2026-11-28", "103", "1 lot", "2,000 lots", "12,345,678,901,234,567 kg"]);
  speak("de");
  assert.deepEqual([said(), language()], [["1.234.567", "-705,12", "100,1 %", "28.11.2026", "103", "1 Charge", "2.000 Chargen", "12.345.678.901.234.567 kg"], "de"]);
  speak("en");
});

test("a value stands as it is, whatever it looks like", () => {
  for (const value of ["{0}", "{1}", "$&", "<b>", "\\", "None."]) {
    assert.equal(t`Order ${value} is cancelled.`, `Order ${value} is cancelled.`);
    assert.deepEqual(inline`${value} is a lot of the plant.`, [value, " is a lot of the plant."]);
    assert.equal(plural(2, "{1} over {0} step", "{1} over {0} steps", value), `${value} over 2 steps`);
  }
  speak("de");
  assert.deepEqual([word("released"), word(key`passes`), word("constructor")], ["released", "besteht", "constructor"]);
  speak("en");
});
