import assert from "node:assert/strict";
import { readFileSync } from "node:fs";
import test from "node:test";
import { SHAPES } from "../chips.js";

/** All shapes in a row, each with a hole where something is drawn upon it. */
function sheet() {
  const shapes = Object.values(SHAPES);
  const hole = drawn => (drawn ? `<path d="${drawn}" fill="none" stroke="#000" stroke-width="1.8" stroke-linecap="round" stroke-linejoin="round"/>` : "");
  const masks = shapes.map(([filled, drawn], i) => `<mask id="m${i}"><path d="${filled}" fill="#fff" fill-rule="evenodd"/>${hole(drawn)}</mask>`);
  const places = shapes.map((_, i) => `<g transform="translate(${16 * i} 0)"><rect width="16" height="16" mask="url(#m${i})"/></g>`);
  return `<svg xmlns="http://www.w3.org/2000/svg" viewBox="0 0 ${16 * shapes.length} 16" width="${16 * shapes.length}" height="16">\n${[...masks, ...places].join("\n")}\n</svg>\n`;
}

test("shapes.svg has the shapes of chips, and style.css the place of each", () => {
  assert.equal(readFileSync(new URL("../shapes.svg", import.meta.url), "utf8"), sheet());
  const style = readFileSync(new URL("../style.css", import.meta.url), "utf8");
  const places = [...style.matchAll(/^\.shape-(\w+) \{ --at: (\d+); \}$/gm)].map(([, name, at]) => [name, Number(at)]);
  assert.deepEqual(places, Object.keys(SHAPES).map((name, at) => [name, at]));
});
