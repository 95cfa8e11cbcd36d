/** An actual beside what is required, as a bar. */

import { html, svg } from "./dom.js";
import { t } from "./text.js";
import { number, share } from "./values.js";

const LONG = 120;
const HIGH = 10;

/** A bar as long as the larger of the two, with a mark where what is required ends. */
export function bar({ actual, required }) {
  const whole = Math.max(Number(actual), Number(required));
  const at = value => Math.round((Number(value) / whole) * LONG * 10) / 10;
  const over = BigInt(actual) > BigInt(required);
  return html("span", { class: "share" },
    svg("svg", { viewBox: `0 0 ${LONG} ${HIGH}`, width: LONG, height: HIGH, preserveAspectRatio: "none", role: "img", "aria-label": t`${number(actual)} of ${number(required)}` },
      svg("rect", { class: "required", width: at(required), height: HIGH, rx: 2 }),
      svg("rect", { class: "actual", width: at(over ? required : actual), height: HIGH, rx: 2 }),
      over && svg("rect", { class: "beyond", x: at(required), width: LONG - at(required), height: HIGH }),
      over && svg("path", { class: "end", d: `M${at(required)} 0V${HIGH}` })),
    html("span", { class: "percent" }, share(actual, required)));
}
