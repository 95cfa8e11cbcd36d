/** What is told: the sign that the page waits, what was done, and what went wrong. */

import { Away, Refused } from "./api.js";
import { whomToAsk } from "./contact.js";
import { html } from "./dom.js";
import { phrase, t } from "./text.js";

const SIGNS = {
  busy: () => t`The office is busy. The page asks again by itself.`,
  away: () => t`The office can't be reached. The page asks again by itself.`,
};

const at = id => document.getElementById(id);

const waiting = [];

/** Shows that the page waits, "busy" or "away", until what is given is called. */
export function waits(why) {
  const wait = { why };
  waiting.push(wait);
  // what is over at once is worth no sign
  const shown = setTimeout(drawSign, 250);
  return () => {
    clearTimeout(shown);
    waiting.splice(waiting.indexOf(wait), 1);
    if (waiting.length === 0) drawSign();
  };
}

function drawSign() {
  const last = waiting.at(-1);
  const sign = () => html("p", { class: "notice wait" }, html("span", { class: "turning", "aria-hidden": "true" }), [SIGNS[last.why](), last.why === "away" && whomToAsk()].filter(Boolean).join(" "));
  at("sign").replaceChildren(...(last ? [sign()] : []));
}

/** Says what was done ("good"), what is to be noticed ("wait"), or what went wrong ("bad"), in place of what was told before. */
export function tell(text, tone = "good") {
  const notice = () => html("div", { class: `notice ${tone}` }, html("p", {}, text),
    html("button", { type: "button", class: "close", "aria-label": t`Close this notice`, click: () => tell("") }, "×"));
  at("told").replaceChildren(...(text && tone !== "bad" ? [notice()] : []));
  at("wrong").replaceChildren(...(text && tone === "bad" ? [notice()] : []));
}

/** Says that the owner is logged off soon, or no more. */
export function warnIdle(isWarned) {
  const notice = () => html("p", { class: "notice wait" }, t`You did nothing for a while, and are logged off within a minute. Press a key or click to stay.`);
  at("idle").replaceChildren(...(isWarned ? [notice()] : []));
}

/** What is said of an error, its number and word too where the office refused. */
export const wordsOf = error => (error instanceof Refused && error.code > 0 ? [error.message, " ", html("small", {}, `${error.code} ${error.word}`)] : phrase(error.message));

/** What stands in the place of what couldn't be read. A refusal stays one, all else may be asked again. */
export const failed = (error, again) => html("div", { class: "failed" }, html("p", {}, wordsOf(error)), error instanceof Away && html("p", {}, whomToAsk()),
  !(error instanceof Refused) && html("button", { type: "button", click: again }, t`Ask again`));
