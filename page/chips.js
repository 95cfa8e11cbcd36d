/** States and dispositions: each by a word, a shape and a colour, so that none of them is needed alone. */

import { html, svg } from "./dom.js";
import { key, word as textOf } from "./text.js";

/** The word of the plant's own lots. */
export const PLANTS = key`the plant's`;

/** The shapes, in a square of 16 by 16: the paths that are filled, and those that are drawn upon them. */
export const SHAPES = {
  tick: ["M8 1a7 7 0 1 1 0 14a7 7 0 1 1 0-14z", "M4.8 8.2l2.3 2.4l4.2-4.8"],
  diamond: ["M8 .6L15.4 8L8 15.4L.6 8z", "M8 4.6v4M8 10.8v.6"],
  cross: ["M2 1.5h12a.5.5 0 0 1 .5.5v12a.5.5 0 0 1-.5.5h-12a.5.5 0 0 1-.5-.5v-12a.5.5 0 0 1 .5-.5z", "M5 5l6 6M11 5l-6 6"],
  ring: ["M8 1a7 7 0 1 1 0 14a7 7 0 1 1 0-14zM8 4a4 4 0 1 0 0 8a4 4 0 1 0 0-8z", ""],
  play: ["M3 1.2L14.5 8L3 14.8z", ""],
  bars: ["M2.5 1.5h4v13h-4zM9.5 1.5h4v13h-4z", ""],
  square: ["M2 2h12v12h-12z", ""],
  dash: ["M8 1a7 7 0 1 1 0 14a7 7 0 1 1 0-14z", "M4.6 8h6.8"],
  house: ["M8 1L15 7.2V15H1V7.2z", "M6.2 14V9.6h3.6V14"],
};

/** The tone and the shape of each word. */
const WORDS = {
  released: ["good", "tick"], quarantined: ["wait", "diamond"], rejected: ["bad", "cross"],
  open: ["live", "ring"], finished: ["good", "tick"], cancelled: ["calm", "dash"], closed: ["calm", "square"],
  idle: ["calm", "ring"], running: ["live", "play"], restarting: ["live", "play"], complete: ["good", "tick"],
  pausing: ["wait", "bars"], paused: ["wait", "bars"], holding: ["wait", "bars"], held: ["wait", "bars"],
  stopping: ["calm", "square"], stopped: ["calm", "square"], aborting: ["bad", "cross"], aborted: ["bad", "cross"],
  [PLANTS]: ["calm", "house"],
  ready: ["good", "tick"], "not ready": ["wait", "diamond"], refused: ["bad", "cross"], "not known": ["wait", "diamond"], "not asked": ["calm", "dash"],
  passes: ["good", "tick"], "below its limit": ["bad", "cross"], "above its limit": ["bad", "cross"], "no result yet": ["wait", "diamond"],
};

/** The tone of a word: the name of its colours in style.css. */
export const toneOf = word => WORDS[word]?.[0] ?? "calm";

/** The shape of a word, at a place of a picture. */
export function shape(word, x = 0, y = 0) {
  const [filled, upon] = SHAPES[WORDS[word]?.[1] ?? "ring"];
  return svg("g", { class: "shape", transform: `translate(${x} ${y})` },
    svg("path", { class: "filled", "fill-rule": "evenodd", d: filled }), upon && svg("path", { class: "drawn", d: upon }));
}

const drawn = new Map();

/**
 * A word with its shape and colour: a copy, since a long list has few words. The shape is a part of shapes.svg by style.css:
 * an element of SVG in each row would take most of the time in which the list is drawn.
 */
export function chip(word) {
  if (!drawn.has(word)) drawn.set(word, html("span", { class: `chip ${toneOf(word)} shape-${WORDS[word]?.[1] ?? "ring"}` }, textOf(word)));
  return drawn.get(word).cloneNode(true);
}
