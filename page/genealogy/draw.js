/** Draws the picture of a genealogy. */

import { shape, toneOf } from "../chips.js";
import { svg } from "../dom.js";
import { t } from "../text.js";
import { SIZES } from "./layout.js";

const TIP = 7;
const TURN = 24;
const LINE = 30;

/** Some eight layers: what is wider can't be read on a sheet. */
const WIDEST_ON_PAPER = 2200;

/**
 * The picture. `layout` is what layered gives; `boxes` has of each id what stands in its box: title, lines,
 * word (its disposition, or that it is the plant's), address where it leads somewhere, `asked`, and what a click does
 * on a box that stands for others: `fold`, or `open` of a group. `isNoted(edge)`: it is noted, not recorded.
 */
export function picture(layout, boxes, name, { isUpright = false, isNoted = () => false } = {}) {
  const { width, height } = layout;
  const axis = isUpright ? 1 : 0;
  const isWide = width > WIDEST_ON_PAPER;
  return svg("svg", { class: `genealogy${isWide ? " wide" : ""}`, viewBox: `0 0 ${width} ${height}`, width, height, role: "group", "aria-label": name },
    svg("g", { class: "edges", "aria-hidden": "true" }, layout.edges.map(laidEdge => edge(laidEdge, boxes, axis, isNoted(laidEdge)))),
    [...layout.boxes].map(([id, at]) => box(boxes.get(id), at)));
}

/**
 * A curve between two layers stays between them: its control points lie half way, or before a layer where it turns
 * round. `axis` is the direction of the layers: 0 from left to right, 1 downwards.
 */
export function curve(path, axis = 0) {
  return `M${path[0].join(" ")}${path.slice(1).map((to, i) => {
    if (i % 2 === 1) return `L${to.join(" ")}`;
    const half = halfWay(path[i][axis], to[axis]);
    const control = point => point.map((value, at) => (at === axis ? half : value)).join(" ");
    return `C${control(path[i])} ${control(to)} ${to.join(" ")}`;
  }).join("")}`;
}

/** Where the control points of a curve lie: a curve that turns round stays within the margin. */
export const halfWay = (from, to) => (from === to ? from - TURN : (from + to) / 2);

function edge({ from, to, path }, boxes, axis, isNoted) {
  const near = boxes.get(from)?.asked || boxes.get(to)?.asked;
  const dashed = boxes.get(from)?.fold || boxes.get(to)?.fold;
  const [before, last] = path.slice(-2);
  const kind = `edge${near ? " near" : ""}${dashed ? " folded" : ""}${isNoted ? " noted" : ""}`;
  return svg("g", { class: kind, "data-from": boxes.get(from)?.id, "data-to": boxes.get(to)?.id },
    svg("path", { class: "way", d: curve(path, axis) }),
    svg("path", { class: "tip", d: tip(last, last[axis] < before[axis] ? -TIP : TIP, axis) }));
}

/** The head of an arrow that comes from so far before the point where it ends. */
const tip = ([x, y], long, axis) => (axis === 0 ? `M${x} ${y}l${-long} -4v8z` : `M${x} ${y}l-4 ${-long}h8z`);

function box(content, at) {
  const kind = content.fold ? "fold" : `${content.open ? "group " : ""}${toneOf(content.word)}${content.plant ? " plant" : ""}${content.asked ? " asked" : ""}`;
  const name = [content.title, ...content.lines, !content.plant && content.word, content.asked && t`the lot that was asked for`, content.open && t`shows its lots`].filter(Boolean).join(", ");
  const inner = [outline(content, at), content.fold ? folded(content, at) : written(content, at)];
  const given = { class: `box ${kind}`, "aria-label": name, "data-id": content.id, "data-key": content.id };
  const act = content.fold ?? content.open;
  if (act) return svg("g", { ...given, role: "button", tabindex: 0, click: act, keydown: pressed(act) }, content.open && stack(at), inner);
  return content.asked ? svg("g", { ...given, role: "img", "aria-current": "true" }, inner) : svg("a", { ...given, href: content.address }, inner);
}

/** What a key does that has the focus on a fold or a group: as with a button, Enter and space open it. */
const pressed = act => event => {
  if (!["Enter", " "].includes(event.key)) return;
  event.preventDefault();
  act();
};

/** What shows behind a group's box: another one. */
const stack = ({ x, y }) => svg("rect", { class: "stack", x: x + 4, y: y + 4, width: SIZES.width, height: SIZES.height, rx: 7 });

/** The plant's lots have their corners cut off, so that they are told apart without colours. */
function outline(content, { x, y }) {
  const { width, height } = SIZES;
  if (!content.plant) return svg("rect", { class: "outline", x, y, width, height, rx: 7 });
  const cut = 11;
  const [right, bottom] = [width - 2 * cut, height - 2 * cut];
  return svg("path", { class: "outline", d: `M${x + cut} ${y}h${right}l${cut} ${cut}v${bottom}l${-cut} ${cut}h${-right}l${-cut} ${-cut}v${-bottom}z` });
}

function written(content, { x, y }) {
  return [
    shape(content.word, x + 11, y + 9),
    svg("text", { class: "title", x: x + 34, y: y + 22 }, content.title),
    svg("text", { x: x + 11, y: y + 40 }, content.lines[0]),
    !content.plant && svg("text", { class: "word", x: x + 11, y: y + 57 }, lastLine(content)),
    content.asked && flag(x, y),
  ];
}

/** The disposition, and how much is on hand where there is room for it. */
function lastLine({ word, lines: [, amount] }) {
  const whole = amount ? `${word}, ${amount}` : word;
  return whole.length <= LINE ? whole : word;
}

const flag = (x, y) => svg("g", { class: "flag", "aria-hidden": "true" },
  svg("rect", { x: x + SIZES.width - 66, y: y - 10, width: 58, height: 18, rx: 9 }),
  svg("text", { x: x + SIZES.width - 37, y: y + 3, "text-anchor": "middle" }, t`this lot`));

const folded = (content, { x, y }) => [
  svg("text", { class: "title", x: x + SIZES.width / 2, y: y + 30, "text-anchor": "middle" }, content.title),
  svg("text", { x: x + SIZES.width / 2, y: y + 48, "text-anchor": "middle" }, content.lines[0]),
];
