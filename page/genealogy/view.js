/** A lot's genealogy: the picture, what unfolds it, and the same lots as a table. */

import { html } from "../dom.js";
import { chip, PLANTS } from "../chips.js";
import { toLot, toPlantLot } from "../router.js";
import { key, plural, t, word } from "../text.js";
import { amount, lotCount, number, PLANT } from "../values.js";
import { Boxes } from "./boxes.js";
import { picture } from "./draw.js";
import { Frame } from "./frame.js";
import { UNFOLDED } from "./groups.js";
import { layered, upright } from "./layout.js";
import { notedIn } from "./links.js";
import { foldOf, idOf, MOST, waysAsked } from "./lots.js";
import { Words } from "./words.js";

const WAYS = [["back", key`further back`], ["forward", key`further on`]];
const addressOf = lot => (lot.owner === PLANT ? toPlantLot(lot.lot) : toLot(lot.lot));
const LEGEND = ["released", "quarantined", "rejected", PLANTS];

/** Names in the order of their numbers: B-2 before B-10. */
const IN_ORDER = new Intl.Collator("en", { numeric: true }).compare;

/** A phone's width, as in style.css: the layers stand one below another. */
const NARROW = "(max-width: 40rem)";

const withIds = trace => trace.map(row => ({ ...row, id: idOf(row) }));

/**
 * The genealogy of the lot that both traces begin with. `stock` has the owner's lots by name, `records` what the
 * companion tells, or null. The picture is drawn when its edges were read.
 */
export class Genealogy {
  #page;
  #stock;
  #records;
  #boxes;
  #drawing = null;
  #words;
  #frame = new Frame(() => this.#drawTools());
  #tools = html("div", { class: "buttons tools" });
  #sign = html("p", { class: "soft", role: "status" });
  #narrow = matchMedia(NARROW);

  constructor(page, { back, forward, stock, records = null }) {
    [this.#page, this.#stock, this.#records] = [page, stock, records];
    const traces = { back: withIds(back), forward: withIds(forward) };
    this.#boxes = new Boxes(traces, id => this.#kindOf(id), records);
    this.#boxes.know(traces.back[0].id, "back", nextTo(traces.back));
    this.#boxes.know(traces.back[0].id, "forward", nextTo(traces.forward));
    this.#words = new Words(page, { traces, stock, records, addressOf });
    const legend = html("p", { class: "legend" }, LEGEND.map(word => chip(word)),
      records?.links.length > 0 && html("span", { class: "soft" }, t`Dashed arrows are noted by the plant, and aren't recorded consumption.`));
    this.element = html("section", { class: "card genealogy-card" },
      html("h2", {}, t`Where it comes from and where it went`),
      this.#words.direct, html("p", { class: "soft" }, this.#words.summary), this.#tools, this.#sign, this.#frame.element, legend, this.#words.table, this.#words.unprinted);
    this.#narrow.addEventListener("change", () => { this.drawn = this.#redraw(); }, { signal: page.signal });
    this.drawn = this.#redraw();
  }

  // What is shown

  #unfold(shown) {
    this.#boxes.show(shown);
    this.drawn = this.#redraw();
  }

  /** What a click on a fold does: it unfolds, or leads to the table where the picture has no more room. */
  #openFold(way) {
    const shown = this.#boxes.shownAfter(way);
    if (shown[way] > this.#boxes.shown[way]) this.#unfold(shown);
    else this.#words.showTable();
  }

  #openGroup(group) {
    this.#boxes.open(group, UNFOLDED);
    this.drawn = this.#redraw();
  }

  #drawTools() {
    const boxes = this.#boxes;
    const { shown, first, most } = boxes;
    const { hidden } = boxes.placed;
    const does = (name, title, click) => html("button", { type: "button", class: "small", "data-key": name, click }, title);
    const button = (name, title, then) => does(name, title, () => this.#unfold(then));
    const further = WAYS.map(([way, words]) => [way, words, boxes.shownAfter(way)]).filter(([way, , then]) => then[way] > shown[way])
      .map(([way, words, then]) => button(`more-${way}`, t`${number(then[way] - shown[way])} more ${word(words)}`, then));
    const whole = hidden.size === most.back + most.forward - shown.back - shown.forward;
    const all = further.length > 0 && button("all", whole ? t`All ${number(hidden.size)} more` : t`As many as ${MOST}`, most);
    const fewer = (shown.back > first.back || shown.forward > first.forward) && !boxes.isOpened && button("fewer", t`Fewer`, first);
    const folded = boxes.isOpened && does("refold", t`Fold the lots again`, () => {
      boxes.fold();
      this.drawn = this.#redraw();
    });
    const asked = this.#frame.isLarge && does("asked", t`Show ${this.#words.name}`, () => this.#frame.show());
    const scrolls = this.#frame.isLarge && html("p", { class: "soft scrolls" }, t`The picture is larger than its place: scroll it to see the rest.`);
    this.#tools.replaceChildren(...[further, all, fewer, folded, asked, scrolls].flat().filter(Boolean));
  }

  async #redraw() {
    this.#drawing?.abort();
    const drawing = this.#drawing = new AbortController();
    await this.#page.fill(this.#sign, async () => {
      await this.#readNeighbours(drawing.signal);
      if (drawing.signal.aborted) return;
      const focused = this.#focused();
      this.#draw();
      this.#drawTools();
      if (focused && !focused.isConnected) this.#sameAs(focused).focus({ preventScroll: true });
    });
  }

  /** What has the focus in this part of the view. What has it elsewhere keeps it, whatever is drawn here. */
  #focused() {
    const { activeElement } = document;
    return this.element.contains(activeElement) ? activeElement : null;
  }

  /** What does now what this did before the picture was drawn anew; the picture's place, where nothing does. */
  #sameAs({ dataset: { key = "" } }) {
    return this.element.querySelector(`[data-key="${CSS.escape(key)}"]`) ?? this.#frame.element;
  }

  // The edges

  /** Asks for the neighbours of the lots that are shown, as far as they aren't known. What the plant's are made of isn't told. */
  async #readNeighbours(signal) {
    const boxes = this.#boxes;
    const { shown, hidden } = boxes.placed;
    const isKnown = (lot, way) => boxes.isKnown(lot.id, way) || (lot.owner === PLANT && way === "back");
    const asks = shown.flatMap(lot => waysAsked(hidden).filter(way => !isKnown(lot, way)).map(way => [lot, way]));
    let read = 0;
    const showProgress = () => { this.#sign.textContent = read < asks.length ? t`Reading the steps between the lots: ${read} of ${asks.length}` : ""; };
    showProgress();
    await Promise.all(asks.map(async ([lot, way]) => {
      if (signal.aborted) return;
      boxes.know(lot.id, way, nextTo((await this.#page.get(`/trace/${lot.owner === PLANT ? "house" : way}/${lot.lot}`)).lots));
      read += 1;
      if (!signal.aborted) showProgress();
    }));
  }

  // The picture

  #draw() {
    const { asked } = this.#boxes;
    const drawn = this.#boxes.drawn;
    const noted = notedIn(this.#records?.links ?? [], drawn.placeOf, drawn.edges);
    const ids = [...drawn.ids, ...noted.aside.map(row => row.id)].sort(IN_ORDER);
    const isUpright = this.#narrow.matches;
    const layout = (isUpright ? upright : layered)(ids, [...drawn.edges, ...noted.edges], { beside: asked });
    const boxes = new Map(ids.map(id => [id, this.#boxOf(id, drawn)]));
    const isNoted = ({ from, to }) => noted.edges.some(([a, b]) => a === from && b === to);
    const name = plural(boxes.size, "Genealogy of {1}: {0} box", "Genealogy of {1}: {0} boxes", this.#words.name);
    this.#frame.draw(picture(layout, boxes, name, { isUpright, isNoted }), layout, asked);
  }

  #boxOf(id, drawn) {
    const group = drawn.groups.get(id);
    if (group) return this.#groupBox(group);
    const fold = WAYS.find(([way]) => foldOf(way) === id);
    if (fold) return { id, title: t`${number(drawn.countOf(fold[0]))} more`, lines: [word(fold[1])], word: "", fold: () => this.#openFold(fold[0]) };
    const [owner, lot] = id.split("/");
    const common = { id, title: lot, asked: id === this.#boxes.asked, address: addressOf({ owner, lot }) };
    if (owner === PLANT) return { ...common, lines: [t`a lot of the plant`], word: PLANTS, plant: true };
    // a lot that was made after the stock was read has no line in it
    const line = this.#stock.get(lot);
    return { ...common, lines: line ? [line.material, amount(line.amount, line.measure)] : [""], word: line?.disposition ?? "" };
  }

  #groupBox(group) {
    const [owner, first] = group.lots[0].split("/");
    const open = () => this.#openGroup(group);
    const common = { id: group.id, open };
    if (owner === PLANT) return { ...common, title: lotCount(group.lots.length), lines: [t`lots of the plant`], word: PLANTS, plant: true };
    const lines = group.lots.map(id => this.#stock.get(id.split("/")[1]));
    const { material, measure, disposition } = lines[0];
    const whole = lines.reduce((sum, line) => sum + BigInt(line.amount), 0n);
    return { ...common, title: `${number(lines.length)} ${material}`, lines: [this.#records?.makerOf(first) ?? t`lots`, amount(whole, measure)], word: disposition };
  }

  /** What lots of a group share; null of a lot that isn't known. */
  #kindOf(id) {
    const [owner, lot] = id.split("/");
    if (owner === PLANT) return { kind: PLANT };
    const line = this.#stock.get(lot);
    return line ? { kind: `${line.material}, ${line.disposition}`, batch: this.#records?.makerOf(lot) } : null;
  }
}

/** The ids of the lots at one step of a trace. */
const nextTo = trace => trace.filter(row => row.steps === 1).map(idOf);
