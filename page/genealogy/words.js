/** A genealogy in words: the neighbours of the lot that is asked for, what the plant noted, and all lots as a table. */

import { chip, PLANTS } from "../chips.js";
import { downloadButton } from "../csv.js";
import { html, link } from "../dom.js";
import { MOST_PRINTED, table } from "../list.js";
import { inline, plural, t } from "../text.js";
import { amount, lotCount, number, PLANT } from "../values.js";
import { linksOf } from "./links.js";
import { directOf, lotsOf } from "./lots.js";

/** The most lots that are named one by one above the picture. */
const NAMED = 12;

export class Words {
  #page;
  #traces;
  #stock;
  #records;
  #addressOf;

  constructor(page, { traces, stock, records, addressOf }) {
    [this.#page, this.#traces, this.#stock, this.#records, this.#addressOf] = [page, traces, stock, records, addressOf];
    this.direct = this.#direct();
    this.table = this.#table();
  }

  /** The name of the lot that is asked for. */
  get name() { return this.#traces.back[0].lot; }

  get summary() {
    const { back, forward } = this.#traces;
    const sum = trace => (trace.length > 1 ? plural(trace.at(-1).steps, "{1} over {0} step", "{1} over {0} steps", lotCount(trace.length - 1)) : t`none`);
    const sources = back[0].owner === PLANT ? [] : [t`Made of: ${sum(back)}.`];
    return [...sources, t`Went into: ${sum(forward)}.`, t`Arrows lead from a lot to what it went into.`].join(" ");
  }

  /** What stands on paper in place of a folded table that is too long to be printed unasked. */
  get unprinted() {
    return this.table.dataset.rows > MOST_PRINTED && html("p", { class: "on-paper" }, t`The table of the lots isn't printed. Unfold it before you print, to have it on paper.`);
  }

  showTable() {
    this.table.open = true;
    this.table.querySelector("summary").focus();
  }

  /** What the lot was directly made of and directly went into, and what the plant noted of it. */
  #direct() {
    const { back, forward } = this.#traces;
    const part = (title, ...inner) => html("div", {}, html("dt", {}, title), html("dd", {}, ...inner));
    const noted = this.#noted();
    return html("dl", { class: "direct" },
      back[0].owner !== PLANT && part(t`Directly made of`, this.#named(directOf(back))), part(t`Directly went into`, this.#named(directOf(forward))),
      noted.length > 0 && part(t`Noted by the plant`, noted.flatMap((line, i) => [i > 0 && "; ", line])));
  }

  #link(row) {
    const name = link(this.#addressOf(row), row.lot);
    return row.owner === PLANT ? inline`${name} (the plant's)` : name;
  }

  #named(lots) {
    if (lots.length === 0) return t`nothing`;
    const names = lots.slice(0, NAMED).flatMap((row, i) => [i > 0 && ", ", this.#link(row)]);
    const rest = lots.length - NAMED;
    const more = () => html("button", { type: "button", class: "quiet", click: () => this.showTable() }, t`${number(rest)} more`);
    return rest > 0 ? inline`${names} and ${more()}` : names;
  }

  #noted() {
    const { from, into } = linksOf(this.#records?.links ?? [], this.#traces.back[0].id);
    const why = row => row.text && ` (${row.text})`;
    return [...from.map(row => [inline`${row.why} of ${this.#link(row.from)}`, why(row)]), ...into.map(row => [inline`${row.why} into ${this.#link(row.to)}`, why(row)])];
  }

  #table() {
    const { back, forward } = this.#traces;
    const lineOf = row => (row.owner === PLANT ? undefined : this.#stock.get(row.lot));
    const amountOf = line => line && amount(line.amount, line.measure);
    const word = row => (row.owner === PLANT ? PLANTS : lineOf(row)?.disposition);
    const batchOf = row => (row.owner === PLANT ? undefined : this.#records?.makerOf(row.lot));
    const rows = lotsOf(back, forward);
    const columns = [
      { title: t`Lot`, cell: row => link(this.#addressOf(row), row.lot), values: { Lot: row => row.lot, Owner: row => row.owner } },
      { title: t`Steps back`, number: true, cell: row => row.back !== null && number(row.back), values: { "Steps back": row => row.back } },
      { title: t`Steps forward`, number: true, cell: row => row.forward !== null && number(row.forward), values: { "Steps forward": row => row.forward } },
      { title: t`Material`, cell: row => lineOf(row)?.material, values: { Material: row => lineOf(row)?.material } },
      { title: t`On hand`, number: true, cell: row => amountOf(lineOf(row)), values: { "On hand": row => lineOf(row)?.amount, Measure: row => lineOf(row)?.measure } },
      { title: t`Disposition`, cell: row => word(row) && chip(word(row)), values: { Disposition: row => lineOf(row)?.disposition } },
      ...(this.#records ? [{ title: t`Made by`, cell: batchOf, values: { Batch: batchOf } }] : []),
    ];
    return html("details", { "data-rows": rows.length }, html("summary", {}, t`The same as a table`),
      html("div", { class: "buttons" }, downloadButton(this.#page, { file: `${this.name}-genealogy`, title: t`genealogy of ${this.name}` }, columns, () => rows)),
      table({ caption: t`The lots of the genealogy, with their fewest steps`, signal: this.#page.signal, rows, columns }));
  }
}
