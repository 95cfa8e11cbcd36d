/** Lists: tables that are searched, filtered, sorted and drawn in parts. */

import { downloadButton } from "./csv.js";
import { html, put } from "./dom.js";
import { t, word } from "./text.js";
import { number } from "./values.js";

/** How many rows a part has. Parts out of sight are in the document, and cost neither style nor layout: style.css. */
const PART = 50;

/** How many rows are drawn before the page may answer in between. */
const AT_ONCE = 1000;

/** The most rows of a table that is printed although it is folded on the screen: some four sheets. */
export const MOST_PRINTED = 100;

/** The option of a choice that hides nothing. */
const ALL = "all";

/** How long a search rests before it is asked elsewhere, in milliseconds. */
const TYPING = 400;

const nextTask = () => new Promise(done => setTimeout(done, 0));

/**
 * The rows of a table, which all stand in the document, so that they are found, printed, read out and reached by keys: the
 * first ones at once, the others while the page answers in between. `lineOf(row)` draws a row, or gives that it drew before.
 */
class Rows {
  #table;
  #lineOf;
  #waiting = [];
  #turn = null;

  constructor(tableElement, lineOf) {
    [this.#table, this.#lineOf] = [tableElement, lineOf];
  }

  /** Shows these rows in place of those before. Ends where all stand there, or others are to be shown. */
  async show(rows, signal) {
    const turn = this.#turn = {};
    [...this.#table.tBodies].forEach(part => part.remove());
    this.#waiting = rows;
    this.#drawNow(2 * PART);
    const drawAll = () => this.#drawNow(Infinity);
    addEventListener("beforeprint", drawAll);
    while (this.#waiting.length > 0 && !signal?.aborted && turn === this.#turn) {
      await nextTask();
      if (turn === this.#turn) this.#drawNow(AT_ONCE);
    }
    removeEventListener("beforeprint", drawAll);
  }

  #drawNow(count) {
    const rows = this.#waiting.slice(0, count);
    this.#waiting = this.#waiting.slice(count);
    for (let at = 0; at < rows.length; at += PART) {
      const lines = rows.slice(at, at + PART).map(this.#lineOf);
      const part = html("tbody", { role: "rowgroup" }, lines);
      part.style.setProperty("--rows", lines.length);
      this.#table.append(part);
    }
  }
}

/** A table. Columns have a title and a cell of a row; numbers stand to the right. */
export function table({ caption, columns, rows, signal }) {
  const place = frame(caption, columns.map(column => head(column, column.title)));
  const empty = emptyLine(columns);
  new Rows(place.firstChild, row => line(empty, columns, row)).show(rows, signal);
  return place;
}

const classOf = column => (column.number ? "number" : column.acts ? "acts" : column.picks && "picks");

const head = (column, ...inner) => html("th", { scope: "col", role: "columnheader", class: classOf(column) }, ...inner);

const frame = (caption, heads) => html("div", { class: "table" }, html("table", { role: "table" },
  html("caption", { class: "unseen" }, caption),
  html("thead", { role: "rowgroup" }, html("tr", { role: "row" }, heads))));

const givenOf = column => ({ class: classOf(column), "data-title": typeof column.title === "string" && column.title });

/** A row without what is in its cells. Its head is the first cell that names it. Where cells stand in blocks, each begins with its column's title. */
function emptyLine(columns) {
  const named = columns.findIndex(column => !column.picks);
  return html("tr", { role: "row" }, columns.map((column, i) => (i === named ? html("th", { role: "rowheader", scope: "row", ...givenOf(column) }) : html("td", { role: "cell", ...givenOf(column) }))));
}

/** A row: a copy of the empty one, which is drawn once for a list, with what is in its cells. */
function line(empty, columns, row, className) {
  const copy = empty.cloneNode(true);
  if (className) copy.className = className;
  for (let at = 0, cell = copy.firstChild; cell; at++, cell = cell.nextSibling) put(cell, columns[at].cell(row));
  return copy;
}

/**
 * A list of many rows with a field to search, choices, and heads that sort. What is searched, chosen and
 * sorted stands in the page's address, so that reload and the back button bring it back.
 *
 * `columns`: name, title, cell(row), compare(a, b) where it sorts, and `values` where it stands in the file
 * (csv.js), which has the rows that are found. `search(row)`: the text that is searched. `choices`: name,
 * title, options, of(row), and `usual`, the option that is chosen where the address has none, with what is said of the
 * rows that it hides (`hides(n)`). `words`: what is said of the rows: `find` and `search` of the form, `count(n)`,
 * `none` where there are none, `nothing` where none fits, `all(n)` on the button that shows all then, and `title` of the
 * file, which is called by `file`. `classOf(row)`: the class of a row. `elsewhere(text)`: what there is of a searched text
 * where no row is found, or null. `usualSort`: the column that sorts where the address has none. `above`: what stands
 * between the form and the rows. `changed()` is called where other rows are found.
 */
export class Finder {
  #page;
  #given;
  #count = html("p", { class: "count", role: "status" });
  #beyond = html("div", { class: "beyond-list", role: "status" });
  #heads = new Map();
  #table;
  #lines = new Map();
  #empty;
  #rows;
  #asking = null;
  #query;
  #texts;
  #orders = new Map();
  #found = [];

  constructor(page, given) {
    this.#page = page;
    this.#given = given;
    this.#query = Object.fromEntries(page.route.query);
    this.#texts = new Map(given.rows.map(row => [row, given.search(row).toUpperCase()]));
    const download = given.file && downloadButton(page, { file: given.file, title: given.words.title }, given.columns, () => this.#found);
    this.#table = this.#drawTable();
    this.#empty = emptyLine(given.columns);
    this.#rows = new Rows(this.#table.firstChild, row => this.#lineOf(row));
    this.element = html("div", { class: "finder" }, this.#fields(), given.above, html("div", { class: "line" }, this.#count, download), this.#beyond, this.#table);
    this.#draw();
  }

  /** Ends where all rows are drawn. */
  drawn = Promise.resolve();

  /** The rows that are found, as they are sorted. */
  get found() { return this.#found; }

  #fields() {
    const { words, choices = [] } = this.#given;
    const search = html("input", {
      type: "search", name: "search", value: this.#query.search, autocomplete: "off", "data-key": "search",
      input: event => this.#set("search", event.target.value.trim()),
    });
    // on a phone the choices are folded
    const unfold = html("button", { type: "button", class: "small unfold", "aria-expanded": "false", click: () => {
      unfold.setAttribute("aria-expanded", String(form.classList.toggle("unfolded")));
    } }, t`Filter and sort`);
    const form = html("form", { class: "fields", role: "search", "aria-label": words.find, submit: event => event.preventDefault() },
      html("label", {}, words.search, search), unfold,
      choices.map(choice => html("label", { class: "choice" }, choice.title, this.#choice(choice))),
      this.#sorting());
    return form;
  }

  #choice({ name, options, usual }) {
    const chosen = this.#query[name] || usual?.option;
    const isOther = chosen && chosen !== ALL && !options.includes(chosen);
    const option = (value, text) => html("option", { value, selected: value === chosen }, text);
    return html("select", { name, "data-key": name, change: event => this.#set(name, event.target.value) },
      option(usual ? ALL : "", t`all`), (isOther ? [...options, chosen] : options).map(each => option(each, word(each))));
  }

  /** What sorts where the heads of columns aren't seen. */
  #sorting() {
    const by = this.#sorted();
    const option = (column, down) => {
      const isChosen = column.name === by.name && Boolean(this.#query.down) === down;
      return html("option", { value: `${column.name} ${down ? "yes" : ""}`, selected: isChosen }, down ? t`${column.title}, descending` : column.title);
    };
    const options = this.#given.columns.filter(column => column.compare).flatMap(column => [option(column, false), option(column, true)]);
    const change = event => {
      const [name, down] = event.target.value.split(" ");
      this.#query.down = down;
      this.#set("sort", name);
    };
    return html("label", { class: "choice sort-by" }, t`Sort by`, html("select", { name: "sort", "data-key": "sort", change }, options));
  }

  #drawTable() {
    for (const column of this.#given.columns) {
      const sorts = column.compare && html("button", { type: "button", class: "sort", click: () => this.#sortBy(column.name) }, column.title);
      this.#heads.set(column.name, head(column, sorts ?? column.title));
    }
    return frame(this.#given.caption, [...this.#heads.values()]);
  }

  #set(name, value) {
    this.#query[name] = value;
    this.#page.remember(this.#query);
    this.#draw();
  }

  #sortBy(name) {
    const again = this.#sorted().name === name;
    this.#query.down = again && !this.#query.down ? "yes" : "";
    this.#set("sort", name);
  }

  #sorted() {
    const sorting = this.#given.columns.filter(column => column.compare);
    const wanted = name => sorting.find(column => column.name === name);
    return wanted(this.#query.sort) ?? wanted(this.#given.usualSort) ?? sorting[0];
  }

  /** The option of a choice that holds now; undefined where all do. */
  #option({ name, usual }) {
    const option = this.#query[name] || usual?.option;
    return option === ALL ? undefined : option;
  }

  /** Of these rows, those that are found by the search and by these choices. */
  #matching(rows, choices = this.#given.choices ?? []) {
    const wanted = (this.#query.search ?? "").toUpperCase();
    const chosen = choices.map(choice => [choice, this.#option(choice)]).filter(([, option]) => option);
    return rows.filter(row => this.#texts.get(row).includes(wanted) && chosen.every(([choice, option]) => choice.of(row) === option));
  }

  /** What the usual option hides, or that nothing fits, with a button that shows it; and what there is elsewhere where nothing is found. */
  #tellBeyond(rows) {
    const all = this.#given.rows;
    const hiding = (this.#given.choices ?? []).find(choice => choice.usual && !this.#query[choice.name]);
    const hidden = hiding ? this.#matching(all, this.#given.choices.filter(choice => choice !== hiding)).length - rows.length : 0;
    const show = () => {
      this.element.querySelector(`select[name="${hiding.name}"]`).value = ALL;
      this.#set(hiding.name, ALL);
    };
    const isNone = rows.length + hidden === 0 && all.length > 0;
    const more = () => html("p", { class: "soft" }, hiding.usual.hides(hidden), " ", html("button", { type: "button", class: "small", "data-key": "beyond", click: show }, t`Show them`));
    this.#beyond.replaceChildren(...(hidden > 0 ? [more()] : isNone ? [this.#nothing()] : []));
    this.#askElsewhere(isNone && (this.#query.search ?? "").toUpperCase());
  }

  /** That no row fits, with a button that shows all. */
  #nothing() {
    const { words, rows } = this.#given;
    return html("p", {}, words.nothing, " ",
      html("button", { type: "button", class: "small", "data-key": "all-rows", click: () => this.#showAll() }, words.all(rows.length)));
  }

  /** Takes the search and all choices back. */
  #showAll() {
    for (const { name, usual } of this.#given.choices ?? []) {
      this.#query[name] = usual ? ALL : "";
      this.element.querySelector(`select[name="${name}"]`).value = this.#query[name];
    }
    const search = this.element.querySelector("input[name=search]");
    search.value = "";
    this.#set("search", "");
    search.focus();
  }

  #askElsewhere(text) {
    clearTimeout(this.#asking);
    if (!text || !this.#given.elsewhere) return;
    this.#asking = setTimeout(() => this.#page.fill(this.#beyond, async () => {
      const answer = await this.#given.elsewhere(text);
      if (answer && (this.#query.search ?? "").toUpperCase() === text) this.#beyond.append(answer);
    }), TYPING);
  }

  /** All rows as they are sorted now: each order is made once. */
  #inOrder() {
    const by = this.#sorted();
    if (!this.#orders.has(by.name)) this.#orders.set(by.name, [...this.#given.rows].sort(by.compare));
    return this.#query.down ? this.#orders.get(by.name).toReversed() : this.#orders.get(by.name);
  }

  #lineOf(row) {
    if (!this.#lines.has(row)) this.#lines.set(row, line(this.#empty, this.#given.columns, row, this.#given.classOf?.(row)));
    return this.#lines.get(row);
  }

  #draw() {
    const by = this.#sorted();
    const rows = this.#found = this.#matching(this.#inOrder());
    for (const [name, columnHead] of this.#heads) {
      if (name === by.name) columnHead.setAttribute("aria-sort", this.#query.down ? "descending" : "ascending");
      else columnHead.removeAttribute("aria-sort");
    }
    const all = this.#given.rows.length;
    const whole = all === 0 ? this.#given.words.none : this.#given.words.count(all);
    this.#count.textContent = rows.length === all ? whole : t`${number(rows.length)} of ${whole}`;
    this.#table.hidden = rows.length === 0;
    this.#tellBeyond(rows);
    this.drawn = this.#rows.show(rows, this.#page.signal);
    this.#given.changed?.();
  }
}
