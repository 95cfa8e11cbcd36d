/** Releasing many lots at once: which can be released, why others can't, one question, and what came of each. */

import { NotAllowed } from "../api.js";
import { chip } from "../chips.js";
import { downloadButton } from "../csv.js";
import { html, link, unseen } from "../dom.js";
import { Finder, table } from "../list.js";
import { tell, wordsOf } from "../notices.js";
import { mayRelease } from "../person.js";
import { ask } from "../question.js";
import { toLot } from "../router.js";
import { untilEnd } from "../session.js";
import { inline, key, phrase, plural, t, word } from "../text.js";
import { amount, compareNames, compareNumbers, lotCount, number } from "../values.js";
import { BLOCKED, NOT_KNOWN, partedOf, POSSIBLE, talliesOf, waitingOf, waitOf } from "../waiting.js";

/** How many releases wait for their replies at a time. */
const AT_ONCE = 3;

/** The shortest time from one release to the next, in milliseconds: the site takes 50 requests a second, also of other windows. */
const PACE = 30;

/** The most lots that a question names one by one. */
const NAMED = 200;

/** What came of a lot. */
const RELEASED = "released";
const REFUSED = key`refused`;
const UNKNOWN = key`not known`;
const NOT_ASKED = key`not asked`;

const chosenIn = new WeakMap();

/** The lots that were chosen in this session. */
function chosenNow() {
  const session = untilEnd();
  if (!chosenIn.has(session)) chosenIn.set(session, new Set());
  return chosenIn.get(session);
}

export async function release(page) {
  if (!mayRelease(page.who)) return { title: t`Release lots`, body: html("p", { class: "card" }, phrase(new NotAllowed().message)) };
  const [{ lots }, records] = await Promise.all([page.get("/stock"), page.records()]);
  const rows = waitingOf(lots).map(row => waitOf(row, records));
  const place = html("div", { class: "releasing" });
  const choice = new Choice(page, rows, records !== null, place);
  place.append(choice.element);
  return { title: t`Release lots`, body: place, drawn: choice.drawn };
}

// Choosing

/** Why a lot can't be released, and that the plant holds it. */
const whyOf = row => [...row.blocks, row.held].filter(Boolean).join(" ");

class Choice {
  #page;
  #rows;
  #place;
  #chosen = chosenNow();
  #boxes = new Map();
  #finder;
  #sum = html("p", { role: "status" });
  #buttons = html("div", { class: "buttons" });

  constructor(page, rows, isKnown, place) {
    [this.#page, this.#rows, this.#place] = [page, rows, place];
    const here = new Set(rows.map(row => row.lot));
    for (const name of this.#chosen) if (!here.has(name)) this.#chosen.delete(name);
    this.#finder = this.#list(isKnown);
    this.element = html("section", { class: "card" },
      !isKnown && html("p", { class: "soft" }, t`The plant tells nothing beside the office's replies: what can't be released is known when it is asked.`),
      this.#finder.element);
    this.#show();
  }

  get drawn() { return this.#finder.drawn; }

  #list(isKnown) {
    const byLot = (a, b) => compareNames(a.lot, b.lot);
    const byName = name => (a, b) => compareNames(a[name] ?? "", b[name] ?? "") || byLot(a, b);
    const optionsOf = name => [...new Set(this.#rows.map(row => row[name]).filter(Boolean))].sort(new Intl.Collator("en", { numeric: true }).compare);
    const choice = (name, title) => ({ name, title, options: optionsOf(name), of: row => row[name] });
    return new Finder(this.#page, {
      caption: t`Lots in quarantine`,
      words: {
        find: t`Find lots`, search: t`Search lots`, title: t`lots`, none: t`No lot waits for a release.`, nothing: t`No lot fits what you searched and chose.`,
        count: lotCount, all: n => plural(n, "Show the lot", "Show all {0} lots"),
      },
      file: "quarantine",
      rows: this.#rows,
      above: html("div", { class: "choosing" }, this.#buttons, this.#sum),
      changed: () => this.#show(),
      search: row => `${row.lot} ${row.material} ${row.batch ?? ""}`,
      choices: [choice("material", t`Material`), ...(isKnown ? [choice("batch", t`Batch`), { name: "can", title: t`Release`, options: [POSSIBLE, BLOCKED], of: row => row.word }] : [])],
      columns: [
        { name: "pick", title: unseen(t`Chosen`), picks: true, cell: row => this.#box(row) },
        { name: "lot", title: t`Lot`, cell: row => link(toLot(row.lot), row.lot), compare: byLot, values: { Lot: row => row.lot } },
        { name: "material", title: t`Material`, cell: row => row.material, compare: byName("material"), values: { Material: row => row.material } },
        { name: "amount", title: t`On hand`, number: true, cell: row => amount(row.amount, row.measure), compare: (a, b) => compareNumbers(a.amount, b.amount) || byLot(a, b), values: { "On hand": row => row.amount, Measure: row => row.measure } },
        ...(isKnown ? [
          { name: "batch", title: t`Batch`, cell: row => row.batch, compare: byName("batch"), values: { Batch: row => row.batch } },
          { name: "can", title: t`Release`, cell: row => [chip(row.word), whyOf(row) && html("small", { class: "why" }, whyOf(row))], compare: byName("word"), values: { Release: row => row.word, Why: row => row.blocks.join(" ") } },
        ] : []),
      ],
    });
  }

  #box(row) {
    const box = html("input", { type: "checkbox", name: "pick", "data-lot": row.lot, change: () => this.#choose([row], box.checked) });
    box.checked = this.#chosen.has(row.lot);
    this.#boxes.set(row.lot, box);
    return html("label", { class: "pick" }, unseen(t`Choose lot ${row.lot}`), box);
  }

  #choose(rows, isChosen) {
    for (const { lot } of rows) {
      this.#chosen[isChosen ? "add" : "delete"](lot);
      if (this.#boxes.has(lot)) this.#boxes.get(lot).checked = isChosen;
    }
    this.#show();
  }

  /** The buttons, as they are for the rows that are found, and what is chosen. */
  #show() {
    if (!this.#finder) return;
    const found = this.#finder.found;
    const possible = found.filter(row => row.word !== BLOCKED);
    const { goes, stays } = partedOf(this.#rows, this.#chosen);
    const button = (name, text, click, given = {}) => html("button", { type: "button", "data-key": name, click, ...given }, text);
    const focused = document.activeElement?.dataset?.key;
    this.#buttons.replaceChildren(
      button("choose-possible", t`Choose the ${number(possible.length)} that can be released`, () => this.#choose(possible, true), { disabled: possible.length === 0 }),
      button("choose-found", t`Choose all ${number(found.length)} listed`, () => this.#choose(found, true), { disabled: found.length === 0 }),
      button("choose-none", t`Choose none`, () => this.#choose(this.#rows, false), { disabled: goes.length + stays.length === 0 }),
      button("release-chosen", plural(goes.length, "Release {0} lot…", "Release {0} lots…"), () => this.#ask(), { class: "main", disabled: goes.length === 0 }));
    if (focused) this.#buttons.querySelector(`[data-key="${CSS.escape(focused)}"]`)?.focus({ preventScroll: true });
    this.#sum.textContent = goes.length + stays.length === 0 ? t`Nothing is chosen.`
      : stays.length === 0 ? t`Chosen: ${lotCount(goes.length)}.` : t`Chosen: ${lotCount(goes.length + stays.length)}. Of these, ${number(stays.length)} can't be released and stay in quarantine.`;
  }

  async #ask() {
    const { goes, stays } = partedOf(this.#rows, this.#chosen);
    const text = [sumOf(goes), ...(stays.length > 0 ? [t`${lotCount(stays.length)} can't be released and stay in quarantine:`, listOf(stays)] : [])];
    const title = plural(goes.length, "Release {0} lot?", "Release {0} lots?");
    const answer = { yes: plural(goes.length, "Release {0} lot", "Release {0} lots"), no: t`No, not yet`, isGood: true };
    if (!await ask(this.#page.signal, { title, text, ...answer })) return;
    this.#chosen.clear();
    await new Releasing(this.#page, this.#place, goes, stays).run();
  }
}

/** How many lots of each material there are, and of them those of which it isn't known. */
function sumOf(rows) {
  const parts = talliesOf(rows, row => row.material).map(([material, count]) => `${number(count)} ${material}`);
  const unknown = rows.filter(row => row.word === NOT_KNOWN).length;
  return [parts.join(", "), unknown > 0 && t`What can't be released is refused, and stays in quarantine.`].filter(Boolean).join(". ");
}

/** Lots that stay, each with why. */
const listOf = rows => html("ul", { class: "staying", tabindex: 0 },
  rows.slice(0, NAMED).map(row => html("li", {}, html("strong", {}, row.lot), ` ${row.blocks.join(" ")}`)),
  rows.length > NAMED && html("li", {}, t`and ${number(rows.length - NAMED)} more`));

// Releasing

/** The releases of some lots, each a request of its own, and the report of what came of them. */
class Releasing {
  #page;
  #place;
  #goes;
  #stays;
  #waiting;
  #outcomes = new Map();
  #isStopped = false;
  #next = 0;
  #bar;
  #told = html("p", { role: "status" });

  constructor(page, place, goes, stays) {
    [this.#page, this.#place, this.#goes, this.#stays, this.#waiting] = [page, place, goes, stays, [...goes]];
    this.#bar = html("progress", { max: goes.length, value: 0, "aria-label": t`Lots that were asked for` });
    page.signal.addEventListener("abort", () => { this.#isStopped = true; }, { once: true });
  }

  async run() {
    tell("");
    const stop = html("button", { type: "button", "data-key": "stop", click: () => { this.#isStopped = true; } }, t`Stop`);
    this.#place.replaceChildren(html("section", { class: "card" }, html("h2", {}, t`Releasing`), this.#bar, this.#told, html("div", { class: "buttons" }, stop)));
    stop.focus();
    this.#tellProgress();
    await Promise.all(Array.from({ length: AT_ONCE }, () => this.#work()));
    if (this.#page.isOver) return;
    if (this.#page.signal.aborted) this.#tellLeft();
    else this.#report();
  }

  async #work() {
    while (this.#waiting.length > 0 && !this.#isStopped) {
      const row = this.#waiting.shift();
      await this.#turn();
      this.#outcomes.set(row.lot, this.#isStopped ? { word: NOT_ASKED } : await this.#release(row.lot));
      this.#tellProgress();
    }
  }

  /** Waits until the next release may be asked for. */
  #turn() {
    const now = performance.now();
    const at = this.#next = Math.max(now, this.#next + PACE);
    return new Promise(done => setTimeout(done, at - now));
  }

  async #release(name) {
    const stands = async get => (await get(`/lots/${name}`)).disposition === "released";
    const { isDone, isKnown, error } = await this.#page.change(`/lots/${name}/release`, { stands });
    if (isDone) return { word: RELEASED };
    return { word: isKnown ? REFUSED : UNKNOWN, why: wordsOf(error), text: isKnown ? error.message : t`Look at the lot before you release it again.`, code: error.code };
  }

  #tellProgress() {
    this.#bar.value = this.#outcomes.size;
    this.#told.textContent = t`${number(this.#outcomes.size)} of ${lotCount(this.#goes.length)}`;
  }

  get #released() { return [...this.#outcomes.values()].filter(each => each.word === RELEASED).length; }

  /** The view was left meanwhile. */
  #tellLeft() {
    tell(t`You left before all were asked for: ${number(this.#released)} of ${lotCount(this.#goes.length)} are released.`, this.#released === this.#goes.length ? "good" : "bad");
  }

  #report() {
    const rows = [
      ...this.#goes.map(row => ({ ...row, ...(this.#outcomes.get(row.lot) ?? { word: NOT_ASKED }) })),
      ...this.#stays.map(row => ({ ...row, text: row.blocks.join(" ") })),
    ].map(row => ({ ...row, why: row.why ?? row.text }));
    const order = [UNKNOWN, REFUSED, BLOCKED, NOT_ASKED, RELEASED];
    rows.sort((a, b) => order.indexOf(a.word) - order.indexOf(b.word) || compareNames(a.lot, b.lot));
    const columns = [
      { title: t`Lot`, cell: row => link(toLot(row.lot), row.lot), values: { Lot: row => row.lot } },
      { title: t`Material`, cell: row => row.material, values: { Material: row => row.material } },
      { title: t`On hand`, number: true, cell: row => amount(row.amount, row.measure), values: { "On hand": row => row.amount, Measure: row => row.measure } },
      { title: t`Outcome`, cell: row => chip(row.word), values: { Outcome: row => row.word } },
      { title: t`Why`, cell: row => row.why, values: { Why: row => row.text, Refusal: row => row.code } },
    ];
    const isAll = this.#released === rows.length;
    const heading = html("h2", { tabindex: -1 }, plural(this.#released, "{0} lot is released", "{0} lots are released"));
    const others = talliesOf(rows.filter(row => row.word !== RELEASED), row => row.word).map(([name, count]) => `${number(count)} ${word(name)}`);
    const again = html("button", { type: "button", class: isAll ? "main" : null, "data-key": "lots", click: () => this.#page.showAnew() }, t`Back to the lots in quarantine`);
    this.#place.replaceChildren(html("section", { class: "card", "data-report": rows.length },
      html("div", { class: "line" }, heading, downloadButton(this.#page, { file: "release-report", title: t`report` }, columns, () => rows)),
      others.length > 0 && html("p", { class: "blocks" }, inline`Not released: ${others.join(", ")}.`),
      html("div", { class: "buttons" }, again),
      table({ caption: t`What came of each lot`, columns, rows, signal: this.#page.signal })));
    heading.focus();
  }
}
