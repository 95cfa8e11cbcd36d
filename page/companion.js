/**
 * The companion: what the plant tells an owner beside the office's replies, such as limits of tests, shipments and the
 * lots of batches (docs/http.md). It isn't proved, so where both say something, the office's own reply decides.
 */

import { has, isFlag, isList, isMeasure, isName, isNumber, isOneOf, isState, isText, isUse, optional } from "./forms.js";
import { Records } from "./records.js";
import { untilEnd } from "./session.js";
import { parse } from "./values.js";

const PATH = "/companion";
const VERSION = 1;

/** How long a view waits for the companion before it is drawn without it, in milliseconds. */
const PATIENCE = 3000;

// Its form

const isDecimals = value => Number.isInteger(value) && value >= 0 && value <= 9;
const list = form => optional(isList(has(form)));
const line = { segment: isNumber, use: isUse, owner: isName, material: isName };
const source = has({ owner: isName, lot: isName });
// what contains some of a link's source: a lot, or each lot that a batch made
const target = value => source(value) || has({ owner: isName, order: isName, batch: isNumber })(value);
const reason = { reason: isText, test: optional(isName), value: optional(isNumber), limit: optional(isNumber), text: optional(isText) };
const judged = optional(has({ day: isNumber, text: optional(isText) }));
const release = has({ possible: isFlag, why: list(reason) });

const isForm = has({
  version: isOneOf(VERSION),
  owner: isName,
  made: text => isText(text) && Number.isFinite(Date.parse(text)),
  plant: optional(has({ name: optional(isText), address: optional(isText), contact: optional(isText) })),
  full: list({ what: isText, count: isNumber, most: isNumber }),
  materials: list({
    owner: isName, material: isName, measure: isMeasure, description: optional(isText),
    tests: list({
      test: isName, low: isNumber, high: isNumber, description: optional(isText), unit: optional(isText), method: optional(isText), decimals: optional(isDecimals),
    }),
  }),
  recipes: list({ recipe: isName, segments: isNumber, lines: list({ ...line, amount: isNumber }) }),
  orders: list({ order: isName, placedOn: optional(isNumber) }),
  batches: list({
    order: isName, batch: isNumber, unit: isName, state: isState, closed: optional(isFlag), openedOn: optional(isNumber), closedOn: optional(isNumber),
    lines: list({ ...line, required: isNumber, actual: isNumber }), lots: optional(isList(isName)),
  }),
  lots: list({
    lot: isName, order: optional(isName), batch: optional(isNumber), made: optional(isNumber), expires: optional(isNumber), retest: optional(isNumber),
    release: optional(release), signed: judged, held: judged,
    bounds: list({ test: isName, value: isNumber, day: isNumber, bound: isOneOf("below", "above") }),
    foreign: list({ day: isNumber }),
  }),
  movements: list({
    key: isText, kind: isText, day: isNumber, lot: isName, lotOwner: isName, sublot: isName, amount: isNumber, material: optional(isText),
    order: optional(isName), batch: optional(isNumber), segment: optional(isNumber), use: optional(isUse),
    toSublot: optional(isName), to: optional(isText), from: optional(isText), supplierLot: optional(isText), document: optional(isText), voided: optional(isFlag),
  }),
  links: optional(isList(has({ from: source, to: target, why: isText, text: optional(isText) }))),
  parties: list({ party: isText, description: optional(isText), address: optional(isText), contact: optional(isText), phone: optional(isText) }),
  reasons: list({ command: isText, order: optional(isName), batch: optional(isNumber), lot: optional(isName), key: optional(isText), text: isText }),
});

/** Whether a value is a companion of this owner. Whatever else comes counts as none. */
export const isCompanion = (value, owner) => isForm(value) && value.owner === owner;

// How it is read

/** The value of a reply's text, or null where that is no companion of the owner. */
function valueOf(text, owner) {
  try {
    const value = parse(text);
    return isCompanion(value, owner) ? value : null;
  } catch {
    return null;
  }
}

/** What a companion tells, without the time at which it was made: the plant may write the same anew. */
const contentOf = text => text.replace(/"made":\s*"[^"]*"/, "");

const rest = milliseconds => new Promise(done => setTimeout(done, milliseconds));

/**
 * The companion of who is logged in, read by conditional requests. It is kept in memory until the session ends.
 * `office.peek` asks once; `late()` is called where the first one comes after its view was drawn without it.
 */
export class Companion {
  #office;
  #late;
  #patience;
  #session = null;
  #mark = null;
  #content = "";
  #records = null;
  #isRead = false;
  #reading = null;

  constructor(office, { late = () => {}, patience = () => rest(PATIENCE) } = {}) {
    this.#office = office;
    this.#late = late;
    this.#patience = patience;
  }

  /** What was read last in this session, or null where there is none. */
  get last() {
    this.#begin();
    return this.#records;
  }

  /** The records of the session, or null. They are asked for once, and again after `expire`. */
  async records(who) {
    this.#begin();
    if (!this.#isRead) await this.#soon(this.read(who));
    return this.last;
  }

  /** The next view asks anew. */
  expire() {
    this.#isRead = false;
  }

  /** Asks for the companion. True where it isn't as it was. */
  read(who) {
    this.#begin();
    this.#reading ??= this.#ask(who, this.#session);
    return this.#reading;
  }

  async #soon(reading) {
    const isLate = await Promise.race([reading.then(() => false), this.#patience().then(() => true)]);
    if (isLate) reading.then(isChanged => isChanged && this.#late());
  }

  /** Forgets what belongs to an earlier session. */
  #begin() {
    if (this.#session === untilEnd()) return;
    this.#session = untilEnd();
    [this.#mark, this.#content, this.#records, this.#isRead, this.#reading] = [null, "", null, false, null];
  }

  async #ask(who, session) {
    const headers = this.#mark ? { "if-none-match": this.#mark } : {};
    const reply = await this.#office.peek(who, PATH, { headers, signal: session });
    if (session !== untilEnd()) return false;
    this.#reading = null;
    this.#isRead = true;
    return this.#take(reply, who.owner);
  }

  /** Takes a reply. Where the site is busy or away, what was read before stays. */
  #take(reply, owner) {
    if (reply === null || reply.status === 304 || reply.status === 429 || reply.status >= 500) return false;
    const value = reply.status === 200 ? valueOf(reply.text, owner) : null;
    const content = value ? contentOf(reply.text) : "";
    const isChanged = content !== this.#content;
    this.#mark = value && reply.mark;
    this.#content = content;
    this.#records = value && new Records(value);
    return isChanged;
  }
}
