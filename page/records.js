/** What a companion tells, found by name. Pure. */

import { PLANT } from "./values.js";

/** The id of a lot, also of one of the plant's. */
export const idOf = ({ owner, lot }) => `${owner}/${lot}`;

/** The name of a batch: ORDER/N. */
export const batchName = ({ order, batch }) => `${order}/${batch}`;

const byKey = (rows, keyOf) => new Map(rows.map(row => [keyOf(row), row]));

/** The rows of each key, in their order. */
export function grouped(rows, keyOf) {
  const groups = new Map();
  for (const row of rows) {
    const key = keyOf(row);
    if (groups.has(key)) groups.get(key).push(row);
    else groups.set(key, [row]);
  }
  return groups;
}

/** The companion's rows. Lists that are left out are empty. */
export class Records {
  #value;
  #lots;
  #batches;
  #orders;
  #batchesOf;
  #materials;
  #parties;
  #movements = null;
  #neighbours = null;

  constructor(value) {
    this.#value = value;
    this.#lots = byKey(value.lots ?? [], row => row.lot);
    this.#batches = byKey(value.batches ?? [], batchName);
    this.#orders = byKey(value.orders ?? [], row => row.order);
    this.#batchesOf = grouped(value.batches ?? [], row => row.order);
    this.#parties = byKey(value.parties ?? [], row => row.party);
    this.#materials = byKey(value.materials ?? [], row => `${row.owner}/${row.material}`);
  }

  get owner() { return this.#value.owner; }
  get made() { return this.#value.made; }
  get plant() { return this.#value.plant ?? {}; }
  get batches() { return this.#value.batches ?? []; }
  get recipes() { return this.#value.recipes ?? []; }
  get movements() { return this.#value.movements ?? []; }

  /** Links from lot to lot: a link to a batch is one to each lot that it made. */
  get links() {
    return (this.#value.links ?? []).flatMap(row => (row.to.lot ? [row] : this.#lotsOfBatch(row.to).map(to => ({ ...row, to }))));
  }

  #lotsOfBatch({ owner, order, batch }) {
    return owner === this.owner ? (this.batch(order, batch)?.lots ?? []).map(lot => ({ owner, lot })) : [];
  }

  lot(name) { return this.#lots.get(name); }
  order(name) { return this.#orders.get(name); }
  batchesOf(order) { return this.#batchesOf.get(order) ?? []; }
  batch(order, n) { return this.#batches.get(batchName({ order, batch: n })); }
  material(owner, name) { return this.#materials.get(`${owner}/${name}`); }

  /** The tests of one of the owner's materials; undefined where the material isn't there. */
  testsOf(material) {
    const row = this.material(this.owner, material);
    return row && (row.tests ?? []);
  }

  /** The batch that made a lot first, as ORDER/N; undefined of a lot that was received. */
  makerOf(lot) {
    const { order, batch } = this.lot(lot) ?? {};
    return order && batch ? batchName({ order, batch }) : undefined;
  }

  /** The movements of one of the owner's lots, in the order recorded. */
  movementsOf(lot) {
    this.#movements ??= grouped(this.movements.filter(row => row.lotOwner === this.owner), row => row.lot);
    return this.#movements.get(lot) ?? [];
  }

  /** A party's full name with its short one. */
  partyOf(name) {
    const { description } = this.#parties.get(name) ?? {};
    return description ? `${description} (${name})` : name;
  }

  /** Why the plant gave a batch or a lot its last command with a reason, as it noted it; undefined where it didn't. */
  reasonFor(wanted) {
    const isMeant = row => Object.entries(wanted).every(([name, value]) => row[name] === value);
    return (this.#value.reasons ?? []).filter(isMeant).at(-1)?.text;
  }

  shipmentsOf(lot) { return this.movementsOf(lot).filter(row => row.kind === "shipment"); }

  /**
   * The neighbours of a lot by recorded consumption: what it was directly made of (`back`) and directly went into
   * (`forward`). A batch leads from what a segment consumed to what the same or a later segment produced.
   */
  neighboursOf(id) {
    this.#neighbours ??= neighbours(this.movements);
    return this.#neighbours.get(id) ?? { back: [], forward: [] };
  }
}

/** Of each batch, the lowest segment that consumed each lot, or the highest that produced it. */
function segmentsOf(rows, use, better) {
  const segments = new Map();
  for (const row of rows.filter(each => each.use === use)) {
    const id = idOf({ owner: row.lotOwner, lot: row.lot });
    segments.set(id, better(row.segment, segments.get(id) ?? row.segment));
  }
  return segments;
}

function neighbours(movements) {
  const stepsOf = new Map();
  const at = id => {
    if (!stepsOf.has(id)) stepsOf.set(id, { back: new Set(), forward: new Set() });
    return stepsOf.get(id);
  };
  const actuals = movements.filter(row => row.kind === "actual" && !row.voided && row.order && row.batch);
  for (const rows of grouped(actuals, batchName).values()) {
    const [consumed, produced] = [segmentsOf(rows, "consumed", Math.min), segmentsOf(rows, "produced", Math.max)];
    for (const [from, first] of consumed) {
      for (const [to, last] of produced) {
        if (first > last) continue;
        at(from).forward.add(to);
        at(to).back.add(from);
      }
    }
  }
  return new Map([...stepsOf].map(([id, { back, forward }]) => [id, { back: [...back], forward: [...forward] }]));
}

/** Whether an id is that of one of the plant's lots. */
export const isPlants = id => id.startsWith(`${PLANT}/`);
