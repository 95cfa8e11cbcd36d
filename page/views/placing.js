/** Placing an order, and what is told of it: whether it is new, was there before, or was cancelled. */

import { Refused } from "../api.js";
import { t } from "../text.js";
import { compareNames } from "../values.js";

const UNKNOWN_ORDER = 18;
const UNKNOWN_RECIPE = 13;

/** The order as it stands, or null where there is none. */
export async function standing(get, name) {
  try {
    return await get(`/orders/${name}`);
  } catch (error) {
    if (error instanceof Refused && error.code === UNKNOWN_ORDER) return null;
    throw error;
  }
}

/**
 * What is told of the reply to an order; `before` is the order as it stood before it was placed, or null. The
 * office tells an order of the same content as it stands, cancelled or not, and nobody makes a cancelled one.
 */
export function outcome({ order, recipe, batches, status }, before) {
  if (status === "cancelled") return { text: t`${order} was cancelled; choose another name.`, tone: "bad" };
  const content = `${batches} × ${recipe}`;
  if (before) return { text: t`Order ${order} was placed before: ${content}. It counts once.`, tone: "wait" };
  return { text: t`Order ${order} is placed: ${content}.`, tone: "good" };
}

/** The names of the recipes that are offered: those that the companion tells, and those of earlier orders. */
export const recipesOffered = (records, orders) => [...new Set([...(records?.recipes ?? []), ...orders].map(({ recipe }) => recipe))].sort(compareNames);

/** The field that is at fault where an order is refused. */
export const fieldAtFault = refusal => (refusal.code === UNKNOWN_RECIPE ? "recipe" : "order");

/**
 * What so many batches of a recipe consume and produce, each material once, in the order of the recipe: how much is
 * `needed`, and of the owner's own materials what is `released` and `quarantined` of them in stock, and what is `missing`;
 * null of others' materials.
 */
export function needsOf({ lines }, batches, stock, owner) {
  const onHand = (material, disposition) => stock.filter(lot => lot.material === material && lot.disposition === disposition)
    .reduce((sum, lot) => sum + BigInt(lot.amount), 0n);
  const of = use => {
    const sums = new Map();
    for (const row of lines.filter(line => line.use === use)) {
      const name = `${row.owner}/${row.material}`;
      const sum = sums.get(name) ?? { owner: row.owner, material: row.material, needed: 0n };
      sums.set(name, { ...sum, needed: sum.needed + BigInt(row.amount) * BigInt(batches) });
    }
    return [...sums.values()];
  };
  const consumed = of("consumed").map(row => {
    if (row.owner !== owner) return { ...row, released: null, quarantined: null, missing: null };
    const [released, quarantined] = ["released", "quarantined"].map(disposition => onHand(row.material, disposition));
    return { ...row, released, quarantined, missing: row.needed > released ? row.needed - released : 0n };
  });
  return { consumed, produced: of("produced") };
}
