/** Lots in quarantine, and what keeps each from being released, by what the companion says of it. Pure. */

import { key } from "./text.js";
import { blocksOf, heldBy } from "./verdicts.js";

/** Whether a lot can be released now; NOT_KNOWN where there is no companion. */
export const POSSIBLE = key`ready`;
export const BLOCKED = key`not ready`;
export const NOT_KNOWN = key`not known`;

const FAILED = new Set(["below", "above"]);

/** The lots of the stock that wait for a release. */
export const waitingOf = lots => lots.filter(row => row.disposition === "quarantined" && BigInt(row.amount) > 0n);

/**
 * A quarantined lot of the stock with why it can't be released (`blocks`, sentences), that the plant holds it by its word
 * (`held`), whether a test failed, the batch that made it, and in a word whether it can be released.
 */
export function waitOf(row, records) {
  if (!records) return { ...row, blocks: [], held: "", hasFailed: false, batch: undefined, word: NOT_KNOWN };
  const lot = records.lot(row.lot);
  const why = lot?.release?.possible === false ? lot.release.why ?? [] : [];
  const tests = records.testsOf(row.material);
  // the values of failed tests are in the reasons: they stand for the lot's results here
  const results = why.filter(each => each.value !== undefined).map(({ test, value }) => ({ test, value }));
  const named = new Set(why.map(each => each.test));
  const blocks = blocksOf(lot, tests?.filter(test => named.has(test.test)), results);
  return {
    ...row, blocks, held: heldBy(lot), hasFailed: why.some(each => FAILED.has(each.reason)), batch: records.makerOf(row.lot),
    word: blocks.length > 0 ? BLOCKED : lot ? POSSIBLE : NOT_KNOWN,
  };
}

/** What is chosen of these rows: those that may be released, and those that stay because of what keeps them. */
export function partedOf(rows, chosen) {
  const picked = rows.filter(row => chosen.has(row.lot));
  return { goes: picked.filter(row => row.word !== BLOCKED), stays: picked.filter(row => row.word === BLOCKED) };
}

/** How many rows there are of each value, the most first: [value, count]. */
export function talliesOf(rows, of) {
  const counts = new Map();
  for (const row of rows) counts.set(of(row), (counts.get(of(row)) ?? 0) + 1);
  return [...counts].sort(([, a], [, b]) => b - a);
}
