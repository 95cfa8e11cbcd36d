/** Results of tests beside their limits, and why a lot can't be released. Pure. */

import { key, t, word as textOf } from "./text.js";
import { day, decimal } from "./values.js";

/** The words of a test's latest result. */
export const PASSES = key`passes`;
export const BELOW = key`below its limit`;
export const ABOVE = key`above its limit`;
export const MISSING = key`no result yet`;

const isLess = (a, b) => BigInt(a) < BigInt(b);

/** The word of a value beside the limits of a test; both limits count as within. */
export function verdict({ low, high }, value) {
  if (value === undefined) return MISSING;
  if (isLess(value, low)) return BELOW;
  return isLess(high, value) ? ABOVE : PASSES;
}

/** A value of a test as measured, with its unit. */
export const measured = ({ decimals, unit }, value) => `${decimal(value, decimals)}${unit ? ` ${unit}` : ""}`;

/** The limits of a test as measured. */
export const limits = test => t`${decimal(test.low, test.decimals)} to ${measured(test, test.high)}`;

/** The latest value of each test; a lot's results are in the order recorded. */
const latestOf = results => new Map(results.map(row => [row.test, row.value]));

/** Each test with its latest value and what that means. */
export function verdictsOf(tests, results) {
  const latest = latestOf(results);
  return tests.map(test => ({ ...test, value: latest.get(test.test), word: verdict(test, latest.get(test.test)) }));
}

/** Why a test keeps its lot from being released, as a sentence. */
export function failure(row) {
  if (row.word === MISSING) return t`${row.test} has no result yet.`;
  const limit = row.word === BELOW ? row.low : row.high;
  return t`${row.test} is ${measured(row, row.value)}, ${textOf(row.word)} of ${measured(row, limit)}.`;
}

/** What the plant's quality says of a lot that it holds, unless that stands among the reasons already; empty if it doesn't hold it. */
export function heldBy(lot) {
  const isReason = lot?.release?.why?.some(row => row.reason === HOLD);
  return lot?.held && !isReason ? t`The plant holds it since ${day(lot.held.day)}${noted(lot.held.text)}.` : "";
}

/** The words of the plant's own test, by which its quality holds (0) and signs (1) a lot. */
const JUDGEMENTS = new Map([[0, key`held by the plant`], [1, key`signed by the plant`]]);

/**
 * What the plant's quality says by a result of its own test; undefined of other results. The companion leaves this test out
 * of the material's `tests`, and says of the lot that the plant signed or holds it.
 */
export function judgementOf(lot, tests, { test, value }) {
  const isListed = tests?.some(row => row.test === test) ?? true;
  return !isListed && (lot?.signed || lot?.held) ? JUDGEMENTS.get(value) : undefined;
}

const HOLD = "plant-hold";
const OF_TESTS = { missing: MISSING, below: BELOW, above: ABOVE };

/** A text that the plant noted, behind what it is about. */
export const noted = text => (text ? `: ${text.replace(/\.$/, "")}` : "");

/** A reason of the plant's, as a sentence. */
function reasonOf({ reason, test, value, limit, text }) {
  const name = test ?? t`A test`;
  if (reason === "missing") return t`${name} has no result yet.`;
  if (reason in OF_TESTS) {
    const verdictText = textOf(OF_TESTS[reason]);
    if (value === undefined || limit === undefined) return t`${name}: ${verdictText}.`;
    return t`${name} is ${decimal(value)}, ${verdictText} of ${decimal(limit)}.`;
  }
  if (reason === HOLD) return t`The plant holds it${noted(text)}.`;
  if (reason === "unsigned") return t`The plant's quality hasn't signed it yet.`;
  return t`The plant gives another reason: ${reason}.`;
}

/**
 * Why a lot can't be released, as sentences: by its tests, of which `results` has the office's own latest values, and by
 * what else the plant says. `tests` has the limits, or is undefined where they aren't known.
 */
export function blocksOf(lot, tests, results) {
  const known = new Set((tests ?? []).map(row => row.test));
  const failing = verdictsOf(tests ?? [], results).filter(row => row.word !== PASSES).map(failure);
  const why = lot?.release?.possible === false ? lot.release.why ?? [] : [];
  const others = why.filter(row => !(row.reason in OF_TESTS) || !known.has(row.test));
  return [...failing, ...new Set(others.map(reasonOf))];
}
