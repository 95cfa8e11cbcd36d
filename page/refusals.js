/** What the refusals of owners' requests mean, in the words of docs/commands.md. */

import { t } from "./text.js";

const REFUSALS = new Map([
  [13, ["UnknownRecipe", () => t`You have no recipe of this name.`]],
  [17, ["OrderExists", () => t`You have another order of this name: by another recipe, or of another number of batches.`]],
  [18, ["UnknownOrder", () => t`You have no order of this name.`]],
  [19, ["OrderCancelled", () => t`The order is cancelled already.`]],
  [20, ["OrderStarted", () => t`A batch of the order was opened, so it can't be cancelled any more.`]],
  [22, ["UnknownBatch", () => t`The order has no batch of this number yet.`]],
  [27, ["UnknownLot", () => t`You have no lot of this name, and none of your batches consumed one of the plant's.`]],
  [32, ["NotQuarantined", () => t`The lot isn't quarantined any more, so it can't be released.`]],
  [36, ["TestsOpen", () => t`A test of the lot has no result yet, or its latest result is out of the limits.`]],
  [39, ["LimitReached", () => t`There are as many orders as there may be. Ask the plant.`]],
  [42, ["Rejected", () => t`The lot is rejected already.`]],
]);

/** The numbers that are known here, with the words of the interface. */
export const known = () => new Map([...REFUSALS].map(([code, [word]]) => [code, word]));

/** What a refusal means, or its word where it is none of these. */
export const meaning = (code, word) => REFUSALS.get(code)?.[1]() ?? t`The office refuses it: ${word}.`;
