/** The status of an order: "open" or "cancelled", as the office says, and "finished" where all of its batches are closed. Pure. */

import { key } from "./text.js";

export const OPEN = "open";
export const FINISHED = key`finished`;
export const STATUSES = [OPEN, FINISHED, "cancelled"];

/** The status of an order; `isClosed(n)` says whether its batch n is closed. */
export function statusOf({ status, batches }, isClosed) {
  if (status !== OPEN || !(batches > 0)) return status;
  for (let n = 1; n <= batches; n++) if (!isClosed(n)) return OPEN;
  return FINISHED;
}

/** The same by the batches that the companion tells; without one, what the office says. */
export const statusIn = (records, order) => (records ? statusOf(order, n => records.batch(order.order, n)?.closed === true) : order.status);

/**
 * The days of an order, as far as the companion tells them: when it was placed, when its first batch was opened, and, of a
 * finished one, when its last batch was closed.
 */
export function daysOf(records, order) {
  const batches = records?.batchesOf(order.order) ?? [];
  const days = name => batches.map(batch => batch[name]).filter(day => day !== undefined);
  const [opened, closed] = [days("openedOn"), days("closedOn")];
  const isFinished = statusIn(records, order) === FINISHED && closed.length === batches.length;
  return {
    placed: records?.order(order.order)?.placedOn,
    begun: opened.length === batches.length && opened.length > 0 ? Math.min(...opened) : undefined,
    finished: isFinished ? Math.max(...closed) : undefined,
  };
}
