/**
 * Lots that are alike stand in one box: of one batch, material and disposition; or, of lots that no batch is known of,
 * of one material and disposition among the same neighbours. Pure.
 */

import { grouped } from "../records.js";

/** The fewest lots that make a group. */
export const FEWEST = 3;

/** How many lots of a group a click shows. */
export const UNFOLDED = 30;

const groupId = kind => `group/${kind}`;

/**
 * The boxes of lots. `kindOf(id)`: the text that lots of a group share; null for a lot that stands alone. `opened`: of a
 * group's id, how many of its lots are shown. Gives `places`, the box of each lot, and `groups`, the lots of each group.
 */
export function groupsOf(ids, kindOf, opened) {
  const alike = ids.map(id => ({ id, kind: kindOf(id) })).filter(({ kind }) => kind !== null);
  const kinds = grouped(alike, ({ kind }) => kind);
  const places = new Map(ids.map(id => [id, id]));
  const groups = new Map();
  for (const [kind, rows] of kinds) {
    const lots = rows.map(({ id }) => id);
    const shown = opened.get(groupId(kind)) ?? 0;
    const rest = lots.slice(shown);
    if (rest.length < FEWEST) continue;
    groups.set(groupId(kind), { id: groupId(kind), lots: rest, whole: lots.length, shown });
    for (const id of rest) places.set(id, groupId(kind));
  }
  return { places, groups };
}

/** A trace of lots as one of boxes: each once, with the fewest steps of its lots. A trace is in the order of steps. */
export function traceOfBoxes(trace, places) {
  const boxes = new Map();
  for (const { id, steps } of trace) if (!boxes.has(places.get(id))) boxes.set(places.get(id), { id: places.get(id), steps });
  return [...boxes.values()];
}

/** The neighbours of each box: the boxes of its lots' neighbours, without itself. */
export function neighboursOfBoxes(places, neighboursOf) {
  const boxes = new Map();
  for (const [id, box] of places) {
    if (!boxes.has(box)) boxes.set(box, { back: new Set(), forward: new Set() });
    for (const way of ["back", "forward"]) {
      for (const other of neighboursOf(id)[way]) if (places.has(other) && places.get(other) !== box) boxes.get(box)[way].add(places.get(other));
    }
  }
  return new Map([...boxes].map(([box, { back, forward }]) => [box, { back: [...back], forward: [...forward] }]));
}

/** The text that lots among the same neighbours share. */
export const amongSame = (kind, { back = [], forward = [] }) => [kind, [...back].sort().join(" "), [...forward].sort().join(" ")].join(" | ");

/** What neighbours tell of a lot's trace one way: each id with its fewest steps. */
function stepsFrom(id, way, neighboursOf) {
  const steps = new Map([[id, 0]]);
  for (const at of steps.keys()) {
    for (const next of neighboursOf(at)[way]) if (!steps.has(next)) steps.set(next, steps.get(at) + 1);
  }
  return steps;
}

/** Whether neighbours tell exactly this trace of the office's. A trace of a lot alone tells nothing where it isn't asked for. */
export function tellsTrace(trace, way, neighboursOf) {
  const steps = stepsFrom(trace[0].id, way, neighboursOf);
  return steps.size === trace.length && trace.every(row => steps.get(row.id) === row.steps);
}
