/** Links that the plant noted between lots, such as rework and returns. Pure. */

import { idOf } from "./lots.js";

/** The most lots that stand in a picture by such links alone. */
const MOST_ASIDE = 30;

/**
 * The links that touch what a picture shows: `edges` between boxes, and `aside`, the lots that stand in it by links
 * alone. `placeOf(id)` is the box of a lot, or null.
 */
export function notedIn(links, placeOf, edges) {
  const recorded = new Set(edges.map(edge => edge.join("\n")));
  const aside = new Map();
  const noted = new Map();
  for (const { from, to } of links) {
    const [source, target] = [from, to].map(end => placeOf(idOf(end)));
    if (source === null && target === null) continue;
    for (const [place, end] of [[source, from], [target, to]]) if (place === null && aside.size < MOST_ASIDE) aside.set(idOf(end), { ...end, id: idOf(end) });
    const edge = [source ?? idOf(from), target ?? idOf(to)];
    const isPlaced = edge.every((id, i) => [source, target][i] !== null || aside.has(id));
    if (isPlaced && edge[0] !== edge[1] && !recorded.has(edge.join("\n"))) noted.set(edge.join("\n"), edge);
  }
  return { aside: [...aside.values()], edges: [...noted.values()] };
}

/** The links that touch a lot, in words. */
export function linksOf(links, id) {
  const of = end => links.filter(link => idOf(link[end]) === id);
  return { from: of("to"), into: of("from") };
}
