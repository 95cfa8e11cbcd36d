/**
 * Which lots of a genealogy are shown, and by which edges they are joined. Pure.
 *
 * A trace tells lots with their fewest steps, and no edges. So the lots at one step of a lot's own trace
 * are its neighbours, and each lot that is shown is asked for them.
 */

/** The most lots that are shown at first, and that a further step adds. */
export const AT_FIRST = 28;
export const MORE = 30;

/** The most that a picture has; behind that, the table tells them. */
export const MOST = 300;

/** The id of a lot, OWNER/LOT; what has one already, such as a group's box, keeps it. */
export const idOf = ({ id, owner, lot }) => id ?? `${owner}/${lot}`;

/** The lots of both traces, each once: with its steps back and forward, or null where it isn't on a trace. */
export function lotsOf(back, forward) {
  const lots = new Map();
  const put = way => traced => {
    const lot = lots.get(idOf(traced)) ?? { id: idOf(traced), owner: traced.owner, lot: traced.lot, back: null, forward: null };
    lots.set(lot.id, { ...lot, [way]: traced.steps });
  };
  back.forEach(put("back"));
  forward.forEach(put("forward"));
  return [...lots.values()];
}

/** How many lots there are within each number of steps, the asked lot not counted: [1 step, 2 steps, ..]. */
export function within(trace) {
  const sums = [];
  // a trace is in the order of steps
  trace.forEach(({ steps }, i) => { if (steps > 0) sums[steps - 1] = i; });
  return sums;
}

/** How many lots of a trace are shown after another step was asked for: whole steps, if they aren't too large. */
export function further(trace, shown) {
  const next = within(trace).find(count => count > shown) ?? shown;
  return Math.min(next, shown + MORE);
}

/** How many lots of each trace are shown at first: step by step on both sides, while there aren't too many. */
export function atFirst(back, forward) {
  const shown = { back: Math.min(further(back, 0), AT_FIRST / 2), forward: Math.min(further(forward, 0), AT_FIRST / 2) };
  for (let grown = true; grown;) {
    grown = false;
    for (const [way, trace] of [["back", back], ["forward", forward]]) {
      const next = within(trace).find(count => count > shown[way]);
      if (next !== undefined && next + shown.back + shown.forward - shown[way] <= AT_FIRST) [shown[way], grown] = [next, true];
    }
  }
  return shown;
}

/** The most of each trace that a picture has. */
export function mostOf(back, forward) {
  const [b, f] = [back.length - 1, forward.length - 1];
  return { back: Math.min(b, Math.max(MOST / 2, MOST - f)), forward: Math.min(f, Math.max(MOST / 2, MOST - b)) };
}

/** The lots that are shown: so many of each trace, behind the asked one. */
export function shownOf(back, forward, shown) {
  return lotsOf(back.slice(0, shown.back + 1), forward.slice(0, shown.forward + 1));
}

/** The lots at one step of a trace: what the asked lot was directly made of, or directly went into. */
export const directOf = trace => trace.filter(lot => lot.steps === 1);

/** The box that stands for the lots of a way that aren't shown. */
export const foldOf = way => `fold/${way}`;

/**
 * The ways that each lot that is shown is asked, so that no edge of it is missed: for what it was made of;
 * where lots are folded that others went into, for what it went into, which tells the edges between lots
 * that are shown as well; and for both, where lots are folded on both sides.
 */
export function waysAsked(hidden) {
  const folded = new Set(hidden.values());
  if (!folded.has("forward")) return ["back"];
  return folded.has("back") ? ["back", "forward"] : ["forward"];
}

/**
 * The edges between lots that are shown. `neighbours` has of a lot's id the ids that are a step back and a
 * step forward, as far as they were asked. An edge to a lot that isn't shown leads to the fold of its way.
 */
export function edgesOf(shown, neighbours, hidden) {
  const here = new Set(shown.map(lot => lot.id));
  const placeOf = id => (here.has(id) ? id : hidden.has(id) ? foldOf(hidden.get(id)) : null);
  const edges = new Map();
  const add = (from, to) => {
    if (from !== null && to !== null && (here.has(from) || here.has(to))) edges.set(`${from}\n${to}`, [from, to]);
  };
  for (const { id } of shown) {
    for (const from of neighbours.get(id)?.back ?? []) add(placeOf(from), id);
    for (const to of neighbours.get(id)?.forward ?? []) add(id, placeOf(to));
  }
  return [...edges.values()];
}

/** The lots that aren't shown, with the way on which they are: back, where they are on both. */
export function hiddenOf(back, forward, shown) {
  const here = new Set(shownOf(back, forward, shown).map(lot => lot.id));
  const rest = lotsOf(back, forward).filter(lot => !here.has(lot.id));
  return new Map(rest.map(lot => [lot.id, lot.back !== null ? "back" : "forward"]));
}
