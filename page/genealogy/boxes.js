/**
 * Which boxes a picture has and how they are joined, of both traces of a lot. Where the companion tells the same steps
 * as the office's traces, all edges are known, and lots are grouped before anything is folded. Otherwise the lots that
 * are shown are asked for their neighbours, and those among the same neighbours are grouped. Pure.
 */

import { amongSame, groupsOf, neighboursOfBoxes, tellsTrace, traceOfBoxes } from "./groups.js";
import { atFirst, edgesOf, foldOf, further, hiddenOf, lotsOf, mostOf, shownOf } from "./lots.js";

const NONE = { back: [], forward: [] };

export class Boxes {
  #traces;
  #kindOf;
  #known;
  #isWhole;
  #opened = new Map();
  #shown;
  #layer;

  /**
   * `back` and `forward` are traces whose rows have ids. `kindOf(id)`: the material and disposition of a lot, and its
   * batch where that is known (`{ kind, batch }`), or null. `records`: the companion's, or null.
   */
  constructor({ back, forward }, kindOf, records) {
    this.#traces = { back, forward };
    this.#kindOf = kindOf;
    const recorded = id => records.neighboursOf(id);
    // the plant's lot has no trace back here
    this.#isWhole = records !== null && tellsTrace(forward, "forward", recorded) && tellsTrace(back, "back", recorded);
    this.#known = this.#isWhole ? null : new Map();
    this.recorded = recorded;
    this.#regroup();
    this.#shown = atFirst(this.traces.back, this.traces.forward);
  }

  get asked() { return this.#traces.back[0].id; }
  get isWhole() { return this.#isWhole; }
  get shown() { return this.#shown; }

  /** The traces of boxes: of groups where all edges are known, else of lots. */
  get traces() { return this.#layer.traces; }

  /** Notes what a lot was asked for. */
  know(id, way, ids) {
    this.#known?.set(id, { ...this.#known.get(id), [way]: ids });
  }

  isKnown(id, way) {
    return this.#isWhole || this.#known.get(id)?.[way] !== undefined;
  }

  #neighboursOf(id) {
    return this.#isWhole ? this.recorded(id) : { ...NONE, ...this.#known.get(id) };
  }

  #kind(id, neighbours) {
    const batchAndKind = id === this.asked ? null : this.#kindOf(id);
    if (!batchAndKind) return null;
    return batchAndKind.batch ? `${batchAndKind.batch} | ${batchAndKind.kind}` : amongSame(batchAndKind.kind, neighbours);
  }

  #regroup() {
    const { back, forward } = this.#traces;
    if (!this.#isWhole) {
      this.#layer = { traces: this.#traces };
      return;
    }
    const ids = lotsOf(back, forward).map(row => row.id);
    const { places, groups } = groupsOf(ids, id => this.#kind(id, this.#neighboursOf(id)), this.#opened);
    this.#layer = {
      places, groups,
      traces: { back: traceOfBoxes(back, places), forward: traceOfBoxes(forward, places) },
      neighbours: neighboursOfBoxes(places, id => this.#neighboursOf(id)),
    };
  }

  // What is shown

  show(shown) {
    this.#shown = shown;
  }

  /** How much is shown after a further step on a way. */
  shownAfter(way) {
    const { back, forward } = this.traces;
    return { ...this.#shown, [way]: Math.min(further(this.traces[way], this.#shown[way]), mostOf(back, forward)[way]) };
  }

  get first() { return atFirst(this.traces.back, this.traces.forward); }
  get most() { return mostOf(this.traces.back, this.traces.forward); }
  get isOpened() { return this.#opened.size > 0; }

  /** Shows so many more lots of a group; what was shown stays in sight of the limits. */
  open(group, count) {
    this.#opened.set(group.id, group.shown + count);
    const before = { back: this.traces.back.length, forward: this.traces.forward.length };
    this.#regroup();
    const { back, forward } = this.traces;
    const most = mostOf(back, forward);
    const grown = way => Math.min(most[way], this.#shown[way] + this.traces[way].length - before[way]);
    this.#shown = { back: grown("back"), forward: grown("forward") };
  }

  /** All groups are folded again, and the picture is as it was at first. */
  fold() {
    this.#opened.clear();
    this.#regroup();
    this.#shown = this.first;
  }

  /** The boxes that are shown, and those that aren't, with the way on which they are. */
  get placed() {
    const { back, forward } = this.traces;
    return { shown: shownOf(back, forward, this.#shown), hidden: hiddenOf(back, forward, this.#shown) };
  }

  /**
   * What is drawn: `ids` of boxes, `edges`, the `groups` by their ids, `placeOf(id)`, the box or fold of a lot, and
   * `countOf(way)`, how many lots a fold stands for.
   */
  get drawn() {
    const { shown, hidden } = this.placed;
    return this.#isWhole ? this.#drawnWhole(shown, hidden) : this.#drawnAsked(shown, hidden);
  }

  #drawnWhole(shown, hidden) {
    const { places, groups, neighbours } = this.#layer;
    const sizeOf = id => groups.get(id)?.lots.length ?? 1;
    return this.#result(shown.map(row => row.id), edgesOf(shown, neighbours, hidden), groups, hidden, sizeOf, id => places.get(id));
  }

  /** Groups among the lots that are shown, by their edges in this picture. */
  #drawnAsked(shown, hidden) {
    const edges = edgesOf(shown, this.#known, hidden);
    const around = new Map(shown.map(row => [row.id, { back: [], forward: [] }]));
    for (const [from, to] of edges) {
      around.get(from)?.forward.push(to);
      around.get(to)?.back.push(from);
    }
    const { places, groups } = groupsOf(shown.map(row => row.id), id => this.#kind(id, around.get(id)), this.#opened);
    const place = id => places.get(id) ?? id;
    const joined = new Map(edges.map(([from, to]) => [`${place(from)}\n${place(to)}`, [place(from), place(to)]]));
    return this.#result([...new Set(places.values())], [...joined.values()], groups, hidden, () => 1, id => places.get(id) ?? (hidden.has(id) ? id : undefined));
  }

  #result(ids, edges, groups, hidden, sizeOf, boxOf) {
    const counts = { back: 0, forward: 0 };
    for (const [id, way] of hidden) counts[way] += sizeOf(id);
    const folds = ["back", "forward"].filter(way => counts[way] > 0).map(foldOf);
    const shown = new Set(ids);
    const placeOf = id => {
      const box = boxOf(id);
      return shown.has(box) ? box : hidden.has(box) ? foldOf(hidden.get(box)) : null;
    };
    return { ids: [...ids, ...folds], edges, groups, placeOf, countOf: way => counts[way] };
  }
}
