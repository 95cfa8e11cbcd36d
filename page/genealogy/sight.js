/** What of a picture is in sight. Pure. */

/** What is seen before the first box, where the picture goes on there: its edge isn't cut. */
const MARGIN = 8;

/**
 * Where a window of this length begins so that the asked box is in it: in the middle with all boxes that lead to it and
 * that it leads to, where they fit; else it begins with those that lead to it, where they fit; else with the asked box.
 * A box is [from, to].
 */
export function beginning(length, asked, ins, outs) {
  const wanted = [[asked, ...ins, ...outs], [asked, ...ins], [asked]].map(boxes => ({
    from: Math.min(...boxes.map(([from]) => from)), to: Math.max(...boxes.map(([, to]) => to)),
  }));
  const range = wanted.find(({ from, to }) => to - from <= length) ?? wanted.at(-1);
  return range === wanted[0] ? (range.from + range.to - length) / 2 : range.from - Math.max(0, Math.min(MARGIN, length - (range.to - range.from)));
}
