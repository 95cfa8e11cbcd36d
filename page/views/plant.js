/** A lot of the plant that the owner's batches consumed: where it went. */

import { chip, PLANTS } from "../chips.js";
import { html, link } from "../dom.js";
import { Genealogy } from "../genealogy/view.js";
import { toStock } from "../router.js";
import { t } from "../text.js";
import { PLANT } from "../values.js";

export async function plant(page) {
  const { name } = page.route;
  const [forward, stock, records] = await Promise.all([...[`/trace/house/${name}`, "/stock"].map(path => page.get(path)), page.records()]);
  const genealogy = new Genealogy(page, {
    back: [{ lot: name, owner: PLANT, steps: 0 }],
    forward: forward.lots,
    stock: new Map(stock.lots.map(row => [row.lot, row])),
    records,
  });
  return {
    upward: link(toStock(), t`Stock`),
    title: t`Lot ${name} of the plant`,
    mark: chip(PLANTS),
    drawn: genealogy.drawn,
    body: [
      html("section", { class: "card facts" }, html("p", {}, t`The plant's own lot, which your batches consumed. You see which of your lots it went into. What it is made of and how much there is, is the plant's own.`)),
      genealogy.element,
    ],
  };
}
