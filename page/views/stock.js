/** The owner's stock: by lot, or summed up by material. */

import { chip } from "../chips.js";
import { html, link } from "../dom.js";
import { Finder } from "../list.js";
import { mayRelease } from "../person.js";
import { toLot, toRelease, toStock } from "../router.js";
import { key, plural, t } from "../text.js";
import { amount, compareNames, compareNumbers, isName, lotCount, number } from "../values.js";
import { plantsLotNamed } from "./tracing.js";

const ON_HAND = key`on hand`;
const EMPTY = key`empty`;
const fillingOf = row => (BigInt(row.amount) > 0n ? ON_HAND : EMPTY);
const DISPOSITIONS = ["quarantined", "released", "rejected"];

export async function stock(page) {
  const { lots } = await page.get("/stock");
  const byMaterial = page.route.query.get("by") === "material";
  const finder = byMaterial ? materialsOf(page, lots) : lotsOf(page, lots);
  const way = (title, address, here) => html("a", { href: address, "aria-current": here && "page" }, title);
  return {
    title: t`Stock`,
    drawn: finder.drawn,
    body: html("section", { class: "card" },
      html("div", { class: "line" },
        html("nav", { class: "ways", "aria-label": t`How stock is shown` },
          way(t`By lot`, toStock(), !byMaterial), way(t`By material`, toStock({ by: "material" }), byMaterial)),
        mayRelease(page.who) && lots.some(row => row.disposition === "quarantined") && link(toRelease(), t`Release many lots`)),
      finder.element),
  };
}

const byLot = (a, b) => compareNames(a.lot, b.lot);
const byAmount = (a, b) => compareNumbers(a.amount, b.amount) || byLot(a, b);
const byDisposition = (a, b) => compareNames(a.disposition, b.disposition) || byLot(a, b);

function lotsOf(page, rows) {
  const materials = [...new Set(rows.map(lot => lot.material))].sort(compareNames);
  return new Finder(page, {
    caption: t`Lots in stock`,
    words: {
      find: t`Find lots`, search: t`Search lots`, title: t`lots`, none: t`No lots yet.`, nothing: t`No lot fits what you searched and chose.`,
      count: lotCount, all: n => plural(n, "Show the lot", "Show all {0} lots"),
    },
    file: "stock",
    rows,
    search: lot => `${lot.lot} ${lot.material}`,
    choices: [
      { name: "material", title: t`Material`, options: materials, of: lot => lot.material },
      { name: "disposition", title: t`Disposition`, options: DISPOSITIONS, of: lot => lot.disposition },
      { name: "show", title: t`Show`, options: [ON_HAND, EMPTY], of: fillingOf, usual: { option: ON_HAND, hides: n => plural(n, "{0} more: an empty lot.", "{0} more: empty lots.") } },
    ],
    classOf: row => (fillingOf(row) === EMPTY ? "emptied" : null),
    elsewhere: text => (isName(text) ? plantsLotNamed(page, text) : null),
    columns: [
      { name: "lot", title: t`Lot`, cell: lot => link(toLot(lot.lot), lot.lot), compare: byLot, values: { Lot: lot => lot.lot } },
      { name: "material", title: t`Material`, cell: lot => lot.material, compare: (a, b) => compareNames(a.material, b.material) || byLot(a, b), values: { Material: lot => lot.material } },
      { name: "amount", title: t`On hand`, number: true, cell: lot => amount(lot.amount, lot.measure), compare: byAmount, values: { "On hand": lot => lot.amount, Measure: lot => lot.measure } },
      { name: "disposition", title: t`Disposition`, cell: lot => chip(lot.disposition), compare: byDisposition, values: { Disposition: lot => lot.disposition } },
    ],
  });
}

/** The sums of each material, over all its lots and over those of each disposition. */
export function sums(lots) {
  const totals = new Map();
  for (const { material, measure, amount: value, disposition } of lots) {
    const sum = totals.get(material) ?? { material, measure, lots: 0, all: 0n, quarantined: 0n, released: 0n, rejected: 0n };
    sum.lots += 1;
    sum.all += BigInt(value);
    sum[disposition] += BigInt(value);
    totals.set(material, sum);
  }
  return [...totals.values()];
}

function materialsOf(page, lots) {
  const byMaterial = (a, b) => compareNames(a.material, b.material);
  const sum = (name, title, file) => ({
    name, title, number: true, cell: total => amount(total[name], total.measure), compare: (a, b) => compareNumbers(a[name], b[name]) || byMaterial(a, b),
    values: { [file]: total => total[name] },
  });
  return new Finder(page, {
    caption: t`Stock by material`,
    words: {
      find: t`Find materials`, search: t`Search materials`, title: t`materials`, none: t`No materials yet.`, nothing: t`No material fits what you searched and chose.`,
      count: n => plural(n, "{0} material", "{0} materials"), all: n => plural(n, "Show the material", "Show all {0} materials"),
    },
    file: "stock-by-material",
    rows: sums(lots),
    search: total => total.material,
    columns: [
      { name: "material", title: t`Material`, cell: total => link(toStock({ material: total.material }), total.material), compare: byMaterial, values: { Material: total => total.material, Measure: total => total.measure } },
      { name: "lots", title: t`Lots`, number: true, cell: total => number(total.lots), compare: (a, b) => a.lots - b.lots || byMaterial(a, b), values: { Lots: total => total.lots } },
      sum("released", t`Released`, "Released"), sum("quarantined", t`Quarantined`, "Quarantined"), sum("rejected", t`Rejected`, "Rejected"), sum("all", t`On hand`, "On hand"),
    ],
  });
}
